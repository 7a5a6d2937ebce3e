//! Recordings at the addresses that tell: in filled areas, in cleared ones, and where
//! one byte of the place is not zero.

use super::{Beside, Large, Lent, Met};
use crate::block::{Beginning, Block};
use crate::call::Call;
use crate::generate::layouts::{blocks, map_at, Filling};
use crate::generate::telling::{addresses, places, STEPS};
use crate::image::{image, Shadows};
use crate::map::Map;

const BEGINNINGS: [Beginning; 3] = [Beginning::Unwritten, Beginning::Written, Beginning::Literal];

/// Lengths at the ends of segments, at every step, and at the end of the area.
fn lengths(map: Map, base: u32) -> Vec<u32> {
    let segment = map.form.segment;
    let mut lengths = vec![0, 1, segment, segment + 1];
    if let Some(area) = map.area(base) {
        let to_end = (map.bounds(area).end - u64::from(base)) as u32;
        lengths.extend([to_end - 1, to_end, to_end + 1, to_end / 2]);
    }
    lengths.extend(
        STEPS
            .iter()
            .flat_map(|&step| [step as u32 - 1, step as u32]),
    );
    lengths
}

impl<L: Lent> Large<L> {
    pub fn recordings(&self) {
        let mut met = Met::default();
        for variant in self.variants() {
            let map = map_at(self.form, self.scale, variant);
            let taken = blocks(map, Filling::Mixed, variant);
            let mut filled = self.beside(map, image(map, &taken));
            let mut cleared = self.beside(map, Shadows::cleared(map));
            for block in &blocks(map, Filling::Whole, variant) {
                over_one_byte(&mut cleared, block, &mut met);
            }
            for block in taken.iter().filter(|block| block.length > 100) {
                over_one_byte(&mut cleared, block, &mut met);
            }
            at_each(&mut filled, addresses(map, &taken), variant, &mut met);
            at_each(&mut cleared, addresses(map, &[]), variant, &mut met);
        }
        met.at_least(100, &[0, 3, 4, 5, 6]);
    }
}

/// A recording of each length at each of these bases, begun in one way or another.
fn at_each<L: Lent>(beside: &mut Beside<L>, bases: Vec<u32>, variant: u32, met: &mut Met) {
    for (nth, base) in bases.into_iter().enumerate() {
        for (index, length) in lengths(beside.map, base).into_iter().enumerate() {
            let beginning = BEGINNINGS[(nth + index + variant as usize) % 3];
            met.add(beside.plain(Call::to_begin(beginning, base, length)));
        }
    }
}

/// This block recorded with one byte that tells of it not zero: all of its shadow is
/// looked at, and nothing else.
fn over_one_byte<L: Lent>(cleared: &mut Beside<L>, block: &Block, met: &mut Met) {
    let places = places(cleared.map, std::slice::from_ref(block));
    for (nth, place) in places.into_iter().enumerate() {
        let beginning = BEGINNINGS[nth % 3];
        cleared.with(place, 1 << (nth % 8), |cleared| {
            let (base, length) = (block.base, block.length);
            met.add(cleared.plain(Call::to_begin(beginning, base, length)));
        });
    }
}
