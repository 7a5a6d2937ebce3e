//! Marks and tests of ranges of long blocks, from and to the bytes that tell.

use super::lent::ranged;
use super::{Beside, Large, Lent, Met};
use crate::block::Block;
use crate::call::Call;
use crate::generate::layouts::Filling;
use crate::generate::telling::{some, Place, STEPS};
use crate::map::{Area, Map};

/// Blocks longer than this are long enough.
const LONG: u32 = 200;

/// Where the written bit of an address stands: its byte, and the bit itself.
fn written_bit(map: Map, address: u32) -> Option<(Place, u8)> {
    let area = map.area(address)?;
    let position = map.position(area, address);
    Some(match area {
        Area::Stack => (Place::Primary(position), 1),
        Area::Heap => {
            let place = position % map.form.bytes();
            let byte = position - place + map.form.width + place / 8;
            (Place::Heap(byte), 1 << (place % 8))
        }
    })
}

/// The ends of ranges: of the block, of its first and last segment or piece, and on
/// both sides of every step.
fn cuts(block: &Block) -> Vec<u32> {
    let length = block.length;
    let steps = STEPS.iter().map(|&step| step as u32);
    let steps = steps.flat_map(|step| [step - 1, step, step + 1]);
    let ends = [0, 1, 8, length / 2, length - 8, length - 1, length];
    let mut cuts: Vec<u32> = steps.filter(|&cut| cut < length).chain(ends).collect();
    cuts.sort_unstable();
    cuts.dedup();
    cuts
}

impl<L: Lent> Large<L> {
    pub fn ranges(&self) {
        let mut met = Met::default();
        let mut initialised = [0; 2];
        let whole = self.filled(Filling::Whole, 1);
        for (map, mut blocks) in self.mixed().into_iter().chain([whole]) {
            let mut beside = self.on_image(&(map, blocks.clone()));
            for block in long(map, &blocks) {
                every_range(&mut beside, block, &mut met);
            }
            for block in &mut blocks {
                block.written.fill(true);
            }
            let mut written = self.on_image(&(map, blocks.clone()));
            for block in long(map, &blocks) {
                one_unwritten(&mut written, block, &mut initialised);
            }
        }
        met.at_least(30, &[0, 7, 13]);
        assert!(
            initialised.iter().all(|&count| count > 100),
            "{initialised:?}"
        );
    }
}

fn long(map: Map, blocks: &[Block]) -> impl Iterator<Item = &Block> {
    let both = [Area::Heap, Area::Stack].into_iter();
    let both = both.flat_map(move |area| some(map, area, blocks));
    both.filter(|block| block.length > LONG)
}

/// Every range between two cuts, and those one byte past the block.
fn every_range<L: Lent>(beside: &mut Beside<L>, block: &Block, met: &mut Met) {
    let (base, from) = (block.base, block.base + block.length - 1);
    let cuts = cuts(block);
    for (first, &begin) in cuts.iter().enumerate() {
        let ends = cuts[first + 1..].iter().copied();
        for end in ends.chain([block.length + 1]) {
            let (address, n) = (base + begin, end - begin);
            for one in ranged(address, n, from) {
                met.add(beside.plain(one));
            }
        }
    }
}

/// One byte at a time is not written: ranges that have it, and those that end just
/// before it or begin just behind.
fn one_unwritten<L: Lent>(beside: &mut Beside<L>, block: &Block, answers: &mut [u32; 2]) {
    for at in cuts(block).into_iter().filter(|&at| at < block.length) {
        let Some((place, bit)) = written_bit(beside.map, block.base + at) else {
            continue;
        };
        let byte = beside.byte(place);
        beside.with(place, byte & !bit, |beside| {
            for (begin, end) in [
                (0, at),
                (0, at + 1),
                (0, block.length),
                (at, block.length),
                (at + 1, block.length),
            ] {
                let (address, n) = (block.base + begin, end - begin);
                let said = beside.plain(Call::Initialised { address, n });
                answers[said.fields[0] as usize] += 1;
            }
        });
    }
}
