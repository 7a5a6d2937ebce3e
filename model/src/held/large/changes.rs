//! Bytes of an image changed, one at a time where a layout changes its kind, and
//! several at random, with the calls that read there.

use super::{Beside, Large, Lent, Listed, Met};
use crate::call::Call;
use crate::generate::layouts::{self, Filling, VARIANTS};
use crate::generate::places::gapped;
use crate::generate::telling::{own_places, places, some, told, Place};
use crate::generate::{map_of, shadows, Scale};
use crate::held::times;
use crate::image::{image, Shadows};
use crate::map::{Area, Map};
use crate::random::Random;

/// Other values of a byte: bits the other way, a step up and down, none and all.
pub(super) fn others(map: Map, place: Place, byte: u8) -> Vec<u8> {
    let step = match place {
        Place::Heap(_) => map.form.segment as u8,
        Place::Primary(_) => 4,
        Place::Secondary(_) => 8,
    };
    let (up, down) = (byte.wrapping_add(step), byte.wrapping_sub(step));
    let mut values = vec![byte ^ 1, up, byte ^ 128, 0, byte ^ 2, down, byte ^ 16, 255];
    values.retain(|&value| value != byte);
    values
}

impl<L: Lent> Large<L> {
    /// Each byte that tells, with other values: whether it still is an image, and
    /// what the addresses read as that the byte may tell of.
    pub fn changes_of_a_byte(&self) {
        let mut met = Met::default();
        for listed in self.fillings() {
            let mut beside = self.on_image(&listed);
            let (map, blocks) = &listed;
            for (nth, place) in places(*map, blocks).into_iter().enumerate() {
                let told = told(*map, blocks, place);
                let others = others(*map, place, beside.byte(place));
                let kept = self.count(others.len() as u64, 3) as usize;
                // Not the same values for the same byte of every segment.
                let first = nth + nth / 8;
                for index in first..first + kept {
                    let value = others[index % others.len()];
                    // At full size once for half of the places, the odd and the even
                    // ones of a segment by turns.
                    let by_turns = index == first && (nth + nth / 16).is_multiple_of(2);
                    let audited = match self.scale {
                        Scale::Full => by_turns,
                        _ => index.is_multiple_of(3),
                    };
                    beside.with(place, value, |beside| {
                        if audited {
                            met.add(beside.plain(Call::Audit));
                        }
                        read_at(beside, &told, index, &mut met);
                    });
                }
            }
        }
        met.at_least(100, &[0, 4, 7, 8, 15]);
    }

    /// Each byte of all shadows, one bit the other way: of a few thousand bytes all, of
    /// the largest areas one in many.
    pub fn every_byte_once(&self) {
        let mut met = Met::default();
        let (map, blocks) = self.filled(Filling::Mixed, 1);
        let (heap, stack) = (map.heap_size as usize, map.stack_size as usize);
        let heap = (0..heap).map(Place::Heap);
        let primary = (0..stack).map(Place::Primary);
        let secondary = (0..stack).map(Place::Secondary);
        let mut beside = self.on_image(&(map, blocks));
        let all = heap.chain(primary).chain(secondary);
        let all = all.step_by(self.count(1, 499) as usize);
        for (nth, place) in all.enumerate() {
            let bit = 1 << ((nth + nth / 8) % 8);
            let value = beside.byte(place) ^ bit;
            beside.with(place, value, |beside| {
                met.add(beside.plain(Call::Audit));
                let (_, address) = place.address(map);
                met.add(beside.plain(Call::Ask { address }));
            });
        }
        met.at_least(100, &[0, 8]);
    }

    /// The last block of each area with every value of each of its bytes.
    pub fn every_value_of_a_byte(&self) {
        let mut met = Met::default();
        let listed = self.filled(Filling::Mixed, 2);
        let mut beside = self.on_image(&listed);
        let (map, blocks) = &listed;
        for area in [Area::Stack, Area::Heap] {
            let blocks = some(*map, area, blocks);
            let last = blocks.last().expect("a block in each area");
            for place in own_places(*map, area, last) {
                let (_, address) = place.address(*map);
                let end = last.base + last.length - 1;
                for value in 0..=255u8 {
                    beside.with(place, value, |beside| {
                        for address in [address, last.base, end] {
                            met.add(beside.plain(Call::Ask { address }));
                        }
                        let audited = match self.scale {
                            Scale::Full => value.count_ones() == 1,
                            _ => value % 4 == 3 || value.is_power_of_two(),
                        };
                        if audited {
                            met.add(beside.plain(Call::Audit));
                        }
                    });
                }
            }
        }
        met.at_least(500, &[0, 7, 8]);
    }

    /// Any blocks, under any map, half of the time one that is not of full size but on
    /// one side or the other of a step, and bytes of any kind that go with them.
    fn any(&self, random: &mut Random) -> (Listed, Shadows) {
        let mut map = map_of(self.form, random, self.scale);
        if self.scale == Scale::Full && random.once_in(2) {
            map.heap_size = random.pick(&[16_400, 32_768, 65_520, 65_536, 65_552]);
            map.stack_size = random.pick(&[16_392, 32_768, 32_776, 65_528, 65_536]);
        }
        let variant = random.between(0, VARIANTS - 1);
        let filling = random.pick(&[Filling::Mixed, Filling::Whole, Filling::Smallest]);
        let (blocks, bytes) = match random.below(8) {
            0 => {
                let bytes = shadows::noise(random, map);
                (shadows::read_blocks(map, &bytes), bytes)
            }
            1 => (Vec::new(), gapped(random, map)),
            2..=4 => {
                let list = shadows::list(random, map, 60);
                (list.blocks().to_vec(), image(map, list.blocks()))
            }
            _ => {
                let blocks = layouts::blocks(map, filling, variant);
                let bytes = image(map, &blocks);
                (blocks, bytes)
            }
        };
        ((map, blocks), bytes)
    }

    /// Some changes at once, mostly where a layout changes its kind; calls there, and
    /// any others.
    pub fn damaged_and_random_bytes(&self) {
        let seeds = self.count(3000, 150) * times();
        println!("seeds 0 to {seeds}");
        let mut met = Met::default();
        for seed in 0..seeds {
            let mut random = Random::new(seed);
            let ((map, blocks), mut bytes) = self.any(&mut random);
            let places = places(map, &blocks);
            let mut near = vec![0];
            for _ in 0..random.below(5) {
                let place = random.pick(&places);
                match random.once_in(4) {
                    true => shadows::change(&mut random, self.form, &mut bytes),
                    false => shadows::change_there(&mut random, self.form, &mut bytes, place),
                }
                near.extend(told(map, &blocks, place));
            }
            let mut beside = self.beside(map, bytes);
            for _ in 0..12 {
                let (address, from) = (random.pick(&near), random.pick(&near));
                let readers = L::readers(address, random.between(1, 400), from);
                met.add(beside.call(random.pick(&readers)));
                met.add(beside.call(L::draw(&mut random, map, &blocks)));
            }
        }
        met.at_least(self.count(100, 5) as u32, &[0, 3, 4, 5, 6, 7, 8, 13, 15]);
    }
}

/// Each of these addresses is asked for, and at one of them another call is made.
fn read_at<L: Lent>(beside: &mut Beside<L>, told: &[u32], index: usize, met: &mut Met) {
    for &address in told {
        met.add(beside.plain(Call::Ask { address }));
    }
    let address = told[index % told.len()];
    let from = told[(index + 1) % told.len()];
    let n = 1 + index as u32 % 300;
    let readers = L::readers(address, n, from);
    met.add(beside.call(readers[index % readers.len()]));
    if index.is_multiple_of(11) {
        met.add(beside.plain(Call::Next { address }));
    }
}
