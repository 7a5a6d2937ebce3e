//! Every call at every address of small areas, on bytes of any kind, and every
//! change of one byte of an image.

use super::endings::near;
use super::{times, Held};
use crate::block::Beginning;
use crate::call::Call;
use crate::generate::{shadows, Scale};
use crate::image::{image, Shadows};
use crate::map::Map;
use crate::plain::{List, PlainList};
use crate::random::Random;

impl Held {
    /// A small map, and bytes of any kind.
    fn small(&self, seed: u64) -> (Random, Map, Shadows) {
        let mut random = Random::new(seed);
        let map = self.map(&mut random, Scale::Crowded);
        let (bytes, _) = shadows::any(&mut random, map);
        (random, map, bytes)
    }

    pub fn every_call_at_every_address(&self) {
        let segment = self.form.segment;
        for seed in 0..200 * times() {
            let (mut random, map, bytes) = self.small(seed);
            self.asked(map, &bytes, Call::Audit);
            self.asked(map, &bytes, Call::Clear);
            for address in near(map) {
                let from = address.wrapping_add(random.between(0, 2 * segment));
                let from = from.wrapping_sub(segment);
                let n = random.between(1, 3 * segment);
                for n in [1, 2, n] {
                    for one in [
                        Call::Written { address, n },
                        Call::Initialised { address, n },
                        Call::Valid { address, n, from },
                        Call::ValidRead { address, n, from },
                    ] {
                        self.asked(map, &bytes, one);
                    }
                }
                self.asked(map, &bytes, Call::Ask { address });
                self.asked(map, &bytes, Call::Next { address });
            }
        }
    }

    /// Recordings of each kind, with lengths at the ends of segments.
    pub fn every_record_at_every_address(&self) {
        let segment = self.form.segment;
        let mut met = [0; 7];
        for seed in 0..200 * times() {
            let (mut random, map, mut bytes) = self.small(seed);
            if random.once_in(2) {
                bytes.heap.fill(0);
            }
            let any = random.between(1, map.heap_size);
            for base in near(map) {
                for length in [0, 1, segment, segment + 1, any] {
                    for beginning in [Beginning::Unwritten, Beginning::Written, Beginning::Literal]
                    {
                        let one = Call::to_begin(beginning, base, length);
                        met[self.asked(map, &bytes, one).number as usize] += 1;
                    }
                }
            }
        }
        for number in [0, 3, 4, 5, 6] {
            assert!(met[number] > 1000, "{number}: {met:?}");
        }
    }

    /// Every byte of an image with every value: whether it still is an image, and
    /// what each address reads as.
    pub fn every_change_of_one_byte(&self) {
        let segment = self.form.segment;
        let map = Map::new(96, 6 * segment, 8, 32).of(self.form);
        let mut list = PlainList::new(map);
        let (low, high) = (map.heap_start + segment, map.heap_start + 3 * segment);
        let heap = [(low, segment - 3), (high, 2 * segment + 1)];
        for (base, length) in heap.into_iter().chain([(8, 2), (10, 11)]) {
            assert_eq!(list.step(Call::Record { base, length }).number, 0);
            let (address, n) = (base + 1, 1);
            list.step(Call::Written { address, n });
        }
        let (base, length) = (26, 3);
        list.step(Call::RecordLiteral { base, length });
        let bytes = image(map, list.blocks());
        for position in 0..map.heap_size as usize + 2 * 32 {
            for value in 0..=255 {
                let changed = with_byte(&bytes, position, value);
                self.asked(map, &changed, Call::Audit);
                if value.count_ones() == 1 {
                    for address in near(map) {
                        self.asked(map, &changed, Call::Ask { address });
                    }
                }
            }
        }
    }
}

/// The shadows, one after the other, with this value at a position.
fn with_byte(bytes: &Shadows, position: usize, value: u8) -> Shadows {
    let mut changed = bytes.clone();
    let stack = changed.primary.iter_mut().chain(&mut changed.secondary);
    let mut all = changed.heap.iter_mut().chain(stack);
    *all.nth(position).expect("a position of the shadows") = value;
    changed
}
