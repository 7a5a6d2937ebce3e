//! A place for the next block, on lists and on any bytes.

use super::{times, Held};
use crate::call::Call;
use crate::generate::places::{gapped, place, place_on};
use crate::generate::{self, shadows, Scale};
use crate::image::{image, Shadows};
use crate::plain::{List, PlainList};
use crate::plain_btree::PlainTree;
use crate::random::Random;

impl Held {
    /// Every length that could fit and some more, under every budget that tells
    /// gaps apart.
    pub fn every_length_and_budget(&self) {
        let segment = self.form.segment;
        for seed in 0..60 * times() {
            let mut random = Random::new(seed);
            let map = self.map(&mut random, Scale::Crowded);
            let bytes = match seed % 3 {
                0 => shadows::damaged(&mut random, map, 0),
                1 => shadows::noise(&mut random, map),
                _ => gapped(&mut random, map),
            };
            for length in 0..=map.heap_size + segment + 1 {
                let gaps = map.heap_size / (2 * segment);
                for budget in (0..=gaps + 1).chain([u32::MAX]) {
                    self.asked(map, &bytes, Call::Place { length, budget });
                }
            }
        }
    }

    pub fn places_on_any_bytes(&self) {
        let mut met = [0; 15];
        for seed in 0..40_000 * times() {
            let mut random = Random::new(seed);
            let map = self.map(&mut random, Scale::Crowded);
            let bytes = match random.below(3) {
                0 => shadows::noise(&mut random, map),
                1 => shadows::damaged(&mut random, map, seed % 4),
                _ => gapped(&mut random, map),
            };
            let one = place_on(&mut random, map.form, &bytes.heap);
            met[self.asked(map, &bytes, one).number as usize] += 1;
        }
        for number in [0, 3, 14] {
            assert!(met[number] > 1000, "{number}: {}", met[number]);
        }
    }

    pub fn places_on_the_largest_heaps(&self) {
        let mut accepted = 0;
        for seed in 0..40 * times() {
            let mut random = Random::new(seed);
            let map = self.map(&mut random, Scale::Full);
            let bytes = gapped(&mut random, map);
            for _ in 0..8 {
                let one = place_on(&mut random, map.form, &bytes.heap);
                accepted += u32::from(self.asked(map, &bytes, one).number == 0);
            }
        }
        assert!(accepted > 50, "{accepted}");
    }

    /// Lists of every kind, asked often, and blocks recorded where the library
    /// places them.
    pub fn runs_with_placed_blocks(&self) {
        let mut recorded = 0;
        for seed in 0..400 * times() {
            let mut random = Random::new(seed);
            let map = self.map(&mut random, Scale::Crowded);
            let (mut list, mut tree) = (PlainList::new(map), PlainTree::new(map));
            let mut lent = Shadows::cleared(map);
            let mut step = |list: &mut PlainList, one| {
                let said = self.agreed(map, &mut lent, one);
                assert_eq!(list.step(one), said, "seed {seed} {map:?} {one:?}");
                assert_eq!(tree.step(one), said, "seed {seed} {map:?} {one:?}");
                assert!(image(map, list.blocks()) == lent, "seed {seed} {one:?}");
                said
            };
            for _ in 0..60 {
                let other = generate::call(&mut random, map, list.blocks());
                step(&mut list, other);
                let one = place(&mut random, map, list.blocks());
                let said = step(&mut list, one);
                let Call::Place { length, .. } = one else {
                    panic!("no place: {one:?}");
                };
                if said.number == 0 && random.once_in(2) {
                    let base = said.fields[0];
                    let begun = step(&mut list, Call::Record { base, length });
                    assert_eq!(begun.number, 0, "seed {seed} {map:?} {one:?}");
                    recorded += 1;
                }
            }
        }
        assert!(recorded > 1000, "{recorded}");
    }
}
