//! Runs from cleared shadows: number, fields and every shadow byte, call by call.

use super::{times, Held};
use crate::generate::{self, Scale};
use crate::image::{image, Shadows};
use crate::plain::{List, PlainList};
use crate::random::Random;

impl Held {
    /// A run against the plain list and its image.
    fn run(&self, seed: u64, scale: Scale, calls: u32) {
        let mut random = Random::new(seed);
        let map = self.map(&mut random, scale);
        let mut list = PlainList::new(map);
        let mut lent = Shadows::cleared(map);
        for _ in 0..calls {
            let one = generate::call(&mut random, map, list.blocks());
            let answer = (self.library)(map, &mut lent, one);
            assert_eq!(list.step(one), answer, "seed {seed} {map:?} {one:?}");
            let same = image(map, list.blocks()) == lent;
            assert!(same, "bytes differ: seed {seed} {map:?} {one:?}");
        }
    }

    pub fn runs_in_crowded_areas(&self) {
        println!("seeds 0 to {}", 1500 * times());
        for seed in 0..1500 * times() {
            self.run(seed, Scale::Crowded, 120);
        }
    }

    pub fn runs_at_middle_size(&self) {
        println!("seeds 0 to {}", 60 * times());
        for seed in 0..60 * times() {
            self.run(seed, Scale::Middle, 150);
        }
    }

    pub fn runs_at_full_size(&self) {
        println!("seeds 0 to {}", 10 * times());
        for seed in 0..10 * times() {
            self.run(seed, Scale::Full, 150);
        }
    }
}
