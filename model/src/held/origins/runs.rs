//! Runs from cleared shadows and cells: number, fields, every byte and the counter,
//! call by call, and whether a pointer is live by the history of calls.

use super::HeldOrigins;
use crate::generate::{self, Scale};
use crate::held::times;
use crate::origins::call::OriginsCall;
use crate::origins::cells::State;
use crate::origins::generate::Calls;
use crate::origins::history::History;
use crate::origins::list::OriginsList;
use crate::random::Random;

impl HeldOrigins {
    /// A run against the list, its image, its cells and its counter, and kind 13
    /// against the history.
    fn run(&self, seed: u64, scale: Scale, calls: u32) {
        let mut random = Random::new(seed);
        let map = generate::map(&mut random, scale);
        let mut list = OriginsList::new(map, 1);
        let mut lent = State::cleared(map);
        let mut made = Calls::default();
        let mut history = History::default();
        for _ in 0..calls {
            let one = made.next(&mut random, map, list.blocks());
            let answer = self.agreed(map, &mut lent, one);
            assert_eq!(list.step(one), answer, "seed {seed} {map:?} {one:?}");
            assert!(list.state() == lent, "seed {seed} {map:?} {one:?}");
            history.add(one, answer.number == 0);
            if let (OriginsCall::Live { cell, address }, 0) = (one, answer.number) {
                let live = u32::from(history.judges_live(cell, address));
                assert_eq!(answer.fields[0], live, "seed {seed} {map:?} {one:?}");
            }
        }
    }

    pub fn runs_at_middle_size(&self) {
        println!("seeds 0 to {}", 60 * times());
        for seed in 0..60 * times() {
            self.run(seed, Scale::Middle, 120);
        }
    }

    pub fn runs_at_full_size(&self) {
        println!("seeds 0 to {}", 6 * times());
        for seed in 0..6 * times() {
            self.run(seed, Scale::Full, 120);
        }
    }
}
