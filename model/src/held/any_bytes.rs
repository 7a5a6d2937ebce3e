//! Calls on bytes that are an image, a damaged one, gaps or noise, and on maps
//! and lengths that need not be right.

use super::{times, Held};
use crate::call::Call;
use crate::generate::places::place_on;
use crate::generate::{self, edge_map_of, shadows, Scale};
use crate::image::Shadows;
use crate::random::Random;

/// Another length of some of the shadows, at times.
fn made_wrong(random: &mut Random, lent: &mut Shadows) {
    for shadow in [&mut lent.heap, &mut lent.primary, &mut lent.secondary] {
        let length = shadow.len();
        let shorter = random.below(length as u64) as usize;
        if random.once_in(6) {
            shadow.resize(random.pick(&[length - 1, length + 1, 0, shorter]), 0);
        }
    }
}

/// Which numbers the calls on any bytes gave, and how often.
type Met = [u32; 16];

impl Held {
    pub fn calls_on_damaged_and_random_bytes(&self) {
        println!("seeds 0 to {}", 80_000 * times());
        let (mut met, mut freed, mut removed) = (Met::default(), Met::default(), Met::default());
        for seed in 0..80_000 * times() {
            let mut random = Random::new(seed);
            let map = self.map(&mut random, Scale::Crowded);
            let (mut lent, one) = shadows::any(&mut random, map);
            let said = self.agreed(map, &mut lent, one);
            met[said.number as usize] += 1;
            match one {
                Call::Free { .. } => freed[said.number as usize] += 1,
                Call::Remove { .. } => removed[said.number as usize] += 1,
                _ => {}
            }
        }
        for number in [0, 3, 4, 5, 6, 7, 8, 13, 14, 15] {
            assert!(met[number] > 100, "{number}: {}", met[number]);
        }
        for number in [0, 4, 7, 8] {
            assert!(freed[number] > 100, "free {number}: {}", freed[number]);
            assert!(removed[number] > 100, "{number}: {}", removed[number]);
        }
        assert!(freed[15] > 100 && removed[15] == 0, "{freed:?} {removed:?}");
    }

    /// The same ranges asked of both, and written, where the marks of a block may
    /// be mixed.
    pub fn ranges_under_mixed_marks(&self) {
        let mut told_apart = 0;
        for seed in 0..20_000 * times() {
            let mut random = Random::new(seed);
            let map = self.map(&mut random, Scale::Crowded);
            let bytes = shadows::damaged(&mut random, map, 1 + seed % 3);
            let blocks = shadows::read_blocks(map, &bytes);
            if blocks.is_empty() {
                continue;
            }
            for _ in 0..6 {
                let (address, n, from) = match generate::inside(&mut random, &blocks) {
                    Call::Valid { address, n, from } | Call::ValidRead { address, n, from } => {
                        (address, n, from)
                    }
                    _ => continue,
                };
                let said = |one| self.asked(map, &bytes, one);
                let valid = said(Call::Valid { address, n, from });
                let readable = said(Call::ValidRead { address, n, from });
                said(Call::Written { address, n });
                told_apart += u32::from(valid != readable);
            }
        }
        assert!(told_apart > 1000, "{told_apart}");
    }

    /// 1 and 2 before all else, for every call, free of 0 among them.
    pub fn bad_maps_and_wrong_lengths(&self) {
        println!("seeds 0 to {}", 40_000 * times());
        let mut met = Met::default();
        for seed in 0..40_000 * times() {
            let mut random = Random::new(seed);
            let good = self.map(&mut random, Scale::Crowded);
            let (mut lent, any) = shadows::any(&mut random, good);
            let map = match random.once_in(2) {
                true => edge_map_of(self.form, &mut random),
                false => good,
            };
            made_wrong(&mut random, &mut lent);
            let other = generate::call(&mut random, good, &[]);
            let place = place_on(&mut random, self.form, &lent.heap);
            let (base, stack) = (map.heap_start, map.stack_start);
            for one in [
                any,
                other,
                place,
                Call::Free { base: 0 },
                Call::Free { base },
                Call::Remove { base: stack },
            ] {
                met[self.asked(map, &lent, one).number as usize] += 1;
            }
        }
        assert!(met[1] > 1000 && met[2] > 1000, "{met:?}");
    }
}
