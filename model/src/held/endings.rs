//! Free and remove: the one ends heap blocks alone, the other stack blocks alone.

use super::{times, Held};
use crate::call::{Answer, Call};
use crate::generate::{shadows, Scale};
use crate::image::Shadows;
use crate::map::{Area, Map};
use crate::random::Random;

/// Addresses of both areas, beside them, and at the ends of the address space.
pub(super) fn near(map: Map) -> impl Iterator<Item = u32> {
    let near = [Area::Heap, Area::Stack].map(|area| map.bounds(area));
    let near = near.into_iter();
    let near = near.flat_map(|area| area.start - 1..area.end + 1);
    let all = (0..9).chain(near).chain([1 << 31, u64::from(u32::MAX)]);
    all.filter_map(|address| u32::try_from(address).ok())
}

impl Held {
    /// A call on a copy; a shadow of the other area stays.
    fn ended(&self, map: Map, bytes: &Shadows, one: Call) -> Answer {
        let mut lent = bytes.clone();
        let said = self.agreed(map, &mut lent, one);
        let stack = lent.primary == bytes.primary && lent.secondary == bytes.secondary;
        let kept = match one {
            Call::Free { .. } => stack,
            _ => lent.heap == bytes.heap,
        };
        assert!(kept, "{map:?} {one:?}");
        said
    }

    pub fn endings_at_every_address(&self) {
        let mut met = [0; 16];
        for seed in 0..2000 * times() {
            let mut random = Random::new(seed);
            let map = self.map(&mut random, Scale::Crowded);
            let (bytes, _) = shadows::any(&mut random, map);
            for base in near(map) {
                let freed = self.ended(map, &bytes, Call::Free { base }).number;
                let removed = self.ended(map, &bytes, Call::Remove { base }).number;
                match map.area(base) {
                    Some(Area::Stack) => assert_eq!(freed, 15, "{map:?} {base}"),
                    _ => assert_eq!(removed, 4, "{map:?} {base}"),
                }
                met[freed as usize] += 1;
                met[removed as usize] += 1;
            }
        }
        for number in [0, 4, 7, 8, 15] {
            assert!(met[number] > 1000, "{number}: {}", met[number]);
        }
    }
}
