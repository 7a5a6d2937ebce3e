//! Wrong maps of large areas, and shadows of other lengths than theirs: 1 and 2
//! before all else.

use super::{Large, Lent, Met};
use crate::call::Call;
use crate::generate::layouts::{map_at, VARIANTS};
use crate::generate::telling::STEPS;
use crate::image::Shadows;
use crate::map::Map;

/// So much more or less, up to what sixteen bits do not tell apart.
pub(super) fn differences() -> impl Iterator<Item = i64> {
    let few = [1, 4, 8, 16].into_iter();
    let all = few.chain(STEPS);
    all.flat_map(|by| [by, -by])
}

/// A number of a map that is off by so much, if it still is one.
fn off(number: u32, by: i64) -> Option<u32> {
    u32::try_from(i64::from(number) + by).ok()
}

/// Maps that differ in one number, good or not.
fn beside(map: Map) -> Vec<Map> {
    let mut maps = Vec::new();
    for by in differences() {
        let mut add = |heap_start, heap_size, stack_start, stack_size| {
            let numbers = (heap_start, heap_size, stack_start, stack_size);
            if let (Some(a), Some(b), Some(c), Some(d)) = numbers {
                maps.push(Map::new(a, b, c, d).of(map.form));
            }
        };
        let [a, b, c, d] = [
            map.heap_start,
            map.heap_size,
            map.stack_start,
            map.stack_size,
        ];
        add(off(a, by), Some(b), Some(c), Some(d));
        add(Some(a), off(b, by), Some(c), Some(d));
        add(Some(a), Some(b), off(c, by), Some(d));
        add(Some(a), Some(b), Some(c), off(d, by));
    }
    maps
}

/// Shadows of which one has another length.
fn of_other_lengths(map: Map) -> Vec<Shadows> {
    let mut found = Vec::new();
    for by in differences() {
        let mut lent = [0; 3].map(|_| Shadows::cleared(map));
        let [one, two, three] = &mut lent;
        for shadow in [&mut one.heap, &mut two.primary, &mut three.secondary] {
            let length = (shadow.len() as i64 + by).max(0);
            shadow.resize(length as usize, 0);
        }
        found.extend(lent);
    }
    found
}

impl<L: Lent> Large<L> {
    pub fn wrong_maps_and_lengths(&self) {
        let mut met = Met::default();
        for variant in 0..VARIANTS {
            let map = map_at(self.form, self.scale, variant);
            let mut lent = self.beside(map, Shadows::cleared(map));
            for other in beside(map) {
                lent.map = other;
                let base = other.heap_start.wrapping_add(other.form.segment);
                for one in calls(base).into_iter().chain(calls(other.stack_start)) {
                    met.add(lent.plain(one));
                }
            }
            for bytes in of_other_lengths(map) {
                let mut lent = self.beside(map, bytes);
                for one in calls(map.heap_start + map.form.segment) {
                    met.add(lent.plain(one));
                }
            }
        }
        met.at_least(500, &[1, 2]);
        met.at_least(50, &[0, 4, 7]);
    }
}

/// One call of each kind.
pub(super) fn calls(base: u32) -> Vec<Call> {
    let (length, n, address, from) = (1, 1, base, base);
    vec![
        Call::Clear,
        Call::Record { base, length },
        Call::RecordWritten { base, length },
        Call::RecordLiteral { base, length },
        Call::Free { base },
        Call::Free { base: 0 },
        Call::Remove { base },
        Call::Written { address, n },
        Call::Ask { address },
        Call::Valid { address, n, from },
        Call::ValidRead { address, n, from },
        Call::Initialised { address, n },
        Call::Next { address: u32::MAX },
        Call::Audit,
    ]
}
