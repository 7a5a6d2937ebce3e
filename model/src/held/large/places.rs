//! A place for the next block in large heaps, with gaps that are as long as they
//! can be.

use super::{Beside, Large, Met};
use crate::call::Call;
use crate::generate::layouts::{map_at, Filling, VARIANTS};
use crate::generate::telling::{segments, Place, STEPS};
use crate::image::Shadows;

/// Budgets at both ends, and at the step to sixteen bits.
const BUDGETS: [u32; 7] = [0, 1, 2, 3, 65_535, 65_536, u32::MAX];

impl Large<Shadows> {
    pub fn places(&self) {
        let mut met = Met::default();
        for filling in [Filling::Mixed, Filling::Smallest] {
            let listed = self.filled(filling, 0);
            let mut beside = self.on_image(&listed);
            for block in listed.1.iter().rev().take(3) {
                asked(&mut beside, block.length, &mut met);
            }
            self.with_holes(&mut beside, &mut met);
        }
        for variant in 0..VARIANTS {
            let map = map_at(self.form, self.scale, variant);
            let mut cleared = self.beside(map, Shadows::cleared(map));
            asked(&mut cleared, map.heap_size, &mut met);
            for at in segments(map, &[]) {
                // Two gaps, one on either side of the byte.
                for byte in [at, at + map.form.bytes() - 1] {
                    cleared.with(Place::Heap(byte), 1 << variant, |cleared| {
                        asked(cleared, at as u32, &mut met);
                    });
                }
            }
        }
        met.at_least(100, &[0, 3, 14]);
    }

    /// The first of every eight segments cleared, or the first three: a long row of
    /// gaps of two sizes.
    fn with_holes(&self, beside: &mut Beside<Shadows>, met: &mut Met) {
        let size = self.form.bytes();
        let mut bytes = beside.before.clone();
        for (nth, eight) in bytes.heap.chunks_mut(8 * size).enumerate() {
            let hole = match nth % 3 {
                0 => 3 * size,
                _ => size,
            };
            eight[..hole].fill(0);
        }
        asked(
            &mut self.beside(beside.map, bytes),
            2 * self.form.segment,
            met,
        );
    }
}

/// Lengths around what a gap of so many bytes and the rest of the heap hold, and at
/// every step, under every budget.
fn asked(beside: &mut Beside<Shadows>, gap: u32, met: &mut Met) {
    let (segment, size) = (beside.map.form.segment, beside.map.heap_size);
    let mut lengths = vec![0, 1, segment, segment + 1, u32::MAX];
    for room in [gap, size - gap.min(size), size - (gap + segment).min(size)] {
        let fitting = room.saturating_sub(segment);
        lengths.extend([fitting.saturating_sub(segment), fitting, fitting + 1]);
    }
    lengths.extend(STEPS.map(|step| step as u32));
    for (nth, length) in lengths.into_iter().enumerate() {
        let budget = BUDGETS[nth % BUDGETS.len()];
        for budget in [u32::MAX, budget, 1] {
            met.add(beside.plain(Call::Place { length, budget }));
        }
    }
}
