//! A place for the next block (S-6), by the heap's bytes alone.

use std::ops::Range;

use super::Lent;
use crate::call::{refusal, Outcome};
use crate::plain::not_zero;

impl Lent<'_> {
    /// One climb from gap to gap; no address is read, so damage does not show.
    pub(super) fn place(&self, length: u32, budget: u32) -> Outcome {
        not_zero(length)?;
        let size = self.map.form.bytes();
        let needed = (1 + u64::from(length).div_ceil(size as u64)) * size as u64;
        let mut looked_at = 0;
        let mut chosen: Option<Range<usize>> = None;
        let mut position = 0;
        while looked_at < budget && position < self.heap.len() {
            let gap = self.zero_segments_from(position);
            if gap.is_empty() {
                position += size;
                continue;
            }
            looked_at += 1;
            position = gap.end;
            // An equal gap further up does not take the place of a lower one.
            let smaller = chosen.as_ref().is_none_or(|lower| gap.len() < lower.len());
            if gap.len() as u64 >= needed && smaller {
                chosen = Some(gap);
            }
        }
        let gap = chosen.ok_or(refusal::NO_GAP)?;
        let base = self.map.heap_start + (gap.start + size) as u32;
        Ok([base, looked_at, gap.len() as u32 - needed as u32, 0])
    }

    /// The positions of the zero segments that follow each other from here on.
    fn zero_segments_from(&self, start: usize) -> Range<usize> {
        let size = self.map.form.bytes();
        let segments = self.heap[start..].chunks(size);
        let zero = segments.take_while(|segment| segment.iter().all(|&byte| byte == 0));
        start..start + size * zero.count()
    }
}
