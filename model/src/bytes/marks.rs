//! Written bits in the heap: a byte of them for each eight bytes of a segment,
//! from the end of its number on.

use std::ops::Range;

use super::Lent;
use crate::map::Area;

impl Lent<'_> {
    /// The written bits of these heap positions, whatever stands there.
    pub(super) fn mark(&mut self, positions: Range<usize>) {
        for position in positions {
            let (byte, bit) = self.bit(position);
            self.heap[byte] |= 1 << bit;
        }
    }

    /// Where the written bit of a heap position stands: its byte, and its place there.
    fn bit(&self, position: usize) -> (usize, usize) {
        let place = position % self.map.form.bytes();
        let first = position - place + self.map.form.width;
        (first + place / 8, place % 8)
    }

    /// The written bit of an address of either area, whatever stands around it.
    pub(super) fn written_bit(&self, address: u32) -> bool {
        match self.map.area(address) {
            Some(Area::Heap) => {
                let (byte, bit) = self.bit(self.map.position(Area::Heap, address));
                self.heap[byte] >> bit & 1 == 1
            }
            Some(Area::Stack) => self.primary[self.map.position(Area::Stack, address)] & 1 == 1,
            None => false,
        }
    }
}
