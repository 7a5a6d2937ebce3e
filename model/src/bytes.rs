//! The byte-level model: all calls on any map and any shadow bytes.
//!
//! It keeps nothing between calls; the shadows hold all of the state.

mod marks;
mod place;

use std::ops::Range;

use crate::block::{footprint, placement_as, Beginning};
use crate::call::{refusal, Answer, Call, Outcome, NO_FIELDS};
use crate::decode::decode;
use crate::image::{stack_code, LONGEST_SHORT};
use crate::map::{Area, Map, NULL};
use crate::plain::{not_literal, not_zero, totals};
use crate::reading::{Found, Reading, View};

/// One call on lent shadows.
pub fn call(
    map: Map,
    heap: &mut [u8],
    primary: &mut [u8],
    secondary: &mut [u8],
    call: Call,
) -> Answer {
    let mut lent = Lent {
        map,
        heap,
        primary,
        secondary,
    };
    lent.outcome(call).into()
}

struct Lent<'a> {
    map: Map,
    heap: &'a mut [u8],
    primary: &'a mut [u8],
    secondary: &'a mut [u8],
}

impl Lent<'_> {
    fn outcome(&mut self, call: Call) -> Outcome {
        self.check()?;
        match call {
            Call::Clear => Ok(self.clear()),
            Call::Record { base, length } => self.record(base, length, Beginning::Unwritten),
            Call::RecordWritten { base, length } => self.record(base, length, Beginning::Written),
            Call::RecordLiteral { base, length } => self.record(base, length, Beginning::Literal),
            Call::Free { base } => self.free(base),
            Call::Remove { base } => self.remove(base),
            Call::Written { address, n } => self.written(address, n),
            Call::Ask { address } => self.ask(address),
            Call::Valid { address, n, from } => self.valid(address, n, from),
            Call::ValidRead { address, n, from } => self.valid_read(address, n, from),
            Call::Initialised { address, n } => self.initialised(address, n),
            Call::Next { address } => self.next(address),
            Call::Place { length, budget } => self.place(length, budget),
            Call::Audit => self.audit(),
        }
    }

    /// Numbers 1 and 2, which come before all else.
    fn check(&self) -> Result<(), u32> {
        if !self.map.good() {
            return Err(refusal::BAD_MAP);
        }
        let heap_size = self.map.heap_size as usize;
        let stack_size = self.map.stack_size as usize;
        if self.heap.len() != heap_size
            || self.primary.len() != stack_size
            || self.secondary.len() != stack_size
        {
            return Err(refusal::SHADOW_LENGTH);
        }
        Ok(())
    }

    fn view(&self) -> View<'_> {
        View {
            map: self.map,
            heap: self.heap,
            primary: self.primary,
            secondary: self.secondary,
        }
    }

    fn clear(&mut self) -> [u32; 4] {
        self.heap.fill(0);
        self.primary.fill(0);
        self.secondary.fill(0);
        NO_FIELDS
    }

    /// The three ways to record.
    fn record(&mut self, base: u32, length: u32, beginning: Beginning) -> Outcome {
        let area = placement_as(beginning, self.map, base, length)?;
        let place = self.positions(area, base, length);
        let zero = |shadow: &[u8]| shadow[place.clone()].iter().all(|&byte| byte == 0);
        let free = match area {
            Area::Heap => zero(self.heap),
            Area::Stack => zero(self.primary) && zero(self.secondary),
        };
        if !free {
            return Err(refusal::TAKEN);
        }
        match area {
            Area::Heap => self.record_heap(place, length, beginning == Beginning::Written),
            Area::Stack => self.record_stack(place, length, beginning),
        }
        Ok(NO_FIELDS)
    }

    /// The place was zero, and so are the upper bytes of a number that is wider
    /// than a length.
    fn record_heap(&mut self, place: Range<usize>, length: u32, written: bool) {
        let size = self.map.form.bytes();
        put(self.heap, place.start + self.map.form.width, length);
        let mut offset = 0;
        for segment in (place.start + size..place.end).step_by(size) {
            put(self.heap, segment, offset + 1);
            offset += size as u32;
        }
        if written {
            self.mark(place.start + size..place.start + size + length as usize);
        }
    }

    fn record_stack(&mut self, place: Range<usize>, length: u32, beginning: Beginning) {
        let low_bits = match beginning {
            Beginning::Unwritten => 0b00,
            Beginning::Written => 0b01,
            Beginning::Literal => 0b11,
        };
        for (offset, position) in place.clone().enumerate() {
            let code = stack_code(length, offset as u32);
            self.primary[position] = code << 2 | low_bits;
        }
        if length <= LONGEST_SHORT {
            return;
        }
        // A piece starts every eight bytes as long as eight more are there.
        let mut offset = 0;
        while offset + 8 <= length {
            let piece = place.start + offset as usize;
            put(self.secondary, piece, length);
            put(self.secondary, piece + 4, offset);
            offset += 8;
        }
    }

    fn free(&mut self, base: u32) -> Outcome {
        // No byte is read or altered here, so damage does not show (S-2).
        if base == NULL {
            return Ok(NO_FIELDS);
        }
        match self.map.area(base) {
            None => Err(refusal::OUTSIDE),
            // Nor is one read here: 15 comes ahead of 8 and 7 (S-7).
            Some(Area::Stack) => Err(refusal::IN_STACK),
            Some(Area::Heap) => {
                let place = self.begun_at(Area::Heap, base)?;
                self.heap[place].fill(0);
                Ok(NO_FIELDS)
            }
        }
    }

    fn remove(&mut self, base: u32) -> Outcome {
        if self.map.area(base) != Some(Area::Stack) {
            return Err(refusal::OUTSIDE);
        }
        let place = self.begun_at(Area::Stack, base)?;
        self.primary[place.clone()].fill(0);
        self.secondary[place].fill(0);
        Ok(NO_FIELDS)
    }

    /// The footprint of the block that begins at this address, by its one reading.
    fn begun_at(&self, area: Area, base: u32) -> Result<Range<usize>, u32> {
        let found = self.view().read(base).block()?;
        let found = found.filter(|found| found.offset == 0);
        let length = found.ok_or(refusal::NO_BLOCK)?.length;
        Ok(self.positions(area, base, length))
    }

    fn written(&mut self, address: u32, n: u32) -> Outcome {
        not_zero(n)?;
        let area = self.map.area(address).ok_or(refusal::OUTSIDE)?;
        let found = self.view().read(address).block()?;
        let found = found.filter(|f| f.holds(n)).ok_or(refusal::NO_BLOCK)?;
        not_literal(found.literal)?;
        let first = self.map.position(area, address);
        let positions = first..first + n as usize;
        match area {
            Area::Heap => self.mark(positions),
            Area::Stack => self.primary[positions]
                .iter_mut()
                .for_each(|byte| *byte |= 1),
        }
        Ok(NO_FIELDS)
    }

    fn ask(&self, address: u32) -> Outcome {
        self.map.area(address).ok_or(refusal::OUTSIDE)?;
        let found = self.view().read(address).block()?;
        let found = found.ok_or(refusal::NO_BLOCK)?;
        let written = u32::from(found.written);
        Ok([found.base, found.length, found.offset, written])
    }

    /// The mark that counts is the one read at the address, not at from (S5.2).
    fn valid(&self, address: u32, n: u32, from: u32) -> Outcome {
        let first = self.one_block(address, n, from)?;
        Ok([u32::from(first.is_some_and(|f| !f.literal)), 0, 0, 0])
    }

    fn valid_read(&self, address: u32, n: u32, from: u32) -> Outcome {
        let first = self.one_block(address, n, from)?;
        Ok([u32::from(first.is_some()), 0, 0, 0])
    }

    /// The address's reading, if n bytes from there and from lie in one block.
    fn one_block(&self, address: u32, n: u32, from: u32) -> Result<Option<Found>, u32> {
        not_zero(n)?;
        // Damage in either reading is 8, whatever the other one says.
        let first = self.view().read(address).block()?;
        let origin = self.view().read(from).block()?;
        let same = |first: &Found| origin.is_some_and(|origin| first.same_block(&origin));
        Ok(first.filter(|first| first.holds(n) && same(first)))
    }

    fn initialised(&self, address: u32, n: u32) -> Outcome {
        not_zero(n)?;
        let found = self.view().read(address).block()?;
        let all_written = found.is_some_and(|found| found.holds(n))
            && (0..n).all(|step| self.written_bit(address + step));
        Ok([u32::from(all_written), 0, 0, 0])
    }

    /// The climb; outside the areas each reading is no block, so it skips there.
    fn next(&self, address: u32) -> Outcome {
        for area in self.map.climbing() {
            let bounds = self.map.bounds(area);
            for candidate in bounds.start.max(address.into())..bounds.end {
                match self.view().read(candidate as u32) {
                    Reading::Damaged => return Err(refusal::DAMAGED),
                    Reading::Block(found) if found.offset == 0 => {
                        return Ok([found.base, found.length, 0, 0]);
                    }
                    _ => {}
                }
            }
        }
        Err(refusal::NO_BLOCK)
    }

    fn audit(&self) -> Outcome {
        let blocks = decode(self.view()).ok_or(refusal::DAMAGED)?;
        Ok(totals(self.map, &blocks))
    }

    /// The shadow positions of a block's footprint.
    fn positions(&self, area: Area, base: u32, length: u32) -> Range<usize> {
        let start = self.map.bounds(area).start;
        let place = footprint(self.map.form, area, base, length);
        (place.start - start) as usize..(place.end - start) as usize
    }
}

pub(crate) fn put(shadow: &mut [u8], position: usize, number: u32) {
    shadow[position..position + 4].copy_from_slice(&number.to_le_bytes());
}
