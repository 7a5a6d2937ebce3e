//! The byte-level model of this form: all calls on any map, any shadow bytes,
//! any cells, any lengths and any counter.
//!
//! It keeps nothing between calls.

use std::ops::Range;

use crate::block::placement_as;
use crate::bytes;
use crate::call::{refusal, Answer, Call, Outcome, NO_FIELDS};
use crate::map::{Area, Map};
use crate::origins::call::{OriginsCall, FIRST_ORIGIN, LAST_ORIGIN};
use crate::origins::cells::{containing, origin_place, referent_place, State, CELL};
use crate::reading::{number, Found, View};

/// One call on lent state.
pub fn call(map: Map, state: &mut State, call: OriginsCall) -> Answer {
    call_with_last(LAST_ORIGIN, map, state, call)
}

/// The same with another last origin, so that tests can use them up.
pub fn call_with_last(last: u64, map: Map, state: &mut State, call: OriginsCall) -> Answer {
    let mut lent = Lent { map, state, last };
    lent.outcome(call).into()
}

struct Lent<'a> {
    map: Map,
    state: &'a mut State,
    last: u64,
}

impl Lent<'_> {
    fn outcome(&mut self, call: OriginsCall) -> Outcome {
        self.check()?;
        match call {
            OriginsCall::Plain(call) => self.plain(call),
            OriginsCall::Point { cell, address } => self.point(cell, address),
            OriginsCall::Copy { to, from } => self.copy(to, from),
            OriginsCall::Live { cell, address } => self.live(cell, address),
        }
    }

    /// Numbers 1 and 2, which come before all else; 2 for five lengths.
    fn check(&self) -> Result<(), u32> {
        if !self.map.good() {
            return Err(refusal::BAD_MAP);
        }
        let (heap, stack) = (self.map.heap_size as usize, self.map.stack_size as usize);
        let lengths = [
            (self.state.shadows.heap.len(), heap),
            (self.state.shadows.primary.len(), stack),
            (self.state.shadows.secondary.len(), stack),
            (self.state.cells.heap.len(), 2 * heap),
            (self.state.cells.stack.len(), 2 * stack),
        ];
        match lengths.iter().all(|(length, right)| length == right) {
            true => Ok(()),
            false => Err(refusal::SHADOW_LENGTH),
        }
    }

    fn view(&self) -> View<'_> {
        View {
            map: self.map,
            heap: &self.state.shadows.heap,
            primary: &self.state.shadows.primary,
            secondary: &self.state.shadows.secondary,
        }
    }

    fn plain(&mut self, call: Call) -> Outcome {
        match call {
            Call::Clear => {
                self.state.cells.heap.fill(0);
                self.state.cells.stack.fill(0);
                self.on_blocks(call)
            }
            Call::Record { .. } | Call::RecordWritten { .. } | Call::RecordLiteral { .. } => {
                self.record(call)
            }
            Call::Free { base } | Call::Remove { base } => self.end(call, base),
            _ => self.on_blocks(call),
        }
    }

    /// A call of the plain form, on the three block shadows alone.
    fn on_blocks(&mut self, call: Call) -> Outcome {
        let shadows = &mut self.state.shadows;
        let answer = bytes::call(
            self.map,
            &mut shadows.heap,
            &mut shadows.primary,
            &mut shadows.secondary,
            call,
        );
        match answer.number {
            0 => Ok(answer.fields),
            number => Err(number),
        }
    }

    fn record(&mut self, call: Call) -> Outcome {
        let (base, length, beginning) = call.recording().expect("a call that records");
        let area = placement_as(beginning, self.map, base, length)?;
        if !base.is_multiple_of(CELL) {
            return Err(refusal::UNALIGNED);
        }
        let before = self.state.shadows.clone();
        self.on_blocks(call)?;
        if !(FIRST_ORIGIN..=self.last).contains(&self.state.counter) {
            self.state.shadows = before;
            return Err(refusal::USED_UP);
        }
        let origin = self.state.counter as u32;
        // The referent beside it stays as it is (S4.15).
        let place = origin_place(self.map, area, base);
        self.put(area, place, origin);
        self.state.counter += 1;
        Ok(NO_FIELDS)
    }

    /// Free and remove, which leave the cells of the other area.
    fn end(&mut self, call: Call, base: u32) -> Outcome {
        let found = self.view().read(base);
        let outcome = self.on_blocks(call)?;
        let Some(area) = self.map.area(base) else {
            // The null pointer, with which no block goes.
            return Ok(outcome);
        };
        let length = found.block()?.expect("an accepted base has a block").length;
        // Each cell that has a byte of the block; not the header's, not the tail's (S4.5).
        for address in base..base + length {
            let cell = containing(address);
            let (origin, referent) = (
                origin_place(self.map, area, cell),
                referent_place(self.map, area, cell),
            );
            self.put(area, origin, 0);
            self.put(area, referent, 0);
        }
        Ok(outcome)
    }

    fn point(&mut self, cell: u32, address: u32) -> Outcome {
        let area = self.area(cell)?;
        let holder = self.view().read(cell).block()?;
        let target = self.view().read(address).block()?;
        usable(cell, holder)?;
        let referent = target.map_or(0, |target| self.origin(target));
        self.put(area, referent_place(self.map, area, cell), referent);
        Ok(NO_FIELDS)
    }

    fn copy(&mut self, to: u32, from: u32) -> Outcome {
        let (to_area, from_area) = (self.area(to)?, self.area(from)?);
        let to_holder = self.view().read(to).block()?;
        let from_holder = self.view().read(from).block()?;
        usable(to, to_holder)?;
        usable(from, from_holder)?;
        let referent = self.get(from_area, referent_place(self.map, from_area, from));
        self.put(to_area, referent_place(self.map, to_area, to), referent);
        Ok(NO_FIELDS)
    }

    fn live(&mut self, cell: u32, address: u32) -> Outcome {
        let area = self.area(cell)?;
        let holder = self.view().read(cell).block()?;
        let target = self.view().read(address).block()?;
        usable(cell, holder)?;
        let referent = self.get(area, referent_place(self.map, area, cell));
        let same = target.is_some_and(|target| self.origin(target) == referent);
        // A lent block may have origin 0, which no pointer is set to (S4.10).
        Ok([u32::from(referent != 0 && same), 0, 0, 0])
    }

    /// Number 4, for pointer cells only.
    fn area(&self, cell: u32) -> Result<Area, u32> {
        self.map.area(cell).ok_or(refusal::OUTSIDE)
    }

    /// The origin of a block that was read; an unaligned base has the cell that
    /// contains it (S4.11).
    fn origin(&self, found: Found) -> u32 {
        let area = self
            .map
            .area(found.base)
            .expect("a block read fits an area");
        self.get(area, origin_place(self.map, area, containing(found.base)))
    }

    fn get(&self, area: Area, place: Range<usize>) -> u32 {
        match area {
            Area::Heap => number(&self.state.cells.heap, place.start),
            Area::Stack => number(&self.state.cells.stack, place.start),
        }
    }

    fn put(&mut self, area: Area, place: Range<usize>, number: u32) {
        self.state.cells.of_mut(area)[place].copy_from_slice(&number.to_le_bytes());
    }
}

/// Number 11, once the reading of the cell's first byte is known.
fn usable(cell: u32, holder: Option<Found>) -> Result<(), u32> {
    match holder {
        Some(found) if cell.is_multiple_of(CELL) && found.holds(CELL) => Ok(()),
        _ => Err(refusal::NO_CELL),
    }
}
