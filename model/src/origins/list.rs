//! The list of this form: the plain list, the counter, the origin of each live
//! block and the referent of each set pointer; no byte anywhere.

use std::collections::BTreeMap;

use crate::block::{placement_as, Block};
use crate::call::{refusal, Answer, Call, Outcome, NO_FIELDS};
use crate::image::image;
use crate::map::Map;
use crate::origins::call::{OriginsCall, FIRST_ORIGIN, LAST_ORIGIN};
use crate::origins::cells::{self, Cells, State, CELL};
use crate::plain::{List, PlainList};

/// The list with origins.
#[derive(Clone, Debug)]
pub struct OriginsList {
    plain: PlainList,
    counter: u64,
    last: u64,
    /// The origin of the live block with this base.
    origins: BTreeMap<u32, u32>,
    /// What the pointer in this cell was set to; 0 for no block.
    referents: BTreeMap<u32, u32>,
}

impl OriginsList {
    /// The empty list with a counter; the map must be good.
    pub fn new(map: Map, counter: u64) -> Self {
        Self::with_last(map, counter, LAST_ORIGIN)
    }

    /// The same with another last origin, so that tests can use them up.
    pub fn with_last(map: Map, counter: u64, last: u64) -> Self {
        OriginsList {
            plain: PlainList::new(map),
            counter,
            last,
            origins: BTreeMap::new(),
            referents: BTreeMap::new(),
        }
    }

    /// The list of these blocks, each of which has an origin at its base, and of
    /// these pointers, each of which stands in a block.
    pub fn made_of(
        plain: PlainList,
        counter: u64,
        origins: BTreeMap<u32, u32>,
        referents: BTreeMap<u32, u32>,
    ) -> Self {
        OriginsList {
            plain,
            counter,
            last: LAST_ORIGIN,
            origins,
            referents,
        }
    }

    pub fn map(&self) -> Map {
        self.plain.map()
    }

    pub fn blocks(&self) -> &[Block] {
        self.plain.blocks()
    }

    pub fn counter(&self) -> u64 {
        self.counter
    }

    /// The cells of the pointers that are set, in address order.
    pub fn pointers(&self) -> impl Iterator<Item = u32> + '_ {
        self.referents.keys().copied()
    }

    /// What the cells must hold.
    pub fn cells(&self) -> Cells {
        let pairs = |numbers: &BTreeMap<u32, u32>| -> Vec<(u32, u32)> {
            numbers.iter().map(|(&at, &number)| (at, number)).collect()
        };
        let (origins, referents) = (pairs(&self.origins), pairs(&self.referents));
        cells::image(self.map(), origins.into_iter(), referents.into_iter())
    }

    /// Image, cells and counter.
    pub fn state(&self) -> State {
        State {
            shadows: image(self.map(), self.blocks()),
            cells: self.cells(),
            counter: self.counter,
        }
    }

    /// One call: its answer, and the list as it is afterwards.
    pub fn step(&mut self, call: OriginsCall) -> Answer {
        self.outcome(call).into()
    }

    fn outcome(&mut self, call: OriginsCall) -> Outcome {
        match call {
            OriginsCall::Plain(call) => self.plain(call),
            OriginsCall::Point { cell, address } => {
                self.cells_given(&[cell])?;
                let referent = self.origin_at(address).unwrap_or(0);
                self.referents.insert(cell, referent);
                Ok(NO_FIELDS)
            }
            OriginsCall::Copy { to, from } => {
                self.cells_given(&[to, from])?;
                let referent = self.referents.get(&from).copied().unwrap_or(0);
                self.referents.insert(to, referent);
                Ok(NO_FIELDS)
            }
            OriginsCall::Live { cell, address } => {
                self.cells_given(&[cell])?;
                let referent = self.referents.get(&cell);
                let live = self
                    .origin_at(address)
                    .is_some_and(|o| referent == Some(&o));
                Ok([u32::from(live), 0, 0, 0])
            }
        }
    }

    fn plain(&mut self, call: Call) -> Outcome {
        match call {
            Call::Record { .. } | Call::RecordWritten { .. } | Call::RecordLiteral { .. } => {
                self.record(call)
            }
            Call::Free { base } | Call::Remove { base } => self.end(call, base),
            Call::Clear => {
                self.origins.clear();
                self.referents.clear();
                self.on_blocks(call)
            }
            _ => self.on_blocks(call),
        }
    }

    /// Each way to record gives the block an origin.
    fn record(&mut self, call: Call) -> Outcome {
        let (base, length, beginning) = call.recording().expect("a call that records");
        placement_as(beginning, self.map(), base, length)?;
        if !base.is_multiple_of(CELL) {
            return Err(refusal::UNALIGNED);
        }
        let mut recorded = self.plain.clone();
        taken_over(recorded.step(call))?;
        if !(FIRST_ORIGIN..=self.last).contains(&self.counter) {
            return Err(refusal::USED_UP);
        }
        self.plain = recorded;
        self.origins.insert(base, self.counter as u32);
        self.counter += 1;
        Ok(NO_FIELDS)
    }

    /// Free and remove: with the block goes its origin, and each pointer that it holds.
    fn end(&mut self, call: Call, base: u32) -> Outcome {
        let block = self.blocks().iter().find(|block| block.base == base);
        let gone = block.map_or(0..0, |block| u64::from(block.base)..block.end());
        let outcome = self.on_blocks(call)?;
        self.origins.remove(&base);
        // A set pointer's cell lies in one block, so it lies in this one or not at all.
        self.referents
            .retain(|&cell, _| !gone.contains(&u64::from(cell)));
        Ok(outcome)
    }

    fn on_blocks(&mut self, call: Call) -> Outcome {
        taken_over(self.plain.step(call))
    }

    /// Number 4 for all of the cells, then 11: a damaged reading does not arise.
    fn cells_given(&self, cells: &[u32]) -> Result<(), u32> {
        let inside = |&cell: &u32| self.map().area(cell).is_some();
        if !cells.iter().all(inside) {
            return Err(refusal::OUTSIDE);
        }
        let in_one_block = |cell| self.blocks().iter().any(|block| block.holds(cell, CELL));
        let usable = |&cell: &u32| cell.is_multiple_of(CELL) && in_one_block(cell);
        if !cells.iter().all(usable) {
            return Err(refusal::NO_CELL);
        }
        Ok(())
    }

    /// The origin of the block that holds the address.
    fn origin_at(&self, address: u32) -> Option<u32> {
        let holder = self.blocks().iter().find(|block| block.holds(address, 1))?;
        Some(self.origins[&holder.base])
    }
}

/// The plain list's answer as an outcome of this form.
fn taken_over(answer: Answer) -> Outcome {
    match answer.number {
        0 => Ok(answer.fields),
        number => Err(number),
    }
}
