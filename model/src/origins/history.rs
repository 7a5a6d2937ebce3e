//! Whether a pointer is live, judged by the history of calls alone (S4.17).
//!
//! The history is the list of calls made so far, each with whether it was
//! accepted. An allocation is named by the place in that list of the recording
//! that made it. No origin, counter or cell occurs here, and no map.

use std::collections::BTreeMap;
use std::ops::Range;

use crate::call::Call;
use crate::origins::call::OriginsCall;

/// What the calls made so far come to.
#[derive(Clone, Debug, Default)]
pub struct History {
    calls: usize,
    live: Vec<Allocation>,
    /// The allocation that the pointer in this cell was last set to; a pointer
    /// that is unset, or set to no block, has none.
    set: BTreeMap<u32, usize>,
}

#[derive(Clone, Debug)]
struct Allocation {
    place: usize,
    addresses: Range<u64>,
}

impl History {
    /// The history of a list of calls.
    pub fn of(calls: &[(OriginsCall, bool)]) -> Self {
        let mut history = History::default();
        for &(call, accepted) in calls {
            history.add(call, accepted);
        }
        history
    }

    /// One more call at the end of the list.
    pub fn add(&mut self, call: OriginsCall, accepted: bool) {
        let place = self.calls;
        self.calls += 1;
        if !accepted {
            return;
        }
        match call {
            OriginsCall::Plain(
                Call::Record { base, length }
                | Call::RecordWritten { base, length }
                | Call::RecordLiteral { base, length },
            ) => {
                let base = u64::from(base);
                let addresses = base..base + u64::from(length);
                self.live.push(Allocation { place, addresses });
            }
            OriginsCall::Plain(Call::Free { base } | Call::Remove { base }) => self.end(base),
            OriginsCall::Plain(Call::Clear) => {
                self.live.clear();
                self.set.clear();
            }
            OriginsCall::Point { cell, address } => {
                let target = self.holder(address).map(|holder| holder.place);
                self.set_to(cell, target);
            }
            OriginsCall::Copy { to, from } => {
                let target = self.set.get(&from).copied();
                self.set_to(to, target);
            }
            _ => {}
        }
    }

    /// Whether the pointer is set to an allocation that is live and holds the address.
    pub fn judges_live(&self, cell: u32, address: u32) -> bool {
        let holder = self.holder(address).map(|holder| holder.place);
        holder.is_some() && holder == self.set.get(&cell).copied()
    }

    /// The allocation at this base ends, and every pointer that it holds is unset.
    fn end(&mut self, base: u32) {
        let at = |allocation: &Allocation| allocation.addresses.start == u64::from(base);
        if let Some(index) = self.live.iter().position(at) {
            let ended = self.live.remove(index);
            let held = |cell: u32| ended.addresses.contains(&u64::from(cell));
            self.set.retain(|&cell, _| !held(cell));
        }
    }

    fn set_to(&mut self, cell: u32, target: Option<usize>) {
        match target {
            Some(place) => self.set.insert(cell, place),
            None => self.set.remove(&cell),
        };
    }

    fn holder(&self, address: u32) -> Option<&Allocation> {
        let holds = |allocation: &&Allocation| allocation.addresses.contains(&u64::from(address));
        self.live.iter().find(holds)
    }
}
