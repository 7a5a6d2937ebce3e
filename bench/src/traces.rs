//! Recorded runs: read from their files, replayed, and with their heap blocks further apart.

use model::call::Call;
use model::form::DESK;
use model::map::{Area, Map};
use model::plain::List;
use model::plain_btree::PlainTree;
use model::program::{decode, Record};
use model::recorded::with_removals;

use crate::case::{thousands, Case, Group};
use crate::state::State;

/// A run's name and its file.
pub type Trace = (&'static str, &'static [u8]);

#[rustfmt::skip]
pub const TRACES: [Trace; 3] = [
    ("sha1", include_bytes!("../../model/tests/data/sha1.calls")),
    ("sorts", include_bytes!("../../model/tests/data/sorts.calls")),
    ("json", include_bytes!("../../model/tests/data/json.calls")),
];

/// A run: the state that it begins in, and its calls.
pub type Run = (State, Vec<Call>);

/// A trace's run, but for the audit, which no peer of E-ACSL's has. Two traces are older than remove: where they free a stack address, that
/// is the remove of now.
pub fn read((title, file): Trace) -> Run {
    let converted = with_removals(file);
    let mut file = &converted[..];
    let mut map = None;
    let mut calls = Vec::new();
    while let Some((record, rest)) = decode(file) {
        match record {
            Record::Map(found) => map = Some(found),
            Record::Call(_, Call::Audit) => {}
            Record::Call(_, call) => calls.push(call),
        }
        file = rest;
    }
    let state = State {
        title,
        map: map.expect("a trace begins with its map"),
        calls: Vec::new(),
    };
    (state, calls)
}

pub fn replay(state: &State, number: usize, calls: Vec<Call>) -> Case {
    let mut list = state.list();
    for &call in &calls {
        list.step(call);
    }
    let left = list.listed();
    let count = thousands(calls.len() as u32);
    let title = format!("replay of {} ({count} calls)", state.title);
    let mut case = Case::new(title, Group::Replay, number, calls);
    case.after = left.iter().map(|block| state.to_end(block.base)).collect();
    case
}

/// The run with each heap block at twice its place, in a heap of twice the size: there header and segments of 16 bytes have room wherever those of
/// 8 had it.
pub fn spread((state, calls): Run) -> Run {
    let mut list = state.list();
    let apart = calls.iter().map(|&call| {
        let moved = moved(state.map, &mut list, call);
        list.step(call);
        moved
    });
    let calls = apart.collect();
    let map = Map {
        heap_size: 2 * state.map.heap_size,
        form: DESK,
        ..state.map
    };
    (State { map, ..state }, calls)
}

/// A call with its heap addresses moved; the list is as it is before the call.
fn moved(map: Map, list: &mut PlainTree, call: Call) -> Call {
    let mut twice = |address| {
        if map.area(address) != Some(Area::Heap) {
            return address;
        }
        let asked = list.step(Call::Ask { address });
        let base = if asked.number == 0 {
            asked.fields[0]
        } else {
            address
        };
        address + (base - map.heap_start)
    };
    let (kind, mut fields) = call.record_fields().expect("a run's calls have kinds");
    fields[0] = twice(fields[0]);
    if let Call::Valid { .. } | Call::ValidRead { .. } = call {
        fields[2] = twice(fields[2]);
    }
    Call::from_record(kind, &fields).expect("a call of the same kind")
}

#[cfg(test)]
mod tests {
    use super::*;
    use crate::case::plan;

    /// Each call of a replay is accepted, its blocks' ends too, and those after it leave no block.
    #[test]
    fn replays_accepted() {
        let plan = plan();
        let replays = plan.cases.iter().filter(|case| case.group == Group::Replay);
        for case in replays {
            let mut list = plan.states[case.state].list();
            for &call in case.timed.iter().chain(&case.after) {
                assert_eq!(list.step(call).number, 0, "{call:?}");
            }
            assert!(list.listed().is_empty());
        }
    }

    /// A run has the same answers where its heap blocks lie further apart.
    #[test]
    fn spread_answers() {
        for trace in TRACES {
            let ((state, calls), (apart, moved)) = (read(trace), spread(read(trace)));
            let (mut list, mut other) = (state.list(), apart.list());
            for (&call, &at) in calls.iter().zip(&moved) {
                assert_eq!(list.step(call), other.step(at), "{call:?} and {at:?}");
            }
            assert_eq!(calls.len(), moved.len());
        }
    }
}
