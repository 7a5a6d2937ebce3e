//! Every sample of tests/data on the models of the form with origins.

mod common;

use std::collections::BTreeMap;

use common::list_of;
use common::program::origins_on_bytes;
use model::map::{Area, Map};
use model::origins::bytes;
use model::origins::call::OriginsCall;
use model::origins::cells::{containing, State, CELL};
use model::origins::history::History;
use model::origins::list::OriginsList;
use model::origins::notation::Lent;
use model::origins::program::{decode, run, Record};
use model::plain::PlainList;
use model::program::{LARGEST_HEAP, LARGEST_STACK};
use model::stated::origins::{Example, OneCall};
use model::stated::{all, every_origins_sample, Sample, Told};

fn text(bytes: &[u8]) -> String {
    String::from_utf8(bytes.to_vec()).expect("lines are text")
}

fn calls() -> Vec<(Sample, OneCall)> {
    let told = |sample: Sample| match &sample.told {
        Told::Origins(Example::On(told)) => Some((sample.clone(), told.clone())),
        _ => None,
    };
    all().into_iter().filter_map(told).collect()
}

/// Answer and the whole state, nothing changed where nothing is due.
#[test]
fn every_call_on_bytes() {
    let samples = every_origins_sample(bytes::call);
    assert!(samples >= 1415, "{samples}");
    for (sample, told) in calls() {
        if told.answer.number != 0 || told.call.alters_nothing() {
            assert_eq!(told.after(), told.state, "{sample}: something changed");
        }
    }
}

/// Where the given state is that of a list, the list answers alike, and what it
/// holds afterwards is the stated state.
#[test]
fn every_call_on_lists() {
    let (mut lists, mut pointers) = (0, [0; 3]);
    for (sample, told) in calls() {
        let Some(mut list) = list_with_origins(told.map, &told.state) else {
            continue;
        };
        assert_eq!(list.state(), told.state, "{sample}");
        assert_eq!(list.step(told.call), told.answer, "{sample}");
        assert_eq!(list.state(), told.after(), "{sample}");
        lists += 1;
        match told.call {
            OriginsCall::Plain(_) => {}
            OriginsCall::Point { .. } => pointers[0] += 1,
            OriginsCall::Copy { .. } => pointers[1] += 1,
            OriginsCall::Live { .. } => pointers[2] += 1,
        }
    }
    assert!(
        lists >= 470 && pointers.iter().all(|&met| met >= 80),
        "{lists} {pointers:?}"
    );
}

/// The list whose image, cells and counter these are, if it is one: origins stand
/// at the bases of blocks alone, referents in cells that a block holds.
fn list_with_origins(map: Map, state: &State) -> Option<OriginsList> {
    if !map.good() || lengths(&State::cleared(map)) != lengths(state) {
        return None;
    }
    let plain: PlainList = list_of(map, &state.shadows)?;
    let blocks = plain.blocks();
    let mut origins: BTreeMap<u32, u32> = blocks.iter().map(|block| (block.base, 0)).collect();
    if origins.keys().any(|&base| containing(base) != base) {
        return None;
    }
    let mut referents = BTreeMap::new();
    for (area, cells) in [
        (Area::Heap, &state.cells.heap),
        (Area::Stack, &state.cells.stack),
    ] {
        let addresses = (map.bounds(area).start as u32..).step_by(CELL as usize);
        for (cell, numbers) in addresses.zip(cells.chunks(2 * CELL as usize)) {
            let number = |at: usize| u32::from_le_bytes(numbers[at..at + 4].try_into().unwrap());
            match (origins.get_mut(&cell), number(0)) {
                (Some(origin), stored) => *origin = stored,
                (None, 0) => {}
                (None, _) => return None,
            }
            if number(4) > 0 {
                blocks.iter().find(|block| block.holds(cell, CELL))?;
                referents.insert(cell, number(4));
            }
        }
    }
    Some(OriginsList::made_of(
        plain,
        state.counter,
        origins,
        referents,
    ))
}

fn lengths(state: &State) -> [usize; 5] {
    Lent::ALL.map(|lent| lent.of(state).len())
}

/// Whether the program takes a map.
fn taken(map: Map) -> bool {
    map.good() && map.heap_size <= LARGEST_HEAP && map.stack_size <= LARGEST_STACK
}

#[test]
fn every_run() {
    let (mut samples, mut inputs, mut judged) = (0, 0, [0; 2]);
    for sample in all() {
        let Some(runs) = sample.runs(true) else {
            continue;
        };
        let output = text(&runs.output);
        for input in &runs.inputs {
            assert_eq!(text(&run(input)), output, "{sample}");
            assert_eq!(text(&origins_on_bytes(input)), output, "{sample}");
            by_history(&sample, input, &mut judged);
            inputs += 1;
        }
        samples += 1;
    }
    assert!(samples >= 344 && inputs >= 648, "{samples} {inputs}");
    assert!(judged.iter().all(|&count| count >= 46), "{judged:?}");
}

/// A run once more, with the history of calls as the judge of live.
fn by_history(sample: &Sample, input: &[u8], judged: &mut [u32; 2]) {
    let mut left = input;
    let (mut list, mut history) = (None, History::default());
    while let Some((record, rest)) = decode(left) {
        left = rest;
        match (record, &mut list) {
            (Record::Map(map), _) if taken(map) => {
                list = Some(OriginsList::new(map, 1));
                history = History::default();
            }
            (Record::Call(_, call), Some(list)) => {
                let said = list.step(call);
                history.add(call, said.number == 0);
                if let (OriginsCall::Live { cell, address }, 0) = (call, said.number) {
                    let live = usize::from(history.judges_live(cell, address));
                    assert_eq!(said.fields[0] as usize, live, "{sample}");
                    judged[live] += 1;
                }
            }
            _ => {}
        }
    }
}
