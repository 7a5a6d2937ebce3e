//! Only heap blocks may be freed (S-7), in the form with origins: with a removed
//! block go the cells that it touches, and no others.

mod common;

use std::collections::BTreeMap;

use common::{addresses, data, step, view};
use model::call::{Answer, Call};
use model::generate::{self, Scale};
use model::map::{Area, Map};
use model::origins::bytes;
use model::origins::call::OriginsCall;
use model::origins::cells::State;
use model::origins::generate::{states, Calls};
use model::origins::history::History;
use model::origins::list::OriginsList;
use model::origins::notation::{example, Example};
use model::origins::program::{decode, Record};
use model::random::Random;
use model::reading::Reading;

fn on(map: Map, state: &State, call: Call) -> (Answer, State) {
    let mut after = state.clone();
    let said = bytes::call(map, &mut after, OriginsCall::Plain(call));
    (said, after)
}

/// The state without the cells that touch the block which begins here, as free
/// left them before S-7: eight bytes for every four addresses, from twice the
/// position on.
fn without_cells(map: Map, state: &State, base: u32) -> State {
    let mut left = state.clone();
    let Reading::Block(found) = view(map, &state.shadows).read(base) else {
        panic!("no block at {base}");
    };
    let area = map.area(base).expect("a block lies in an area");
    let first = map.position(area, base);
    for position in first..first + found.length as usize {
        left.cells.of_mut(area)[position / 4 * 8..][..8].fill(0);
    }
    left
}

/// The plain form decides number and bytes of both; what is refused leaves the
/// cells, and what is accepted zeroes those of its block alone.
#[test]
fn every_address_of_the_areas_on_any_state() {
    let mut met: BTreeMap<(bool, u32), u32> = BTreeMap::new();
    for seed in 0..2000 {
        println!("seed {seed}");
        let mut random = Random::new(seed);
        let map = generate::map(&mut random, Scale::Crowded);
        let (state, _) = states::any(&mut random, map);
        for base in addresses(map) {
            let in_stack = map.area(base) == Some(Area::Stack);
            for call in [Call::Free { base }, Call::Remove { base }] {
                let (said, after) = on(map, &state, call);
                let (plainly, shadows) = step(map, &state.shadows, call);
                assert_eq!(said, plainly, "{map:?} {call:?}");
                let mut expected = match said.number {
                    0 => without_cells(map, &state, base),
                    _ => state.clone(),
                };
                expected.shadows = shadows;
                assert!(after == expected, "{map:?} {call:?}");
                let remove = call == Call::Remove { base };
                if remove != in_stack {
                    let number = if remove { 4 } else { 15 };
                    assert_eq!(said.number, number, "{map:?} {call:?}");
                }
                *met.entry((remove, said.number)).or_default() += 1;
            }
        }
    }
    // Free: 0, 7, 8 and 15; remove: 0, 4, 7 and 8.
    assert_eq!(met.len(), 8, "{met:?}");
    assert!(met.values().all(|&count| count > 1000), "{met:?}");
}

/// The stated runs once more, with the history of calls as the judge of live.
#[test]
fn stated_runs_by_the_history_of_calls() {
    let text = String::from_utf8(data("remove-origins.txt")).expect("example files are text");
    let mut judged = [0; 2];
    for line in text.lines() {
        let Some(Example::Run { input, .. }) = example(line) else {
            continue;
        };
        let mut left = &input[..];
        let mut list = None;
        let mut history = History::default();
        while let Some((record, rest)) = decode(left) {
            left = rest;
            match (record, &mut list) {
                (Record::Map(map), _) if map.good() => list = Some(OriginsList::new(map, 1)),
                (Record::Call(_, call), Some(list)) => {
                    let said = list.step(call);
                    history.add(call, said.number == 0);
                    if let (OriginsCall::Live { cell, address }, 0) = (call, said.number) {
                        let live = usize::from(history.judges_live(cell, address));
                        assert_eq!(said.fields[0] as usize, live, "{line}");
                        judged[live] += 1;
                    }
                }
                _ => {}
            }
        }
    }
    assert!(judged.iter().all(|&count| count > 8), "{judged:?}");
}

/// How often the generators draw each of them with each number, on any state and in
/// runs, so that a wrong answer would be met.
#[test]
fn they_are_drawn_often() {
    let mut met: BTreeMap<(&str, bool, u32), u32> = BTreeMap::new();
    let mut count = |where_, call, number| match call {
        OriginsCall::Plain(Call::Free { .. }) => {
            *met.entry((where_, false, number)).or_default() += 1;
        }
        OriginsCall::Plain(Call::Remove { .. }) => {
            *met.entry((where_, true, number)).or_default() += 1;
        }
        _ => {}
    };
    for seed in 0..80_000 {
        let mut random = Random::new(seed);
        let map = generate::map(&mut random, Scale::Crowded);
        let (mut state, call) = states::any(&mut random, map);
        count("state", call, bytes::call(map, &mut state, call).number);
    }
    for seed in 0..200 {
        let mut random = Random::new(seed);
        let map = generate::map(&mut random, Scale::Crowded);
        let (mut list, mut made) = (OriginsList::new(map, 1), Calls::default());
        for _ in 0..200 {
            let call = made.next(&mut random, map, list.blocks());
            count("run", call, list.step(call).number);
        }
    }
    // Free: 0, 4, 7, 15 and on any state 8; remove: the same without 15.
    assert_eq!(met.len(), 9 + 7, "{met:?}");
    assert!(met.values().all(|&count| count > 100), "{met:?}");
    // Of 40,000 calls many end a block of the stack.
    assert!(met[&("run", true, 0)] > 1000, "{met:?}");
}
