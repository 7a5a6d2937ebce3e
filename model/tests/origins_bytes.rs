//! The byte-level model of the form with origins on states that no calls left.

use model::bytes as plain_bytes;
use model::call::{refusal, Answer, Call};
use model::generate::{self, Scale};
use model::map::{Area, Map};
use model::origins::bytes;
use model::origins::call::OriginsCall;
use model::origins::cells::{containing, State};
use model::origins::generate::states;
use model::random::Random;
use model::reading::{Found, Reading, View};

/// A map, a state of any kind, and a call that is drawn for it.
fn any(random: &mut Random) -> (Map, State, OriginsCall) {
    let map = generate::map(random, Scale::Crowded);
    let (state, call) = states::any(random, map);
    (map, state, call)
}

fn read(map: Map, state: &State, address: u32) -> Reading {
    let shadows = &state.shadows;
    let view = View {
        map,
        heap: &shadows.heap,
        primary: &shadows.primary,
        secondary: &shadows.secondary,
    };
    view.read(address)
}

fn plain(map: Map, state: &State, call: Call) -> (Answer, model::image::Shadows) {
    let mut shadows = state.shadows.clone();
    let answer = plain_bytes::call(
        map,
        &mut shadows.heap,
        &mut shadows.primary,
        &mut shadows.secondary,
        call,
    );
    (answer, shadows)
}

/// The number of an aligned cell, taken byte by byte: origin, then referent.
fn cell(map: Map, state: &State, address: u32) -> (u32, u32) {
    let (start, bytes) = match map.area(address) {
        Some(Area::Heap) => (map.heap_start, &state.cells.heap),
        Some(Area::Stack) => (map.stack_start, &state.cells.stack),
        None => panic!("{address} is in no area"),
    };
    let at = 2 * (address - start) as usize;
    let number = |at: usize| (0..4).map(|i| u32::from(bytes[at + i]) << (8 * i)).sum();
    (number(at), number(at + 4))
}

/// The plain form decides every plain call, but for 5 and 12, and the cells follow.
#[test]
fn plain_calls_are_the_plain_forms() {
    let mut met = [0; 16];
    for seed in 0..60_000 {
        println!("seed {seed}");
        let (map, before, call) = any(&mut Random::new(seed));
        let OriginsCall::Plain(one) = call else {
            continue;
        };
        let mut after = before.clone();
        let answer = bytes::call(map, &mut after, call);
        met[answer.number as usize] += 1;
        let (plainly, shadows) = plain(map, &before, one);
        match answer.number {
            refusal::USED_UP => {
                assert_eq!(plainly.number, 0);
                assert!(!(1..=4_294_967_295).contains(&before.counter));
            }
            refusal::UNALIGNED => assert!([0, 5, 6].contains(&plainly.number)),
            _ => {
                assert_eq!(answer, plainly, "{map:?} {call:?}");
                assert!(after.shadows == shadows, "{map:?} {call:?}");
            }
        }
        if answer.number != 0 || call.alters_nothing() {
            assert!(after == before, "{map:?} {call:?}");
            continue;
        }
        cells_follow(map, &before, &after, one);
    }
    for number in [0, 3, 4, 5, 6, 7, 8, 12, 13, 15] {
        assert!(met[number] > 100, "{number}: {}", met[number]);
    }
}

/// Every cell of both areas and the counter after an accepted plain call.
fn cells_follow(map: Map, before: &State, after: &State, call: Call) {
    let ended = |address: u32| match call {
        Call::Free { base } | Call::Remove { base } => match read(map, before, base) {
            Reading::Block(found) => (base..base + found.length).any(|a| containing(a) == address),
            _ => false,
        },
        _ => call == Call::Clear,
    };
    let recorded = call.recording().map(|(base, ..)| base);
    for area in [Area::Heap, Area::Stack] {
        for address in map.bounds(area).step_by(4) {
            let address = address as u32;
            let (origin, referent) = cell(map, before, address);
            let expected = match (ended(address), recorded) {
                (true, _) => (0, 0),
                (_, Some(base)) if base == address => (before.counter as u32, referent),
                _ => (origin, referent),
            };
            assert_eq!(cell(map, after, address), expected, "{call:?} {address}");
        }
    }
    let step = u64::from(recorded.is_some());
    assert_eq!(after.counter, before.counter + step, "{call:?}");
}

/// The calls of this form alone, from the readings and the cells' numbers.
#[test]
fn pointer_calls_follow_readings_and_cells() {
    let mut met = [0; 13];
    let mut answers = [0; 2];
    for seed in 0..100_000 {
        println!("seed {seed}");
        let (map, before, call) = any(&mut Random::new(seed));
        if matches!(call, OriginsCall::Plain(_)) {
            continue;
        }
        let mut after = before.clone();
        let answer = bytes::call(map, &mut after, call);
        let (number, set, field) = expected(map, &before, call);
        assert_eq!(answer.number, number, "{map:?} {call:?}");
        assert_eq!(answer.fields, [field, 0, 0, 0], "{map:?} {call:?}");
        assert_eq!(after.shadows, before.shadows);
        assert_eq!(after.counter, before.counter);
        for area in [Area::Heap, Area::Stack] {
            for address in map.bounds(area).step_by(4) {
                let address = address as u32;
                let (origin, referent) = cell(map, &before, address);
                let referent = match set {
                    Some((to, new)) if to == address => new,
                    _ => referent,
                };
                assert_eq!(cell(map, &after, address), (origin, referent), "{call:?}");
            }
        }
        met[number as usize] += 1;
        if let (OriginsCall::Live { .. }, 0) = (call, number) {
            answers[field as usize] += 1;
        }
    }
    for number in [0, 4, 8, 11] {
        assert!(met[number] > 300, "{number}: {}", met[number]);
    }
    assert!(answers.iter().all(|&count| count > 300), "{answers:?}");
}

/// Number, cell that is set with its new referent, answer field.
fn expected(map: Map, state: &State, call: OriginsCall) -> (u32, Option<(u32, u32)>, u32) {
    let (cells, address) = match call {
        OriginsCall::Point { cell, address } | OriginsCall::Live { cell, address } => {
            (vec![cell], Some(address))
        }
        OriginsCall::Copy { to, from } => (vec![to, from], None),
        OriginsCall::Plain(_) => unreachable!("no plain call here"),
    };
    if cells.iter().any(|&cell| map.area(cell).is_none()) {
        return (refusal::OUTSIDE, None, 0);
    }
    let mut readings = cells.iter().chain(address.iter());
    if readings.any(|&address| read(map, state, address) == Reading::Damaged) {
        return (refusal::DAMAGED, None, 0);
    }
    let block = |address: u32| read(map, state, address).block().expect("undamaged");
    let usable = |&cell: &u32| cell % 4 == 0 && block(cell).is_some_and(|f| f.holds(4));
    if !cells.iter().all(usable) {
        return (refusal::NO_CELL, None, 0);
    }
    let origin = |found: Found| cell(map, state, containing(found.base)).0;
    match call {
        OriginsCall::Point { cell, address } => {
            (0, Some((cell, block(address).map_or(0, origin))), 0)
        }
        OriginsCall::Copy { to, from } => (0, Some((to, cell(map, state, from).1)), 0),
        OriginsCall::Live { cell: at, address } => {
            let referent = cell(map, state, at).1;
            let live = referent > 0 && block(address).map(origin) == Some(referent);
            (0, None, u32::from(live))
        }
        OriginsCall::Plain(_) => unreachable!("no plain call here"),
    }
}

/// 1, then 2 for each of the five lengths, before all else.
#[test]
fn bad_maps_and_wrong_lengths_come_first() {
    let mut met = [0; 3];
    for seed in 0..30_000 {
        println!("seed {seed}");
        let mut random = Random::new(seed);
        let (good, mut state, call) = any(&mut random);
        let map = match random.once_in(2) {
            true => generate::edge_map(&mut random),
            false => good,
        };
        if random.once_in(2) {
            states::wrong_length(&mut random, &mut state);
        }
        let (heap, stack) = (map.heap_size as usize, map.stack_size as usize);
        let right = state.shadows.heap.len() == heap
            && state.shadows.primary.len() == stack
            && state.shadows.secondary.len() == stack
            && state.cells.heap.len() == 2 * heap
            && state.cells.stack.len() == 2 * stack;
        let before = state.clone();
        let answer = bytes::call(map, &mut state, call);
        let number = match (map.good(), right) {
            (false, _) => refusal::BAD_MAP,
            (true, false) => refusal::SHADOW_LENGTH,
            (true, true) => {
                assert!(answer.number != 1 && answer.number != 2);
                met[0] += 1;
                continue;
            }
        };
        assert_eq!(answer, Err(number).into(), "{map:?} {call:?}");
        assert!(state == before);
        met[number as usize] += 1;
    }
    assert!(met.iter().all(|&count| count > 1000), "{met:?}");
}
