//! The byte-level model of the form with origins on states of large areas that no
//! calls left; origins_bytes.rs has small ones.

use std::panic::catch_unwind;

use model::bytes as plain_bytes;
use model::call::{refusal, Answer, Call};
use model::generate::shadows::{change_there, read_blocks};
use model::generate::telling::{places, told};
use model::generate::{self, Scale};
use model::held::large::Lent;
use model::map::{Area, Map};
use model::origins::bytes;
use model::origins::call::OriginsCall;
use model::origins::cells::{containing, State};
use model::origins::generate::states;
use model::random::Random;
use model::reading::{Found, Reading, View};

/// So many states of large areas.
const LARGE: [(Scale, u64); 2] = [(Scale::Middle, 400), (Scale::Full, 100)];

/// A map of this scale, a state of any kind, and a call that is drawn for it.
fn any(random: &mut Random, scale: Scale) -> (Map, State, OriginsCall) {
    let map = generate::map(random, scale);
    let (mut state, mut call) = states::any(random, map);
    // Any byte of these would hardly ever be one that tells.
    let blocks = read_blocks(map, &state.shadows);
    let place = random.pick(&places(map, &blocks));
    change_there(random, map.form, &mut state.shadows, place);
    let near = told(map, &blocks, place);
    let (address, from) = (random.pick(&near), random.pick(&near));
    if random.once_in(2) {
        call = random.pick(&State::readers(address, 1, from));
    }
    (map, state, call)
}

/// The byte-level model, or a wrong one in its place.
type Library = fn(Map, &mut State, OriginsCall) -> Answer;

fn read(map: Map, state: &State, address: u32) -> Reading {
    let shadows = &state.shadows;
    let view = View {
        map,
        heap: &shadows.heap,
        primary: &shadows.primary,
        secondary: &shadows.secondary,
    };
    view.read(address)
}

fn plain(map: Map, state: &State, call: Call) -> (Answer, model::image::Shadows) {
    let mut shadows = state.shadows.clone();
    let answer = plain_bytes::call(
        map,
        &mut shadows.heap,
        &mut shadows.primary,
        &mut shadows.secondary,
        call,
    );
    (answer, shadows)
}

/// The number of an aligned cell, taken byte by byte: origin, then referent.
fn cell(map: Map, state: &State, address: u32) -> (u32, u32) {
    let (start, bytes) = match map.area(address) {
        Some(Area::Heap) => (map.heap_start, &state.cells.heap),
        Some(Area::Stack) => (map.stack_start, &state.cells.stack),
        None => panic!("{address} is in no area"),
    };
    let at = 2 * (address - start) as usize;
    let number = |at: usize| (0..4).map(|i| u32::from(bytes[at + i]) << (8 * i)).sum();
    (number(at), number(at + 4))
}

/// The plain form decides every plain call, but for 5 and 12, and the cells follow.
fn plain_calls(library: Library, scale: Scale, seeds: u64) -> [u32; 16] {
    let mut met = [0; 16];
    for seed in 0..seeds {
        println!("seed {seed}");
        let (map, before, call) = any(&mut Random::new(seed), scale);
        let OriginsCall::Plain(one) = call else {
            continue;
        };
        let mut after = before.clone();
        let answer = library(map, &mut after, call);
        met[answer.number as usize] += 1;
        let (plainly, shadows) = plain(map, &before, one);
        match answer.number {
            refusal::USED_UP => {
                assert_eq!(plainly.number, 0);
                assert!(!(1..=4_294_967_295).contains(&before.counter));
            }
            refusal::UNALIGNED => assert!([0, 5, 6].contains(&plainly.number)),
            _ => {
                assert_eq!(answer, plainly, "{map:?} {call:?}");
                assert!(after.shadows == shadows, "{map:?} {call:?}");
            }
        }
        if answer.number != 0 || call.alters_nothing() {
            assert!(after == before, "{map:?} {call:?}");
            continue;
        }
        cells_follow(map, &before, &after, one);
    }
    met
}

#[test]
fn plain_calls_are_the_plain_forms() {
    for (scale, seeds) in LARGE {
        let met = plain_calls(bytes::call, scale, seeds);
        assert!(met[0] > 5 && met[8] > 0, "{scale:?} {met:?}");
    }
}

/// Every cell of both areas and the counter after an accepted plain call.
fn cells_follow(map: Map, before: &State, after: &State, call: Call) {
    let gone = match call {
        Call::Free { base } | Call::Remove { base } => match read(map, before, base) {
            Reading::Block(found) => base..base + found.length,
            _ => 0..0,
        },
        _ => 0..0,
    };
    // Each cell that has a byte of the block.
    let touched = |cell: u32| gone.start <= cell + 3 && cell < gone.end;
    let ended = |cell: u32| call == Call::Clear || touched(cell);
    let recorded = call.recording().map(|(base, ..)| base);
    for area in [Area::Heap, Area::Stack] {
        for address in map.bounds(area).step_by(4) {
            let address = address as u32;
            let (origin, referent) = cell(map, before, address);
            let expected = match (ended(address), recorded) {
                (true, _) => (0, 0),
                (_, Some(base)) if base == address => (before.counter as u32, referent),
                _ => (origin, referent),
            };
            assert_eq!(cell(map, after, address), expected, "{call:?} {address}");
        }
    }
    let step = u64::from(recorded.is_some());
    assert_eq!(after.counter, before.counter + step, "{call:?}");
}

/// The calls of this form alone, from the readings and the cells' numbers.
fn pointer_calls(library: Library, scale: Scale, seeds: u64) -> [u32; 13] {
    let mut met = [0; 13];
    for seed in 0..seeds {
        println!("seed {seed}");
        let (map, before, call) = any(&mut Random::new(seed), scale);
        if matches!(call, OriginsCall::Plain(_)) {
            continue;
        }
        let mut after = before.clone();
        let answer = library(map, &mut after, call);
        let (number, set, field) = expected(map, &before, call);
        assert_eq!(answer.number, number, "{map:?} {call:?}");
        assert_eq!(answer.fields, [field, 0, 0, 0], "{map:?} {call:?}");
        assert_eq!(after.shadows, before.shadows);
        assert_eq!(after.counter, before.counter);
        for area in [Area::Heap, Area::Stack] {
            for address in map.bounds(area).step_by(4) {
                let address = address as u32;
                let (origin, referent) = cell(map, &before, address);
                let referent = match set {
                    Some((to, new)) if to == address => new,
                    _ => referent,
                };
                assert_eq!(cell(map, &after, address), (origin, referent), "{call:?}");
            }
        }
        met[number as usize] += 1;
    }
    met
}

#[test]
fn pointer_calls_follow_readings_and_cells() {
    for (scale, seeds) in LARGE {
        let met = pointer_calls(bytes::call, scale, seeds);
        assert!(met[0] > 5 && met[8] > 0, "{scale:?} {met:?}");
    }
}

/// In large areas the referents of the upper half, or the cells of a block's upper
/// half, are left as they are.
fn half_of_the_cells<const FULL: bool>(map: Map, state: &mut State, call: OriginsCall) -> Answer {
    let before = state.cells.clone();
    let answer = bytes::call(map, state, call);
    if map.heap_size > 4096 && FULL == (map.heap_size > 16_384) {
        for (cells, own) in [
            (&mut state.cells.heap, &before.heap),
            (&mut state.cells.stack, &before.stack),
        ] {
            let half = cells.len() / 2;
            cells[half..].copy_from_slice(&own[half..]);
        }
    }
    answer
}

#[test]
fn cells_left_as_they_are_are_found_out() {
    let wrong: [Library; 2] = [half_of_the_cells::<false>, half_of_the_cells::<true>];
    for (library, (scale, seeds)) in wrong.into_iter().zip(LARGE) {
        assert!(catch_unwind(|| plain_calls(library, scale, seeds)).is_err());
        assert!(catch_unwind(|| pointer_calls(library, scale, seeds)).is_err());
    }
}

/// Number, cell that is set with its new referent, answer field.
fn expected(map: Map, state: &State, call: OriginsCall) -> (u32, Option<(u32, u32)>, u32) {
    let (cells, address) = match call {
        OriginsCall::Point { cell, address } | OriginsCall::Live { cell, address } => {
            (vec![cell], Some(address))
        }
        OriginsCall::Copy { to, from } => (vec![to, from], None),
        OriginsCall::Plain(_) => unreachable!("no plain call here"),
    };
    if cells.iter().any(|&cell| map.area(cell).is_none()) {
        return (refusal::OUTSIDE, None, 0);
    }
    let mut readings = cells.iter().chain(address.iter());
    if readings.any(|&address| read(map, state, address) == Reading::Damaged) {
        return (refusal::DAMAGED, None, 0);
    }
    let block = |address: u32| read(map, state, address).block().expect("undamaged");
    let usable = |&cell: &u32| cell % 4 == 0 && block(cell).is_some_and(|f| f.holds(4));
    if !cells.iter().all(usable) {
        return (refusal::NO_CELL, None, 0);
    }
    let origin = |found: Found| cell(map, state, containing(found.base)).0;
    match call {
        OriginsCall::Point { cell, address } => {
            (0, Some((cell, block(address).map_or(0, origin))), 0)
        }
        OriginsCall::Copy { to, from } => (0, Some((to, cell(map, state, from).1)), 0),
        OriginsCall::Live { cell: at, address } => {
            let referent = cell(map, state, at).1;
            let live = referent > 0 && block(address).map(origin) == Some(referent);
            (0, None, u32::from(live))
        }
        OriginsCall::Plain(_) => unreachable!("no plain call here"),
    }
}
