//! The proved library of the form with origins against the models: number, fields, three shadows, two shadows of cells, counter.
//! `MONITOR_CALLS` multiplies the number of calls.
#![cfg(library)]

use linked_origins::{call, call_for_literal};
use model::call::{refusal, Answer, Call};
use model::generate::{self, Scale};
use model::map::Map;
use model::origins::bytes;
use model::origins::call::{OriginsCall, LAST_ORIGIN};
use model::origins::cells::State;
use model::origins::generate::{states, Calls};
use model::origins::history::History;
use model::origins::list::OriginsList;
use model::origins::notation::{example, put, Example};
use model::random::Random;

fn times() -> u64 {
    let named = std::env::var("MONITOR_CALLS").ok();
    named.and_then(|times| times.parse().ok()).unwrap_or(1)
}

/// One call on any state, held against the byte-level model.
fn agreed(map: Map, lent: &mut State, one: OriginsCall) -> Answer {
    let before = lent.clone();
    let mut other = lent.clone();
    let said = call(map, lent, one);
    let model = bytes::call(map, &mut other, one);
    assert_eq!(said, model, "{map:?} {one:?} {before:?}");
    assert!(*lent == other, "state differs: {map:?} {one:?} {before:?}");
    said
}

/// A run from cleared shadows and cells against the list, its image, its cells and its counter, and kind 13 against the history.
fn run(seed: u64, scale: Scale, from: u64, calls: u32) {
    let mut random = Random::new(seed);
    let map = generate::map(&mut random, scale);
    let mut list = OriginsList::new(map, from);
    let mut lent = State::cleared(map);
    lent.counter = from;
    let mut made = Calls::default();
    let mut history = History::default();
    for _ in 0..calls {
        let one = made.next(&mut random, map, list.blocks());
        let answer = agreed(map, &mut lent, one);
        assert_eq!(list.step(one), answer, "seed {seed} {map:?} {one:?}");
        assert!(list.state() == lent, "seed {seed} {map:?} {one:?}");
        history.add(one, answer.number == 0);
        if let (OriginsCall::Live { cell, address }, 0) = (one, answer.number) {
            let live = u32::from(history.judges_live(cell, address));
            assert_eq!(answer.fields[0], live, "seed {seed} {map:?} {one:?}");
        }
    }
}

#[test]
fn runs_in_crowded_areas() {
    println!("seeds 0 to {}", 1500 * times());
    for seed in 0..1500 * times() {
        run(seed, Scale::Crowded, 1, 150);
    }
}

#[test]
fn runs_that_use_up_the_origins() {
    println!("seeds 0 to {}", 600 * times());
    for seed in 0..600 * times() {
        run(seed, Scale::Crowded, LAST_ORIGIN - seed % 12, 120);
    }
}

#[test]
fn runs_at_any_counter() {
    let counters = [0, 1, LAST_ORIGIN, LAST_ORIGIN + 1, 1 << 63, u64::MAX];
    for from in counters {
        for seed in 0..40 * times() {
            run(seed, Scale::Crowded, from, 60);
        }
    }
}

#[test]
fn runs_at_full_size() {
    println!("seeds 0 to {}", 6 * times());
    for seed in 0..6 * times() {
        run(seed, Scale::Full, 1, 120);
    }
}

/// A map, a state of any kind, and a call that is drawn for it.
fn any(random: &mut Random) -> (Map, State, OriginsCall) {
    let map = generate::map(random, Scale::Crowded);
    let (state, call) = states::any(random, map);
    (map, state, call)
}

#[test]
fn calls_on_damaged_and_random_states() {
    println!("seeds 0 to {}", 80_000 * times());
    let (mut met, mut freed, mut removed) = ([0; 16], [0; 16], [0; 16]);
    for seed in 0..80_000 * times() {
        let (map, mut lent, one) = any(&mut Random::new(seed));
        let answer = agreed(map, &mut lent, one);
        met[answer.number as usize] += 1;
        match one {
            OriginsCall::Plain(Call::Free { .. }) => freed[answer.number as usize] += 1,
            OriginsCall::Plain(Call::Remove { .. }) => removed[answer.number as usize] += 1,
            _ => {}
        }
    }
    for number in [0, 3, 4, 5, 6, 7, 8, 11, 12, 13, 15] {
        assert!(met[number] > 100, "{number}: {}", met[number]);
    }
    for number in [0, 4, 7, 8] {
        assert!(freed[number] > 100, "free {number}: {}", freed[number]);
        assert!(removed[number] > 100, "{number}: {}", removed[number]);
    }
    assert!(freed[15] > 100 && removed[15] == 0, "{freed:?} {removed:?}");
}

#[test]
fn bad_maps_and_wrong_lengths() {
    println!("seeds 0 to {}", 30_000 * times());
    for seed in 0..30_000 * times() {
        let mut random = Random::new(seed);
        let (good, mut lent, one) = any(&mut random);
        let map = match random.once_in(2) {
            true => generate::edge_map(&mut random),
            false => good,
        };
        if random.once_in(2) {
            states::wrong_length(&mut random, &mut lent);
        }
        agreed(map, &mut lent, one);
    }
}

/// Free and remove at every address of the areas: the cells of a block that ends, and no others, go with it.
#[test]
fn every_address_on_any_state() {
    let mut met = [0; 16];
    for seed in 0..1500 * times() {
        let (map, state, _) = any(&mut Random::new(seed));
        let areas = map.climbing().map(|area| map.bounds(area));
        for base in areas.into_iter().flatten().map(|address| address as u32) {
            for one in [Call::Free { base }, Call::Remove { base }] {
                let mut lent = state.clone();
                let said = agreed(map, &mut lent, OriginsCall::Plain(one));
                met[said.number as usize] += 1;
            }
        }
    }
    for number in [0, 4, 7, 8, 15] {
        assert!(met[number] > 1000, "{number}: {}", met[number]);
    }
}

/// Every recording at each of these counters, on states that are any bytes.
#[test]
fn counters_at_their_ends() {
    let mut used_up = 0;
    for seed in 0..10_000 * times() {
        let mut random = Random::new(seed);
        let (map, mut lent, _) = any(&mut random);
        lent.counter = states::counter(&mut random);
        let one = generate::record(&mut random, map, &[]);
        let answer = agreed(map, &mut lent, OriginsCall::Plain(one));
        used_up += u32::from(answer.number == refusal::USED_UP);
        assert!(one.recording().is_some());
    }
    assert!(used_up > 100, "{used_up}");
}

/// Every number but 0 and 1 asks for a literal.
#[test]
fn every_way_to_ask_for_a_literal() {
    let mut accepted = 0;
    for how in 2..=u8::MAX {
        for seed in 0..20 * times() {
            let mut random = Random::new(1000 * u64::from(how) + seed);
            let (map, state, _) = any(&mut random);
            let base = map.stack_start + 4 * random.between(0, map.stack_size / 4 - 1);
            let length = random.between(1, 12);
            let one = OriginsCall::Plain(Call::RecordLiteral { base, length });
            let (mut lent, mut other) = (state.clone(), state);
            let said = call_for_literal(how, map, &mut lent, one);
            assert_eq!(said, bytes::call(map, &mut other, one), "{how} {map:?}");
            assert!(lent == other, "{how} {map:?} {one:?}");
            accepted += u32::from(said.number == 0);
        }
    }
    assert!(accepted > 300, "{accepted}");
}

/// The samples of the model's data, on the library itself.
#[test]
fn stated_samples() {
    let mut samples = 0;
    let lines = include_str!("../../model/tests/data/origins.txt").lines();
    let literals = include_str!("../../model/tests/data/literals-origins.txt").lines();
    let removals = include_str!("../../model/tests/data/remove-origins.txt").lines();
    for line in lines.chain(literals).chain(removals) {
        let Some(Example::On(told)) = example(line) else {
            continue;
        };
        let map = model::notation::EXAMPLE_MAP;
        let mut lent = told.state.clone();
        assert_eq!(agreed(map, &mut lent, told.call), told.answer, "{line}");
        let mut stated = lent.clone();
        put(&mut stated, &told.then).expect("bytes of the state");
        assert!(lent == stated, "{line}");
        samples += 1;
    }
    assert!(samples > 580, "{samples}");
}
