//! The form with origins on random runs: the list, the bytes and the history of
//! calls, call by call.

use model::call::refusal;
use model::generate::{self, Scale};
use model::map::Map;
use model::origins::bytes;
use model::origins::call::{OriginsCall, LAST_ORIGIN};
use model::origins::cells::State;
use model::origins::generate::Calls;
use model::origins::history::History;
use model::origins::list::OriginsList;
use model::random::Random;

/// What a run met: how often each kind gave each number, and how kind 13 answered.
#[derive(Default)]
struct Met {
    numbers: [[u32; 16]; 17],
    live: u32,
    /// Kind 13 answered 0 although the address was in a live block, and the
    /// pointer was set to a block.
    stale: u32,
}

/// A run on all three; numbers, fields, every byte and the counter must agree.
fn run(random: &mut Random, map: Map, from: u64, last: u64, calls: u32, met: &mut Met) {
    let mut list = OriginsList::with_last(map, from, last);
    let mut state = State::cleared(map);
    state.counter = from;
    let mut history = Vec::new();
    let mut made = Calls::default();
    for _ in 0..calls {
        let call = made.next(random, map, list.blocks());
        let before = state.clone();
        let answer = bytes::call_with_last(last, map, &mut state, call);
        assert_eq!(list.step(call), answer, "{map:?} {call:?}");
        assert!(list.state() == state, "bytes differ, {map:?} {call:?}");
        assert_eq!(list.counter(), state.counter, "{map:?} {call:?}");
        if answer.number != 0 || call.alters_nothing() {
            assert!(before == state, "{map:?} {call:?}");
        }
        let kind = call.record_fields().map_or(1, |(kind, _)| kind);
        met.numbers[usize::from(kind)][answer.number as usize] += 1;
        history.push((call, answer.number == 0));
        if let OriginsCall::Live { cell, address } = call {
            if answer.number == 0 {
                judged(&history, cell, address, answer.fields[0] == 1, met);
                let set = list.pointers().any(|pointer| pointer == cell);
                let held = list.blocks().iter().any(|block| block.holds(address, 1));
                met.stale += u32::from(answer.fields[0] == 0 && set && held);
            }
        }
    }
}

/// From the whole history anew, so that nothing is carried along.
fn judged(calls: &[(OriginsCall, bool)], cell: u32, address: u32, live: bool, met: &mut Met) {
    let history = History::of(calls);
    assert_eq!(history.judges_live(cell, address), live, "{calls:?}");
    met.live += u32::from(live);
}

/// Which numbers a list can give for each kind, where the origins do not run out.
const GIVEN: [&[usize]; 17] = [
    &[],
    &[0],
    &[0, 3, 4, 5, 6],
    &[0, 4, 7, 15],
    &[0, 3, 4, 7, 13],
    &[0, 4, 7],
    &[0, 3],
    &[0, 3],
    &[0, 7],
    &[0],
    &[0, 3, 4, 5, 6],
    &[0, 4, 11],
    &[0, 4, 11],
    &[0, 4, 11],
    &[0, 3, 4, 5, 6],
    &[0, 3],
    &[0, 4, 7],
];

fn all_met(met: &Met, used_up: bool) {
    for (kind, numbers) in GIVEN.iter().enumerate() {
        let recording = [2, 10, 14].contains(&kind);
        for (number, &count) in met.numbers[kind].iter().enumerate() {
            let given = numbers.contains(&number) || (number == 12 && recording && used_up);
            let kept = if given { count > 100 } else { count == 0 };
            assert!(kept, "kind {kind}, number {number}: {count}");
        }
    }
}

#[test]
fn crowded_areas() {
    let mut met = Met::default();
    for seed in 0..4000 {
        println!("seed {seed}");
        let mut random = Random::new(seed);
        let map = generate::map(&mut random, Scale::Crowded);
        run(&mut random, map, 1, LAST_ORIGIN, 200, &mut met);
    }
    all_met(&met, false);
    assert!(met.live > 5000, "{} live", met.live);
    assert!(met.stale > 5000, "{} stale", met.stale);
}

/// With few origins they are used up soon; what was recorded before goes on.
#[test]
fn few_origins() {
    let mut met = Met::default();
    for seed in 0..4000 {
        println!("seed {seed}");
        let mut random = Random::new(seed);
        let map = generate::map(&mut random, Scale::Crowded);
        let last = random.pick(&[1, 2, 6, 6, 12, 30]);
        run(&mut random, map, 1, last, 150, &mut met);
    }
    all_met(&met, true);
    assert!(met.live > 2000, "{} live", met.live);
    assert!(met.stale > 500, "{} stale", met.stale);
}

/// The same at the true last origin, which the counter reaches from just below.
#[test]
fn the_last_origins() {
    let mut met = Met::default();
    for seed in 0..3000 {
        println!("seed {seed}");
        let mut random = Random::new(seed);
        let map = generate::map(&mut random, Scale::Crowded);
        let from = LAST_ORIGIN - random.below(12);
        run(&mut random, map, from, LAST_ORIGIN, 150, &mut met);
    }
    all_met(&met, true);
    assert!(met.live > 1000, "{} live", met.live);
}

/// A counter that no run of calls reaches: nothing can be recorded.
#[test]
fn no_origin_left_or_none_yet() {
    for from in [0, LAST_ORIGIN + 1, LAST_ORIGIN + 2, 1 << 63, u64::MAX] {
        let mut met = Met::default();
        for seed in 0..200 {
            let mut random = Random::new(seed);
            let map = generate::map(&mut random, Scale::Crowded);
            run(&mut random, map, from, LAST_ORIGIN, 60, &mut met);
        }
        for kind in [2, 10, 14] {
            let numbers = met.numbers[kind];
            assert!(numbers[0] == 0 && numbers[12] > 100, "{kind}: {numbers:?}");
        }
    }
}

#[test]
fn full_size() {
    let mut met = Met::default();
    for seed in 0..6 {
        println!("seed {seed}");
        let mut random = Random::new(seed);
        let map = generate::map(&mut random, Scale::Full);
        run(&mut random, map, 1, LAST_ORIGIN, 250, &mut met);
    }
}

/// 12 is given for every recording that would else be accepted, and no other.
#[test]
fn used_up_is_the_last_refusal() {
    for seed in 0..3000 {
        println!("seed {seed}");
        let mut random = Random::new(seed);
        let map = generate::map(&mut random, Scale::Crowded);
        let mut list = OriginsList::new(map, 1);
        let mut made = Calls::default();
        for _ in 0..40 {
            let call = made.next(&mut random, map, list.blocks());
            let state = list.state();
            let answer = list.step(call);
            if matches!(call, OriginsCall::Plain(one) if one.recording().is_some()) {
                let mut used_up = state.clone();
                used_up.counter = random.pick(&[0, LAST_ORIGIN + 1, u64::MAX]);
                let before = used_up.clone();
                let other = bytes::call(map, &mut used_up, call);
                let expected = match answer.number {
                    0 => refusal::USED_UP,
                    number => number,
                };
                assert_eq!(other.number, expected, "{map:?} {call:?}");
                assert!(used_up == before);
            }
        }
    }
}
