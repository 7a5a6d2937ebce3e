//! Free of the null pointer (S-2): accepted, and no byte altered, on any state.

mod common;

use common::lent::{any_lent, any_map, any_state, outside};
use common::on;
use model::call::{refusal, Answer, Call, NO_FIELDS};
use model::generate::file::file;
use model::generate::{self, Scale};
use model::plain::{List, PlainList};
use model::plain_btree::PlainTree;
use model::program::{decode, run, Record};
use model::random::Random;

const FREE_NULL: Call = Call::Free { base: 0 };

const ACCEPTED: Answer = Answer {
    number: 0,
    fields: NO_FIELDS,
};

#[test]
fn accepted_on_any_bytes_and_none_altered() {
    let mut no_image = 0;
    for seed in 0..20_000 {
        println!("seed {seed}");
        let (map, before) = any_state(&mut Random::new(seed));
        let mut bytes = before.clone();
        for _ in 0..2 {
            assert_eq!(on(map, &mut bytes, FREE_NULL), ACCEPTED, "{map:?}");
            assert!(bytes == before, "{map:?} {before:?}");
        }
        let audit = on(map, &mut bytes, Call::Audit);
        no_image += u32::from(audit.number == refusal::DAMAGED);
    }
    assert!(no_image > 5000, "{no_image} states were damaged");
}

#[test]
fn every_other_address_outside_is_refused() {
    let mut met = 0;
    for seed in 0..5000 {
        println!("seed {seed}");
        let mut random = Random::new(seed);
        let (map, before) = any_state(&mut random);
        for address in outside(&mut random, map).filter(|&address| address != 0) {
            let mut bytes = before.clone();
            let answer = on(map, &mut bytes, Call::Free { base: address });
            assert_eq!(answer, Err(refusal::OUTSIDE).into(), "{map:?} {address}");
            assert!(bytes == before, "{map:?} {address}");
            met += 1;
        }
    }
    assert!(met > 5000 * 12, "{met} addresses");
}

/// Whatever was done before and comes after, the list is as without it.
fn between_calls<L: List>() {
    for seed in 0..2000 {
        println!("seed {seed}");
        let mut random = Random::new(seed);
        let map = any_map(&mut random);
        let (mut with, mut without) = (L::new(map), PlainList::new(map));
        for _ in 0..60 {
            assert_eq!(with.step(FREE_NULL), ACCEPTED, "{map:?}");
            assert_eq!(with.listed(), without.listed(), "{map:?}");
            let call = generate::call(&mut random, map, without.blocks());
            assert_eq!(with.step(call), without.step(call), "{map:?} {call:?}");
        }
    }
}

#[test]
fn both_lists_go_on_as_without_it() {
    between_calls::<PlainList>();
    between_calls::<PlainTree>();
}

#[test]
fn bad_maps_and_wrong_lengths_come_first() {
    let mut met = [0; 3];
    for seed in 0..20_000 {
        println!("seed {seed}");
        let (map, mut lent, number) = any_lent(&mut Random::new(seed));
        let kept = lent.clone();
        let answer = on(map, &mut lent, FREE_NULL);
        let fields = NO_FIELDS;
        assert_eq!(answer, Answer { number, fields }, "{map:?}");
        assert!(lent == kept, "{map:?}");
        met[number as usize] += 1;
    }
    assert!(met.iter().all(|&count| count > 1000), "{met:?}");
}

/// The other calls at address 0, on states that are any bytes.
#[test]
fn the_other_calls_at_0_are_as_they_were() {
    let (address, base, n, length) = (0, 0, 1, 1);
    for seed in 0..3000 {
        println!("seed {seed}");
        let (map, before) = any_state(&mut Random::new(seed));
        for (call, number) in [
            (Call::Record { base, length }, 4),
            (Call::Record { base, length: 0 }, 3),
            (Call::RecordWritten { base, length }, 4),
            (Call::RecordWritten { base, length: 0 }, 3),
            (Call::RecordLiteral { base, length }, 4),
            (Call::RecordLiteral { base, length: 0 }, 3),
            (Call::Written { address, n }, 4),
            (Call::Written { address, n: 0 }, 3),
            (Call::Ask { address }, 4),
            (Call::Remove { base }, 4),
            (
                Call::Valid {
                    address,
                    n,
                    from: 0,
                },
                0,
            ),
            (
                Call::ValidRead {
                    address,
                    n,
                    from: 0,
                },
                0,
            ),
            (Call::Initialised { address, n }, 0),
        ] {
            let mut bytes = before.clone();
            let fields = NO_FIELDS;
            let answer = on(map, &mut bytes, call);
            assert_eq!(answer, Answer { number, fields }, "{map:?} {call:?}");
            assert!(bytes == before, "{map:?} {call:?}");
        }
    }
}

/// How often the generators draw it, so that a wrong answer would be met.
#[test]
fn it_is_drawn_often() {
    let (mut drawn, mut beside) = (0, 0);
    for seed in 0..20_000 {
        let mut random = Random::new(seed);
        let map = generate::map(&mut random, Scale::Crowded);
        match generate::call(&mut random, map, &[]) {
            FREE_NULL => drawn += 1,
            Call::Free { base: 1..=7 } => beside += 1,
            _ => {}
        }
    }
    assert!(drawn > 150 && beside > 80, "{drawn} {beside}");
    let mut before_map = 0;
    for seed in 0..500 {
        before_map += frees_before_a_map(&file(&mut Random::new(seed), 200));
    }
    assert!(before_map > 50, "{before_map} before a map");
}

/// Frees of address 0 that are refused by 1, since no map is accepted yet.
fn frees_before_a_map(mut input: &[u8]) -> usize {
    let lines = String::from_utf8(run(input)).expect("lines are text");
    let mut count = 0;
    for line in lines.lines().take_while(|&line| line != "1 0") {
        let Some((record, rest)) = decode(input) else {
            break;
        };
        input = rest;
        if record == Record::Call(3, FREE_NULL) {
            assert_eq!(line, "3 1");
            count += 1;
        }
    }
    count
}
