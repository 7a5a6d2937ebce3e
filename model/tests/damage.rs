//! Every clause of "Damaged if", each with shadows that it alone decides.

mod common;

use std::collections::BTreeMap;

use common::{addresses, ending, on_bytes, texts, view};
use model::call::{refusal, Call};
use model::form::PLAYER;
use model::generate::shadows;
use model::image::Shadows;
use model::map::{Area, Map};
use model::notation::{Example, OneCall, DESK_MAP, EXAMPLE_MAP};
use model::random::Random;
use model::reading::Reading;

/// The clauses that hold for one reading, all of them and in no order of tests.
fn clauses(map: Map, shadows: &Shadows, address: u32) -> Vec<&'static str> {
    match map.area(address) {
        Some(Area::Heap) if map.form == PLAYER => {
            heap_clauses([4, 8], &NAMES, shadows, address.into())
        }
        Some(Area::Heap) => heap_clauses([8, 16], &DESK_NAMES, shadows, address.into()),
        Some(Area::Stack) => stack_clauses(shadows, address.into()),
        None => vec![],
    }
}

/// The clauses of a heap reading; the last two, of S-8, cannot hold in four bytes.
const NAMES: [&str; 7] = [
    "heap: w - 1 no multiple of 8",
    "heap: base < heap start + 8",
    "heap: L = 0",
    "heap: base + L passes the end",
    "heap: w - 1 >= L",
    "never",
    "never",
];
const DESK_NAMES: [&str; 7] = [
    "heap: w - 1 no multiple of 16",
    "heap: base < heap start + 16",
    "heap: L = 0",
    "heap: base + L passes the end",
    "heap: w - 1 >= L",
    "heap: w of 2 to the 32 or more",
    "heap: L of 2 to the 32 or more",
];

/// A number of so many bytes, if the shadow has them all.
fn number(shadow: &[u8], position: i128, width: i128) -> Option<i128> {
    let byte = |i: i128| {
        Some(i128::from(
            *shadow.get(usize::try_from(position + i).ok()?)?,
        ))
    };
    (0..width).try_fold(0, |sum, i| Some(sum + (byte(i)? << (8 * i))))
}

fn holding(clauses: &[(bool, &'static str)]) -> Vec<&'static str> {
    let kept = clauses.iter().filter(|(holds, _)| *holds);
    kept.map(|&(_, name)| name).collect()
}

fn heap_clauses(
    [width, size]: [i128; 2],
    names: &[&'static str; 7],
    shadows: &Shadows,
    address: i128,
) -> Vec<&'static str> {
    let (start, end) = (4096, 4160);
    let segment = address - address % size;
    let w = number(&shadows.heap, segment - start, width).unwrap();
    if w == 0 {
        return vec![];
    }
    let base = segment - (w - 1);
    let mut held = holding(&[
        ((w - 1) % size != 0, names[0]),
        (base < start + size, names[1]),
        (w >> 32 > 0, names[5]),
    ]);
    // A header below the shadow has no bytes to judge.
    if let Some(length) = number(&shadows.heap, base - size + width - start, width) {
        held.extend(holding(&[
            (length == 0, names[2]),
            (base + length > end, names[3]),
            (w > length, names[4]),
            (length >> 32 > 0, names[6]),
        ]));
    }
    held
}

fn stack_clauses(shadows: &Shadows, address: i128) -> Vec<&'static str> {
    let (start, end) = (8192, 8224);
    let byte = shadows.primary[(address - start) as usize];
    let code = i128::from(byte / 4);
    let mut names = holding(&[
        (code == 0 && byte / 2 % 2 == 1, "stack: bit 1 with code 0"),
        (
            code == 0 && byte % 2 == 1,
            "stack: code 0 with a written bit",
        ),
        (
            (37..=47).contains(&code) || code == 63,
            "stack: code 37 to 47 or 63",
        ),
    ]);
    let block = match code {
        1..=36 => {
            let length = (1..=8).find(|l| code <= l * (l + 1) / 2).unwrap();
            Some((length, code - 1 - length * (length - 1) / 2))
        }
        48..=62 => piece_clauses(shadows, address - start, code - 48, &mut names),
        _ => None,
    };
    if let Some((length, offset)) = block {
        let base = address - offset;
        let fits = base >= start && base + length <= end;
        names.extend(holding(&[(!fits, "stack: the block does not fit")]));
    }
    names
}

/// Length and offset told by a piece, and the clauses that speak of pieces.
fn piece_clauses(
    shadows: &Shadows,
    position: i128,
    j: i128,
    names: &mut Vec<&'static str>,
) -> Option<(i128, i128)> {
    let length = number(&shadows.secondary, position - j, 4);
    let offset = number(&shadows.secondary, position - j + 4, 4);
    let (Some(length), Some(o)) = (length, offset) else {
        names.push("stack: the secondary bytes leave the area");
        return None;
    };
    let last = 8 * (length / 8) - 8;
    names.extend(holding(&[
        (length < 9, "stack: L < 9"),
        (o % 8 != 0, "stack: o no multiple of 8"),
        (o + 8 > length, "stack: o + 8 > L"),
        (
            j > 7 && o != last,
            "stack: j > 7 in a piece other than the last",
        ),
        (o + j >= length, "stack: o + j >= L"),
    ]));
    Some((length, o + j))
}

fn asked(example: &OneCall) -> u32 {
    match example.call {
        Call::Ask { address } => address,
        _ => panic!("the damage files only ask"),
    }
}

/// The files with a remark of clauses before each line.
const FILES: [&str; 2] = ["damage.txt", "desk-damage.txt"];

fn one_calls(name: &str) -> Vec<(String, String, OneCall)> {
    let found = texts(name).into_iter();
    found
        .map(|(remark, line, example)| match example {
            Example::On(example) => (remark, line, example),
            Example::Run { .. } => panic!("{line}"),
        })
        .collect()
}

#[test]
fn each_line_holds_exactly_the_clauses_named() {
    for (remark, line, example) in FILES.into_iter().flat_map(one_calls) {
        let mut named: Vec<&str> = remark.split("; ").collect();
        let mut holds = clauses(example.map, &example.shadows, asked(&example));
        named.sort_unstable();
        holds.sort_unstable();
        assert_eq!(holds, named, "{line}");
    }
}

#[test]
fn every_clause_has_a_line() {
    for (file, count) in FILES.into_iter().zip([5 + 10, 7]) {
        let remarks: Vec<String> = one_calls(file).into_iter().map(|l| l.0).collect();
        let mut names: Vec<&str> = remarks.iter().flat_map(|r| r.split("; ")).collect();
        names.sort_unstable();
        names.dedup();
        assert_eq!(names.len(), count, "{names:?}");
    }
}

#[test]
fn near_misses_hold_no_clause() {
    for (_, line, example) in one_calls("near-damage.txt") {
        assert!(
            clauses(example.map, &example.shadows, asked(&example)).is_empty(),
            "{line}"
        );
        on_bytes(&line, &example);
    }
}

#[test]
fn every_call_that_reads_there_meets_the_damage() {
    for (_, line, example) in FILES.into_iter().flat_map(one_calls) {
        on_bytes(&line, &example);
        let address = asked(&example);
        let (n, from) = (1, address);
        for call in [
            ending(example.map, address),
            Call::Written { address, n },
            Call::Valid { address, n, from },
            Call::Valid {
                address: 0,
                n,
                from,
            },
            Call::Valid {
                address,
                n,
                from: 0,
            },
            Call::ValidRead { address, n, from },
            Call::ValidRead {
                address: 0,
                n,
                from,
            },
            Call::ValidRead {
                address,
                n,
                from: 0,
            },
            Call::Initialised { address, n },
            Call::Next { address },
            Call::Audit,
        ] {
            let mut refused = example.clone();
            refused.call = call;
            assert_eq!(refused.answer.number, refusal::DAMAGED);
            on_bytes(&line, &refused);
        }
    }
}

/// How often each clause held, for a byte without bit 1 and, in the stack, with it.
fn clauses_met(map: Map) -> BTreeMap<&'static str, [u32; 2]> {
    let seed = 0xda3a;
    println!("seed {seed}");
    let mut random = Random::new(seed);
    let mut met: BTreeMap<&str, [u32; 2]> = BTreeMap::new();
    for round in 0..4000 {
        let changes = random.below(5);
        let bytes = match round % 3 {
            0 => shadows::noise(&mut random, map),
            _ => shadows::damaged(&mut random, map, changes),
        };
        for address in addresses(map) {
            let damaged = view(map, &bytes).read(address) == Reading::Damaged;
            let held = clauses(map, &bytes, address);
            assert_eq!(damaged, !held.is_empty(), "{address} {held:?} {bytes:?}");
            let bit = match map.area(address) {
                Some(Area::Stack) => bytes.primary[map.position(Area::Stack, address)] / 2 % 2,
                _ => 0,
            };
            for clause in held {
                met.entry(clause).or_default()[usize::from(bit)] += 1;
            }
        }
    }
    met
}

#[test]
fn readings_are_damaged_exactly_when_a_clause_holds() {
    for (map, heap) in [(EXAMPLE_MAP, 5), (DESK_MAP, 7)] {
        let met = clauses_met(map);
        assert_eq!(met.len(), heap + 10, "{met:?}");
        for (clause, [without, with]) in met {
            let both = clause.starts_with("stack") && clause != "stack: bit 1 with code 0";
            let counts: &[u32] = match clause.starts_with("heap") {
                true => &[without],
                false if both => &[without, with],
                false => &[with],
            };
            assert!(
                counts.iter().all(|&count| count > 100),
                "{clause} {counts:?}"
            );
        }
    }
}
