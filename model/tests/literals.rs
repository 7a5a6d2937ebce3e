//! Literals (S-5): each call on shadows with marks, beside what the same shadows
//! without them say. A mark is bit 1 of a primary byte that has a code.

mod common;

use std::collections::BTreeMap;

use common::lent::any_map;
use common::step;
use model::call::{refusal, Call};
use model::generate::{self, shadows, Scale};
use model::image::Shadows;
use model::map::{Area, Map};
use model::origins;
use model::origins::call::OriginsCall;
use model::origins::generate::states;
use model::random::Random;

const MARK: u8 = 2;

fn is_marked(byte: u8) -> bool {
    byte >= 4 && byte & MARK != 0
}

/// The same shadows with no mark; bit 1 with code 0 is none, and stays.
fn unmarked(shadows: &Shadows) -> Shadows {
    let mut plain = shadows.clone();
    for byte in plain.primary.iter_mut().filter(|byte| is_marked(**byte)) {
        *byte -= MARK;
    }
    plain
}

/// The primary byte of an address of the stack area.
fn primary(map: Map, shadows: &Shadows, address: u32) -> Option<u8> {
    let stack = map.area(address) == Some(Area::Stack);
    stack.then(|| shadows.primary[map.position(Area::Stack, address)])
}

fn marked(map: Map, shadows: &Shadows, address: u32) -> bool {
    primary(map, shadows, address).is_some_and(is_marked)
}

/// A map, bytes of any kind under it, and a call that is drawn for them.
fn any(random: &mut Random) -> (Map, Shadows, Call) {
    let map = any_map(random);
    let (bytes, call) = shadows::any(random, map);
    (map, bytes, call)
}

/// How often each of these was met, so that no clause goes untried.
#[derive(Default)]
struct Met(BTreeMap<&'static str, u32>);

impl Met {
    fn count(&mut self, what: &'static str, met: bool) {
        *self.0.entry(what).or_default() += u32::from(met);
    }

    fn all_above(&self, least: u32) {
        assert!(self.0.values().all(|&met| met > least), "{:?}", self.0);
    }
}

#[test]
fn calls_with_marks_and_without() {
    let mut met = Met::default();
    for seed in 0..150_000 {
        println!("seed {seed}");
        let (map, bytes, call) = any(&mut Random::new(seed));
        match call {
            Call::Valid { address, n, from } | Call::ValidRead { address, n, from } => {
                one_block(map, &bytes, [address, n, from], &mut met);
            }
            Call::RecordLiteral { base, length } => {
                literal_recorded(map, &bytes, base, length, &mut met);
            }
            Call::Written { address, n } => written(map, &bytes, address, n, &mut met),
            Call::Audit => {}
            _ => {
                let (said, after) = step(map, &bytes, call);
                let (plainly, without) = step(map, &unmarked(&bytes), call);
                assert_eq!(said, plainly, "{map:?} {call:?}");
                assert!(unmarked(&after) == without, "{map:?} {call:?}");
                if let (Call::Remove { base }, 0) = (call, said.number) {
                    met.count("a literal removed", marked(map, &bytes, base));
                }
                if let (Call::Free { base }, 15) = (call, said.number) {
                    met.count("free of a literal", marked(map, &bytes, base));
                }
            }
        }
    }
    assert_eq!(met.0.len(), 9);
    met.all_above(100);
}

/// 13 where it would else be accepted and the first byte is marked; no mark of
/// other bytes counts, or changes.
fn written(map: Map, bytes: &Shadows, address: u32, n: u32, met: &mut Met) {
    let call = Call::Written { address, n };
    let (said, after) = step(map, bytes, call);
    let (plainly, without) = step(map, &unmarked(bytes), call);
    let literal = marked(map, bytes, address);
    met.count("7 from a literal on", literal && plainly.number == 7);
    met.count("13", literal && plainly.number == 0);
    if literal && plainly.number == 0 {
        assert_eq!(said, Err(refusal::LITERAL).into(), "{map:?} {call:?}");
        assert!(after == *bytes, "{map:?} {call:?}");
        return;
    }
    assert_eq!(said, plainly, "{map:?} {call:?}");
    assert!(unmarked(&after) == without, "{map:?} {call:?}");
    assert_eq!(bits_1(&after), bits_1(bytes), "{map:?} {call:?}");
    let over = said.number == 0 && (address..address + n).any(|a| marked(map, bytes, a));
    met.count("written over later marks", over);
}

fn bits_1(shadows: &Shadows) -> Vec<u8> {
    shadows.primary.iter().map(|byte| byte & MARK).collect()
}

/// valid_read is what valid is without marks; valid is that too, but 0 where the
/// address's own byte is marked, whatever stands at from.
fn one_block(map: Map, bytes: &Shadows, [address, n, from]: [u32; 3], met: &mut Met) {
    let (said, _) = step(map, bytes, Call::Valid { address, n, from });
    let (readable, _) = step(map, bytes, Call::ValidRead { address, n, from });
    let (plainly, _) = step(map, &unmarked(bytes), Call::Valid { address, n, from });
    assert_eq!(readable, plainly, "{map:?} {address} {n} {from}");
    let literal = marked(map, bytes, address);
    let fields = match literal {
        true => [0; 4],
        false => plainly.fields,
    };
    assert_eq!((said.number, said.fields), (plainly.number, fields));
    let one = readable.fields[0] == 1;
    met.count("read in a literal", literal && one);
    let from_alone = !literal && marked(map, bytes, from);
    met.count("valid from a marked byte", from_alone && one);
}

/// record_literal is record_written in the stack area, and the mark on each of
/// the block's bytes; elsewhere 3 and 4 alone.
fn literal_recorded(map: Map, bytes: &Shadows, base: u32, length: u32, met: &mut Met) {
    let call = Call::RecordLiteral { base, length };
    let (said, after) = step(map, bytes, call);
    let outside = map.area(base) != Some(Area::Stack);
    met.count("outside the stack area", outside);
    met.count("a literal recorded", said.number == 0);
    if outside {
        let number = if length == 0 { 3 } else { 4 };
        assert_eq!(said, Err(number).into(), "{map:?} {call:?}");
        assert!(after == *bytes);
        return;
    }
    let (written, mut expected) = step(map, bytes, Call::RecordWritten { base, length });
    assert_eq!(said, written, "{map:?} {call:?}");
    if said.number == 0 {
        let first = map.position(Area::Stack, base);
        for byte in &mut expected.primary[first..first + length as usize] {
            *byte |= MARK;
        }
    }
    assert!(after == expected, "{map:?} {call:?}");
}

/// An image stays one with its marks exactly if each block has them on all of its
/// bytes, which are then written, or on none; and no other bytes become one.
#[test]
fn audit_with_marks_and_without() {
    let mut met = [0; 5];
    for seed in 0..80_000 {
        println!("seed {seed}");
        let (map, bytes, _) = any(&mut Random::new(seed));
        let (said, _) = step(map, &bytes, Call::Audit);
        let plain = unmarked(&bytes);
        let (plainly, _) = step(map, &plain, Call::Audit);
        if plainly.number != 0 {
            assert_eq!(said, plainly, "{map:?} {bytes:?}");
            met[0] += 1;
            continue;
        }
        let (mut mixed, mut unwritten, mut literals) = (false, false, 0);
        for block in shadows::read_blocks(map, &plain) {
            let all = block.base..=(block.end() - 1) as u32;
            let has: Vec<u8> = all.filter_map(|a| primary(map, &bytes, a)).collect();
            let marks = has.iter().filter(|byte| is_marked(**byte)).count();
            mixed |= (1..has.len()).contains(&marks);
            unwritten |= has.iter().any(|byte| is_marked(*byte) && byte & 1 == 0);
            literals += usize::from(marks > 0);
        }
        match mixed || unwritten {
            true => assert_eq!(said, Err(refusal::DAMAGED).into(), "{map:?} {bytes:?}"),
            false => assert_eq!(said, plainly, "{map:?} {bytes:?}"),
        }
        let kind = match (mixed, unwritten) {
            (false, false) => 1 + usize::from(literals == 0),
            (true, false) => 3,
            (false, true) => 4,
            (true, true) => continue,
        };
        met[kind] += 1;
    }
    assert!(met.iter().all(|&count| count > 300), "{met:?}");
}

/// The pointer calls of the form with origins do not look at marks (S4.12).
#[test]
fn pointers_with_marks_and_without() {
    let mut in_a_literal = [0; 3];
    for seed in 0..60_000 {
        println!("seed {seed}");
        let mut random = Random::new(seed);
        let map = generate::map(&mut random, Scale::Crowded);
        let (mut state, call) = states::any(&mut random, map);
        let (kind, cell) = match call {
            OriginsCall::Plain(_) => continue,
            OriginsCall::Point { cell, .. } => (0, cell),
            OriginsCall::Copy { to, .. } => (1, to),
            OriginsCall::Live { cell, .. } => (2, cell),
        };
        let literal = marked(map, &state.shadows, cell);
        let before = state.shadows.clone();
        let mut without = state.clone();
        without.shadows = unmarked(&state.shadows);
        let said = origins::bytes::call(map, &mut state, call);
        assert_eq!(said, origins::bytes::call(map, &mut without, call));
        assert!(state.shadows == before, "{map:?} {call:?}");
        assert!(state.cells == without.cells && state.counter == without.counter);
        in_a_literal[kind] += u32::from(literal && said.number == 0);
    }
    assert!(in_a_literal.iter().all(|&met| met > 30), "{in_a_literal:?}");
}
