//! Random and damaged shadow bytes: the byte-level model against itself.

mod common;

use common::{addresses, ending, on, view};
use model::block::Block;
use model::bytes;
use model::call::{refusal, Answer, Call};
use model::decode::decode;
use model::form::{Form, DESK, FORMS, PLAYER};
use model::generate::{self, shadows, Scale};
use model::image::{image, Shadows};
use model::map::{Area, Map};
use model::plain::{List, PlainList};
use model::random::Random;
use model::reading::Reading;

/// One call that must leave the bytes alone.
fn look(map: Map, bytes: &Shadows, call: Call) -> Answer {
    let mut shadows = bytes.clone();
    let answer = on(map, &mut shadows, call);
    assert!(shadows == *bytes, "{call:?} changed bytes");
    answer
}

/// A block recorded, and its bytes written; a literal in one call.
fn record_anew(list: &mut PlainList, block: &Block) {
    let (base, length) = (block.base, block.length);
    if block.literal {
        assert_eq!(list.step(Call::RecordLiteral { base, length }).number, 0);
        return;
    }
    assert_eq!(list.step(Call::Record { base, length }).number, 0);
    for (address, _) in (base..).zip(&block.written).filter(|(_, &mark)| mark) {
        list.step(Call::Written { address, n: 1 });
    }
}

/// Accepted bytes are the image of a list that record itself would build, with
/// the same totals and the same readings; refused bytes are that of none.
fn audit_is_honest(map: Map, bytes: &Shadows) -> bool {
    let answer = look(map, bytes, Call::Audit);
    let Some(blocks) = decode(view(map, bytes)) else {
        assert_eq!(answer.number, refusal::DAMAGED);
        return false;
    };
    let mut list = PlainList::new(map);
    for block in &blocks {
        record_anew(&mut list, block);
    }
    assert_eq!(list.blocks(), blocks);
    assert!(image(map, list.blocks()) == *bytes);
    assert_eq!(list.step(Call::Audit), answer);
    for address in addresses(map) {
        let call = Call::Ask { address };
        assert_eq!(list.step(call), look(map, bytes, call));
    }
    true
}

/// Each call says what the readings of its addresses say.
fn calls_follow_readings(random: &mut Random, map: Map, bytes: &Shadows) {
    let view = view(map, bytes);
    let mut following = refusal::NO_BLOCK;
    let mut above: Vec<u32> = addresses(map).collect();
    above.reverse();
    for address in above {
        let ask = look(map, bytes, Call::Ask { address });
        let (n, from) = (1, address);
        let valid = look(map, bytes, Call::Valid { address, n, from });
        let readable = look(map, bytes, Call::ValidRead { address, n, from });
        let written = look(map, bytes, Call::Initialised { address, n });
        match view.read(address) {
            Reading::Damaged => {
                let numbers = [ask.number, valid.number, readable.number, written.number];
                assert_eq!(numbers, [8; 4]);
                following = refusal::DAMAGED;
            }
            Reading::NoBlock => {
                assert_eq!(ask.number, refusal::NO_BLOCK);
                assert_eq!((valid.number, valid.fields), (0, [0; 4]));
                assert_eq!((readable.number, readable.fields), (0, [0; 4]));
                assert_eq!((written.number, written.fields), (0, [0; 4]));
            }
            Reading::Block(found) => {
                assert_eq!(ask.fields[0] + ask.fields[2], address);
                let writable = u32::from(!found.literal);
                assert_eq!((valid.number, valid.fields[0]), (0, writable));
                assert_eq!((readable.number, readable.fields[0]), (0, 1));
                assert_eq!((written.number, written.fields[0]), (0, ask.fields[3]));
                if found.offset == 0 {
                    following = 0;
                }
            }
        }
        if random.once_in(4) {
            let next = look(map, bytes, Call::Next { address });
            assert_eq!(next.number, following);
        }
    }
}

/// A refusal alters nothing, and an accepted change stays where it belongs.
fn changes_stay_inside(map: Map, bytes: &Shadows, call: Call) {
    let mut shadows = bytes.clone();
    let answer = on(map, &mut shadows, call);
    if answer.number != 0 || call.alters_nothing() {
        assert!(shadows == *bytes, "{call:?}");
    }
    match call {
        Call::Written { .. } if answer.number == 0 => {
            assert!(shadows.secondary == bytes.secondary);
            let heap = bytes.heap.iter().zip(&shadows.heap).enumerate();
            let bits = |i: usize| match map.form {
                PLAYER => i % 8 == 4,
                _ => [8, 9].contains(&(i % 16)),
            };
            assert!(heap.clone().all(|(i, (b, a))| b == a || bits(i)));
            assert!(heap
                .clone()
                .all(|(_, (before, after))| before & !after == 0));
            let mut primary = bytes.primary.iter().zip(&shadows.primary);
            assert!(primary.all(|(before, after)| before | 1 == after | 1));
        }
        Call::Record { base, length }
        | Call::RecordWritten { base, length }
        | Call::RecordLiteral { base, length }
            if answer.number == 0 =>
        {
            let ended = on(map, &mut shadows, ending(map, base));
            assert_eq!(ended.number, 0, "{length}");
            assert!(shadows == *bytes, "a recorded place was not zero before");
        }
        _ => {}
    }
}

fn hard_bytes(random: &mut Random, map: Map) -> Shadows {
    let changes = random.below(4);
    match random.below(4) {
        0 => shadows::noise(random, map),
        _ => shadows::damaged(random, map, changes),
    }
}

fn hard_bytes_of(form: Form) {
    let mut accepted = 0;
    for seed in 0..6000 {
        println!("seed {seed}");
        let mut random = Random::new(seed);
        let map = generate::map_of(form, &mut random, Scale::Crowded);
        let bytes = hard_bytes(&mut random, map);
        accepted += u32::from(audit_is_honest(map, &bytes));
        calls_follow_readings(&mut random, map, &bytes);
        let blocks = shadows::read_blocks(map, &bytes);
        for _ in 0..20 {
            let call = generate::call(&mut random, map, &blocks);
            changes_stay_inside(map, &bytes, call);
        }
    }
    assert!((1000..5000).contains(&accepted), "{accepted} accepted");
}

#[test]
fn audit_and_calls_on_hard_bytes() {
    hard_bytes_of(PLAYER);
}

#[test]
fn audit_and_calls_on_hard_bytes_at_the_desk() {
    hard_bytes_of(DESK);
}

/// Two heap blocks, and stack blocks and literals below them.
fn every_change_of(map: Map, heap: [(u32, u32); 2]) {
    let mut list = PlainList::new(map);
    let stack = [(8, 2), (10, 11), (21, 4)];
    for (base, length) in heap.into_iter().chain(stack) {
        assert_eq!(list.step(Call::Record { base, length }).number, 0);
        let address = base + 1;
        list.step(Call::Written { address, n: 1 });
    }
    for (base, length) in [(25, 1), (26, 3), (30, 10)] {
        assert_eq!(list.step(Call::RecordLiteral { base, length }).number, 0);
    }
    let bytes = image(map, list.blocks());
    let mut accepted = 0;
    let size = map.heap_size as usize;
    for position in 0..size + 32 + 32 {
        for value in 0..=255 {
            let mut changed = bytes.clone();
            match position.checked_sub(size) {
                None => changed.heap[position] = value,
                Some(place @ 0..32) => changed.primary[place] = value,
                Some(place) => changed.secondary[place - 32] = value,
            }
            accepted += u32::from(audit_is_honest(map, &changed));
        }
    }
    // At least itself once a byte, and each written bit the other way where it may be.
    let bits = heap[0].1 + heap[1].1 + 17;
    assert!(accepted >= map.heap_size + 64 + bits, "{accepted} accepted");
}

#[test]
fn every_change_of_one_byte() {
    every_change_of(Map::new(40, 40, 8, 32), [(48, 5), (64, 9)]);
    every_change_of(Map::new(48, 96, 8, 32).of(DESK), [(64, 9), (112, 17)]);
}

/// The two numbers, and one byte of written bits.
#[test]
fn a_heap_reading_looks_at_nine_bytes_or_seventeen() {
    for seed in 0..4000 {
        println!("seed {seed}");
        let mut random = Random::new(seed);
        let form = random.pick(&FORMS);
        let map = generate::map_of(form, &mut random, Scale::Crowded);
        let bytes = shadows::damaged(&mut random, map, 1);
        let offset = random.between(0, map.heap_size - 1);
        let address = map.heap_start + offset;
        let Reading::Block(found) = view(map, &bytes).read(address) else {
            continue;
        };
        let segment = (offset - offset % form.segment) as usize;
        let header = map.position(Area::Heap, found.base) - form.bytes();
        let bits = match form {
            PLAYER => segment + 4,
            _ => segment + 8 + usize::from(offset % 16 > 7),
        };
        let mut changed = shadows::noise(&mut random, map);
        let mut looked_at = 0;
        for (start, length) in [
            (segment, form.width),
            (header + form.width, form.width),
            (bits, 1),
        ] {
            let bytes = &bytes.heap[start..start + length];
            changed.heap[start..start + length].copy_from_slice(bytes);
            looked_at += length;
        }
        assert_eq!(looked_at, if form == DESK { 17 } else { 9 });
        assert_eq!(view(map, &changed).read(address), Reading::Block(found));
    }
}

#[test]
fn any_map_and_any_lengths() {
    for seed in 0..40_000 {
        println!("seed {seed}");
        let mut random = Random::new(seed);
        let form = random.pick(&FORMS);
        let good = generate::map_of(form, &mut random, Scale::Crowded);
        let map = generate::edge_map_of(form, &mut random);
        let call = generate::call(&mut random, good, &[]);
        let mut right = Shadows::cleared(good);
        if !map.good() {
            assert_eq!(on(map, &mut right, call), Err(refusal::BAD_MAP).into());
        }
        let mut lengths = [good.heap_size, good.stack_size, good.stack_size];
        let wrong = random.below(3) as usize;
        lengths[wrong] = random.pick(&[0, lengths[wrong] - 1, lengths[wrong] + 1, 8]);
        let mut bytes = lengths.map(|length| vec![7; length as usize]);
        let [heap, primary, secondary] = &mut bytes;
        let answer = bytes::call(good, heap, primary, secondary, call);
        assert_eq!(answer, Err(refusal::SHADOW_LENGTH).into());
        assert!(bytes.iter().flatten().all(|&byte| byte == 7));
    }
}
