//! Two of the ways to record: record_written is record, and the whole block written.

mod common;

use common::lent::any_map;
use common::{ending, on};
use model::call::{Answer, Call};
use model::form::DESK;
use model::generate::{self, shadows};
use model::image::Shadows;
use model::map::{Area, Map};
use model::notation::{DESK_MAP, EXAMPLE_MAP};
use model::plain::{List, PlainList};
use model::plain_btree::PlainTree;
use model::random::Random;

/// Base and length of a recording, good or to be refused.
fn place(random: &mut Random, map: Map, list: &PlainList) -> (u32, u32) {
    let call = generate::record(random, map, list.blocks());
    let (base, length, _) = call.recording().expect("a call that records");
    (base, length)
}

/// Recorded unwritten and, if that was accepted, written from end to end.
fn in_two_calls(base: u32, length: u32, mut step: impl FnMut(Call) -> Answer) -> Answer {
    let recorded = step(Call::Record { base, length });
    if recorded.number == 0 {
        let marked = step(Call::Written {
            address: base,
            n: length,
        });
        assert_eq!(marked, recorded, "{base} {length}");
    }
    recorded
}

#[test]
fn the_bytes_are_those_of_record_and_written() {
    // The desk's heap, the player's, and the stack.
    let mut met = [[0; 7]; 3];
    for seed in 0..30_000 {
        println!("seed {seed}");
        let mut random = Random::new(seed);
        let map = any_map(&mut random);
        let list = shadows::list(&mut random, map, 8);
        let changes = random.below(3);
        let bytes = shadows::damaged(&mut random, map, changes);
        let (base, length) = place(&mut random, map, &list);
        let (mut one, mut two) = (bytes.clone(), bytes.clone());
        let answer = on(map, &mut one, Call::RecordWritten { base, length });
        let marked = in_two_calls(base, length, |call| on(map, &mut two, call));
        assert_eq!(answer, marked, "{map:?} {base} {length}");
        assert!(one == two, "bytes differ: {map:?} {base} {length}");
        assert_eq!(answer.number == 0, one != bytes, "{map:?} {base} {length}");
        let place = match map.area(base) {
            None => continue,
            Some(Area::Heap) => usize::from(map.form != DESK),
            Some(Area::Stack) => 2,
        };
        met[place][answer.number as usize] += 1;
    }
    for (area, numbers) in met.iter().enumerate() {
        for number in [0, 3, 4, 6] {
            assert!(numbers[number] > 100, "area {area} {number}: {numbers:?}");
        }
    }
    let [desk, player, stack] = met.map(|numbers| numbers[5]);
    assert!(desk > 100 && player > 100 && stack == 0, "{met:?}");
}

fn lists_agree<L: List>(calls: u64) {
    for seed in 0..4000 {
        println!("seed {seed}");
        let mut random = Random::new(seed);
        let map = any_map(&mut random);
        let (mut one, mut two) = (L::new(map), L::new(map));
        let mut plain = PlainList::new(map);
        for _ in 0..calls {
            let (base, length) = place(&mut random, map, &plain);
            let call = Call::RecordWritten { base, length };
            let answer = one.step(call);
            assert_eq!(answer, plain.step(call), "{map:?} {call:?}");
            let marked = in_two_calls(base, length, |call| two.step(call));
            assert_eq!(answer, marked, "{map:?} {call:?}");
        }
        assert_eq!(one.listed(), two.listed());
        assert!(one.listed().iter().all(|b| b.written_count() == b.length));
    }
}

#[test]
fn both_lists_begin_a_block_alike() {
    lists_agree::<PlainList>(12);
    lists_agree::<PlainTree>(12);
}

/// The written bits of the block's segments, as the heap layout has them.
#[test]
fn the_last_segments_bits_stop_at_the_blocks_end() {
    let cases: [(u32, &[u8]); 12] = [
        (1, &[1]),
        (2, &[3]),
        (3, &[7]),
        (4, &[15]),
        (5, &[31]),
        (6, &[63]),
        (7, &[127]),
        (8, &[255]),
        (9, &[255, 1]),
        (15, &[255, 127]),
        (16, &[255, 255]),
        (17, &[255, 255, 1]),
    ];
    for (length, bits) in cases {
        let mut shadows = Shadows::cleared(EXAMPLE_MAP);
        let call = Call::RecordWritten { base: 4104, length };
        assert_eq!(on(EXAMPLE_MAP, &mut shadows, call).number, 0);
        let mut expected = [0; 64];
        expected[4] = length as u8;
        for (index, &bits) in bits.iter().enumerate() {
            expected[8 + 8 * index] = 8 * index as u8 + 1;
            expected[12 + 8 * index] = bits;
        }
        assert_eq!(shadows.heap, expected, "{length}");
    }
}

/// The same at the desk, where a segment has two bytes of them.
#[test]
fn the_last_segments_bits_stop_at_the_blocks_end_at_the_desk() {
    let cases: [(u32, &[[u8; 2]]); 12] = [
        (1, &[[1, 0]]),
        (7, &[[127, 0]]),
        (8, &[[255, 0]]),
        (9, &[[255, 1]]),
        (15, &[[255, 127]]),
        (16, &[[255, 255]]),
        (17, &[[255, 255], [1, 0]]),
        (24, &[[255, 255], [255, 0]]),
        (25, &[[255, 255], [255, 1]]),
        (33, &[[255, 255], [255, 255], [1, 0]]),
        (40, &[[255, 255], [255, 255], [255, 0]]),
        (48, &[[255, 255], [255, 255], [255, 255]]),
    ];
    for (length, bits) in cases {
        let mut shadows = Shadows::cleared(DESK_MAP);
        let call = Call::RecordWritten { base: 4112, length };
        assert_eq!(on(DESK_MAP, &mut shadows, call).number, 0);
        let mut expected = [0; 64];
        expected[8] = length as u8;
        for (index, bits) in bits.iter().enumerate() {
            expected[16 + 16 * index] = 16 * index as u8 + 1;
            expected[24 + 16 * index..][..2].copy_from_slice(bits);
        }
        assert_eq!(shadows.heap, expected, "{length}");
    }
}

/// No mark stays behind where a block has ended.
#[test]
fn record_begins_unwritten_where_a_written_block_was() {
    let player = [4104, 8192, 8195].map(|base| (EXAMPLE_MAP, base));
    for (map, base) in player.into_iter().chain([(DESK_MAP, 4112)]) {
        for length in [1, 7, 8, 9, 16, 23] {
            let mut shadows = Shadows::cleared(map);
            let mut step = |call| on(map, &mut shadows, call);
            step(Call::RecordWritten { base, length });
            assert_eq!(step(Call::Audit).fields[3], length);
            assert_eq!(step(ending(map, base)).number, 0);
            assert_eq!(step(Call::Audit).fields, [0; 4]);
            assert_eq!(step(Call::Record { base, length }).number, 0);
            let [.., live, written] = step(Call::Audit).fields;
            assert_eq!([live, written], [length, 0], "{base} {length}");
        }
    }
}
