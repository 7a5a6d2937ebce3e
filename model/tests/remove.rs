//! Only heap blocks may be freed (S-7): free refuses every stack address, remove
//! ends the blocks there and refuses every other address, on any bytes.

mod common;

use std::collections::BTreeMap;

use common::lent::{any_lent, any_map, any_state, outside};
use common::{addresses, on, step, view};
use model::call::{refusal, Answer, Call, NO_FIELDS};
use model::generate::{self, shadows};
use model::image::{image, Shadows};
use model::map::{Area, Map};
use model::notation::EXAMPLE_MAP;
use model::plain::{List, PlainList};
use model::plain_btree::PlainTree;
use model::random::Random;
use model::reading::Reading;

fn refused(number: u32) -> Answer {
    Err(number).into()
}

fn accepted() -> Answer {
    Ok(NO_FIELDS).into()
}

/// What free did at an address of either area before S-7, by document 01 alone.
fn free_before(map: Map, bytes: &Shadows, base: u32) -> (Answer, Shadows) {
    let mut after = bytes.clone();
    let length = match view(map, bytes).read(base) {
        Reading::Damaged => return (refused(refusal::DAMAGED), after),
        Reading::Block(found) if found.base == base => found.length as usize,
        _ => return (refused(refusal::NO_BLOCK), after),
    };
    let area = map.area(base).expect("a block lies in an area");
    let first = map.position(area, base);
    match area {
        Area::Heap => {
            let size = map.form.bytes();
            after.heap[first - size..first + length.next_multiple_of(size)].fill(0);
        }
        Area::Stack => {
            after.primary[first..first + length].fill(0);
            after.secondary[first..first + length].fill(0);
        }
    }
    (accepted(), after)
}

/// How often each number was met, by what was called where.
type Met = BTreeMap<(&'static str, u32), u32>;

/// Free in the heap and remove in the stack are what free was in both; each alters
/// the bytes of its own area alone, and is refused at once in the other.
#[test]
fn every_address_of_the_areas_on_any_bytes() {
    let mut met = Met::new();
    for seed in 0..3000 {
        println!("seed {seed}");
        let (map, bytes) = any_state(&mut Random::new(seed));
        for base in addresses(map) {
            let (was, after) = free_before(map, &bytes, base);
            let (freed, after_free) = step(map, &bytes, Call::Free { base });
            let (removed, after_remove) = step(map, &bytes, Call::Remove { base });
            let there = match map.area(base) {
                Some(Area::Heap) => {
                    assert_eq!(freed, was, "{map:?} {base}");
                    assert!(after_free == after, "{map:?} {base}");
                    assert_eq!(removed, refused(4), "{map:?} {base}");
                    assert!(after_remove == bytes, "{map:?} {base}");
                    "heap"
                }
                _ => {
                    assert_eq!(freed, refused(15), "{map:?} {base}");
                    assert!(after_free == bytes, "{map:?} {base}");
                    assert_eq!(removed, was, "{map:?} {base}");
                    assert!(after_remove == after, "{map:?} {base}");
                    "stack"
                }
            };
            assert!(after_free.primary == bytes.primary);
            assert!(after_free.secondary == bytes.secondary);
            assert!(after_remove.heap == bytes.heap);
            *met.entry((there, was.number)).or_default() += 1;
        }
    }
    // 0, 7 and 8 in each area.
    assert_eq!(met.len(), 6);
    assert!(met.values().all(|&count| count > 1000), "{met:?}");
}

#[test]
fn every_address_outside_the_areas_on_any_bytes() {
    let mut met = [0; 2];
    for seed in 0..5000 {
        println!("seed {seed}");
        let mut random = Random::new(seed);
        let (map, bytes) = any_state(&mut random);
        for base in outside(&mut random, map) {
            let freed = step(map, &bytes, Call::Free { base });
            let removed = step(map, &bytes, Call::Remove { base });
            let null = base == 0;
            let expected = if null { accepted() } else { refused(4) };
            assert_eq!(freed, (expected, bytes.clone()), "{map:?} {base}");
            assert_eq!(removed, (refused(4), bytes.clone()), "{map:?} {base}");
            met[usize::from(null)] += 1;
        }
    }
    assert!(met[0] > 50_000 && met[1] == 5000, "{met:?}");
}

/// The list, the tree and the image after some calls.
fn after_calls(random: &mut Random, map: Map) -> (PlainList, PlainTree, Shadows) {
    let (mut list, mut tree) = (PlainList::new(map), PlainTree::new(map));
    for _ in 0..random.below(60) {
        let call = generate::call(random, map, list.blocks());
        list.step(call);
        tree.step(call);
    }
    let bytes = image(map, list.blocks());
    (list, tree, bytes)
}

/// On images free is accepted exactly at 0 and at the bases of heap blocks, remove
/// at those of stack blocks, and that block alone goes, literal or not.
#[test]
fn accepted_on_images_at_bases_alone() {
    let mut met = [0; 3];
    for seed in 0..2000 {
        println!("seed {seed}");
        let mut random = Random::new(seed);
        let map = any_map(&mut random);
        let state = after_calls(&mut random, map);
        let all: Vec<u32> = outside(&mut random, map).chain(addresses(map)).collect();
        for base in all {
            let block = state.0.blocks().iter().find(|block| block.base == base);
            let heap = block.is_some() && map.area(base) == Some(Area::Heap);
            let stack = block.is_some() && !heap;
            ends(map, &state, Call::Free { base }, heap, base == 0);
            ends(map, &state, Call::Remove { base }, stack, false);
            met[0] += u32::from(heap);
            met[1] += u32::from(stack);
            met[2] += u32::from(block.is_some_and(|block| block.literal));
        }
    }
    assert!(met.iter().all(|&count| count > 300), "{met:?}");
}

/// A call that ends the block of its base, or does nothing, or is refused.
fn ends(
    map: Map,
    (list, tree, bytes): &(PlainList, PlainTree, Shadows),
    call: Call,
    goes: bool,
    nothing: bool,
) {
    let (Call::Free { base } | Call::Remove { base }) = call else {
        panic!("{call:?} ends no block");
    };
    let (mut one, mut other) = (list.clone(), tree.clone());
    let (said, after) = step(map, bytes, call);
    assert_eq!(said.number == 0, goes || nothing, "{map:?} {call:?}");
    assert_eq!(one.step(call), said, "{map:?} {call:?}");
    assert_eq!(other.step(call), said, "{map:?} {call:?}");
    let mut blocks = list.listed();
    blocks.retain(|block| !(goes && block.base == base));
    assert!(one.listed() == blocks && other.listed() == blocks);
    assert!(image(map, &blocks) == after, "{map:?} {call:?}");
}

#[test]
fn bad_maps_and_wrong_lengths_come_first() {
    let mut met = [0; 3];
    for seed in 0..20_000 {
        println!("seed {seed}");
        let (map, bytes, number) = any_lent(&mut Random::new(seed));
        let base = map.stack_start;
        for (call, own) in [
            (Call::Free { base }, 15),
            (Call::Remove { base: 0 }, 4),
            (Call::Remove { base }, 0),
        ] {
            let (said, after) = step(map, &bytes, call);
            let expected = match number {
                0 if own == 0 => continue,
                0 => own,
                first => first,
            };
            assert_eq!(said, refused(expected), "{map:?} {call:?}");
            assert!(after == bytes, "{map:?} {call:?}");
        }
        met[number as usize] += 1;
    }
    assert!(met.iter().all(|&count| count > 1000), "{met:?}");
}

/// Every block and literal of the stack area alone, and whatever follows it there.
#[test]
fn every_block_alone_is_removed_and_never_freed() {
    for base in 8192..8224 {
        for length in 1..=8224 - base {
            for begun in [
                Call::Record { base, length },
                Call::RecordWritten { base, length },
                Call::RecordLiteral { base, length },
            ] {
                let mut bytes = Shadows::cleared(EXAMPLE_MAP);
                assert_eq!(on(EXAMPLE_MAP, &mut bytes, begun), accepted());
                for address in 8192..8224 {
                    let freed = step(EXAMPLE_MAP, &bytes, Call::Free { base: address });
                    assert_eq!(freed, (refused(15), bytes.clone()), "{begun:?} {address}");
                    let (removed, after) =
                        step(EXAMPLE_MAP, &bytes, Call::Remove { base: address });
                    let (number, left) = match address == base {
                        true => (0, Shadows::cleared(EXAMPLE_MAP)),
                        false => (7, bytes.clone()),
                    };
                    assert_eq!(
                        (removed.number, after),
                        (number, left),
                        "{begun:?} {address}"
                    );
                }
            }
        }
    }
}

/// How often the generators draw each of them with each number, on any bytes and
/// in runs, so that a wrong answer would be met.
#[test]
fn they_are_drawn_often() {
    let mut met = Met::new();
    let mut count = |call, number| match call {
        Call::Free { .. } => *met.entry(("free", number)).or_default() += 1,
        Call::Remove { .. } => *met.entry(("remove", number)).or_default() += 1,
        _ => {}
    };
    for seed in 0..80_000 {
        let mut random = Random::new(seed);
        let map = any_map(&mut random);
        let (mut bytes, call) = shadows::any(&mut random, map);
        count(call, on(map, &mut bytes, call).number);
    }
    // Free: 0, 4, 7, 8 and 15; remove: 0, 4, 7 and 8.
    assert_eq!(met.len(), 9, "{met:?}");
    assert!(met.values().all(|&count| count > 100), "{met:?}");
    let (mut removed, mut freed, mut calls) = (0, 0, 0);
    for seed in 0..200 {
        let mut random = Random::new(seed);
        let map = any_map(&mut random);
        let mut list = PlainList::new(map);
        for _ in 0..200 {
            let call = generate::call(&mut random, map, list.blocks());
            let ended = list.step(call) == accepted();
            removed += u32::from(ended && matches!(call, Call::Remove { .. }));
            freed += u32::from(ended && matches!(call, Call::Free { base } if base > 0));
            calls += 1;
        }
    }
    assert!(
        removed > calls / 40 && freed > calls / 100,
        "{removed} {freed} {calls}"
    );
}
