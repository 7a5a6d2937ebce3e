//! A place for the next block (S-6) on random lists and on any bytes.

mod common;

use common::gaps::{defined, gaps, place};
use common::lent::any_map;
use common::on;
use model::call::{refusal, Call};
use model::form::{FORMS, PLAYER};
use model::generate::places::{gapped, place_on};
use model::generate::{self, shadows, Scale};
use model::image::{image, Shadows};
use model::map::Map;
use model::origins::bytes as origins_bytes;
use model::origins::call::OriginsCall;
use model::origins::cells::State;
use model::origins::generate::{states, Calls};
use model::origins::list::OriginsList;
use model::plain::{List, PlainList};
use model::plain_btree::PlainTree;
use model::random::Random;

/// A heap of either form at either end of the address space or between, and bytes
/// of any kind.
fn any(random: &mut Random) -> (Map, Shadows) {
    let form = random.pick(&FORMS);
    let segment = form.segment;
    let size = segment * random.between(2, 40);
    let start = random.pick(&[segment, 4096, (segment + size).wrapping_neg()]);
    let map = Map::new(start, size, 65_536, 16).of(form);
    let changes = random.below(4);
    let bytes = match random.below(4) {
        0 => shadows::noise(random, map),
        1 => shadows::damaged(random, map, changes),
        _ => gapped(random, map),
    };
    (map, bytes)
}

/// Length and budget of a question for these bytes.
fn asked(random: &mut Random, map: Map, bytes: &Shadows) -> (u32, u32) {
    match place_on(random, map.form, &bytes.heap) {
        Call::Place { length, budget } => (length, budget),
        other => panic!("no place: {other:?}"),
    }
}

/// How often each of these was met, so that nothing goes untried.
#[derive(Debug, Default)]
struct Met {
    numbers: [u32; 15],
    not_the_first: u32,
    lowest_of_equals: u32,
    stopped_before_a_better: u32,
    larger_than_needed: u32,
    small_gaps_counted: u32,
}

impl Met {
    fn all_above(&self, least: u32) {
        let numbers = [0, 3, 14].map(|number| self.numbers[number]);
        let kinds = [
            self.not_the_first,
            self.lowest_of_equals,
            self.stopped_before_a_better,
            self.larger_than_needed,
            self.small_gaps_counted,
        ];
        let mut all = numbers.iter().chain(&kinds);
        assert!(all.all(|&met| met > least), "{self:?}");
        // No reading decides, so that no damage shows.
        assert_eq!(self.numbers.iter().sum::<u32>(), numbers.iter().sum());
    }
}

#[test]
fn the_answer_is_the_definitions() {
    let mut met = Met::default();
    for seed in 0..40_000 {
        println!("seed {seed}");
        let mut random = Random::new(seed);
        let (map, bytes) = any(&mut random);
        for _ in 0..3 {
            let (length, budget) = asked(&mut random, map, &bytes);
            let said = place(map, &bytes, length, budget);
            let expected = defined(map, &bytes.heap, length, budget);
            assert_eq!(said, expected, "{map:?} {length} {budget} {bytes:?}");
            met.numbers[said.number as usize] += 1;
            if said.number == 0 {
                tried(map, &bytes, length, said.fields, &mut met);
            }
        }
    }
    met.all_above(1000);
}

/// What an accepted place tried.
fn tried(map: Map, bytes: &Shadows, length: u32, fields: [u32; 4], met: &mut Met) {
    let [base, looked_at, surplus, _] = fields;
    let all = gaps(map.form, &bytes.heap);
    let first = ((base - map.heap_start) / map.form.segment - 1) as usize;
    let at = all.iter().position(|gap| gap.0 == first).expect("a gap");
    let needed = length.div_ceil(map.form.segment) as usize + 1;
    let size = all[at].1;
    let (seen, unseen) = all.split_at(looked_at as usize);
    met.not_the_first += u32::from(seen[..at].iter().any(|gap| gap.1 > size));
    met.lowest_of_equals += u32::from(seen[at + 1..].iter().any(|gap| gap.1 == size));
    let better = unseen.iter().any(|gap| (needed..size).contains(&gap.1));
    met.stopped_before_a_better += u32::from(better);
    met.larger_than_needed += u32::from(surplus > 0);
    met.small_gaps_counted += u32::from(seen.iter().any(|gap| gap.1 == 1));
}

/// A larger budget is accepted where a smaller one is, with no larger surplus; it
/// counts the gaps that it looks at, and none once all have been looked at.
#[test]
fn larger_budgets() {
    let mut gained = 0;
    for seed in 0..8000 {
        println!("seed {seed}");
        let mut random = Random::new(seed);
        let (map, bytes) = any(&mut random);
        let (length, _) = asked(&mut random, map, &bytes);
        let all = gaps(map.form, &bytes.heap).len() as u32;
        let budgets = (0..=all + 2).chain([1 << 16, 1 << 31, u32::MAX]);
        let answers = budgets.map(|budget| (budget, place(map, &bytes, length, budget)));
        let mut surplus = None;
        for (budget, said) in answers {
            match surplus {
                Some(least) => {
                    assert_eq!(said.number, 0, "{map:?} {length} {budget}");
                    assert!(said.fields[2] <= least, "{map:?} {length} {budget}");
                    gained += u32::from(said.fields[2] < least);
                }
                None => assert!([0, 3, 14].contains(&said.number)),
            }
            if said.number == 0 {
                assert_eq!(said.fields[1], all.min(budget), "{map:?} {length}");
                surplus = Some(said.fields[2]);
            }
        }
    }
    assert!(gained > 1000, "{gained}");
}

/// The place takes the block, and one that has the surplus too, but none longer.
/// Where none of all gaps fits, no base in the heap takes the block.
#[test]
fn the_place_takes_the_block() {
    let mut met = [0; 2];
    for seed in 0..8000 {
        println!("seed {seed}");
        let mut random = Random::new(seed);
        let (map, bytes) = any(&mut random);
        let (length, budget) = asked(&mut random, map, &bytes);
        let said = place(map, &bytes, length, budget);
        let takes = |call| on(map, &mut bytes.clone(), call).number;
        if said.number == 0 {
            let [base, _, surplus, _] = said.fields;
            let most = length.next_multiple_of(map.form.segment) + surplus;
            for length in [length, most] {
                assert_eq!(takes(Call::Record { base, length }), 0, "{map:?}");
                assert_eq!(takes(Call::RecordWritten { base, length }), 0, "{map:?}");
                // The form with origins is the player's alone.
                if map.form != PLAYER {
                    continue;
                }
                let mut state = State::cleared(map);
                state.shadows = bytes.clone();
                let call = OriginsCall::Plain(Call::RecordWritten { base, length });
                assert_eq!(origins_bytes::call(map, &mut state, call).number, 0);
            }
            let length = most + 1;
            assert_ne!(takes(Call::Record { base, length }), 0, "{map:?}");
            met[0] += 1;
        } else if length > 0 && place(map, &bytes, length, u32::MAX).number == refusal::NO_GAP {
            let bases = map.heap_start..map.heap_start + map.heap_size;
            for base in bases.step_by(map.form.bytes()) {
                assert_ne!(takes(Call::Record { base, length }), 0, "{map:?} {base}");
            }
            met[1] += 1;
        }
    }
    assert!(met.iter().all(|&count| count > 500), "{met:?}");
}

/// Which heap segments are zero decides alone.
#[test]
fn no_other_byte_decides() {
    for seed in 0..8000 {
        println!("seed {seed}");
        let mut random = Random::new(seed);
        let (map, bytes) = any(&mut random);
        let mut other = shadows::noise(&mut random, map);
        let size = map.form.bytes();
        let segments = bytes.heap.chunks(size).zip(other.heap.chunks_mut(size));
        for (segment, other) in segments {
            other.fill(0);
            if segment.iter().any(|&byte| byte != 0) {
                other[random.below(size as u64) as usize] = 1 << random.below(8);
            }
        }
        let (length, budget) = asked(&mut random, map, &bytes);
        let said = place(map, &bytes, length, budget);
        assert_eq!(place(map, &other, length, budget), said, "{map:?}");
    }
}

/// Both lists answer what the definition gives on their own image.
#[test]
fn lists_on_their_own_image() {
    let mut accepted = 0;
    for seed in 0..4000 {
        println!("seed {seed}");
        let mut random = Random::new(seed);
        let map = any_map(&mut random);
        let (mut list, mut tree) = (PlainList::new(map), PlainTree::new(map));
        for _ in 0..60 {
            let call = generate::call(&mut random, map, list.blocks());
            list.step(call);
            tree.step(call);
        }
        let bytes = image(map, list.blocks());
        for _ in 0..8 {
            let (length, budget) = asked(&mut random, map, &bytes);
            let expected = defined(map, &bytes.heap, length, budget);
            let call = Call::Place { length, budget };
            assert_eq!(list.step(call), expected, "{map:?} {call:?}");
            assert_eq!(tree.step(call), expected, "{map:?} {call:?}");
            accepted += u32::from(expected.number == 0);
        }
        assert!(image(map, list.blocks()) == bytes);
        assert_eq!(tree.listed(), list.listed());
    }
    assert!(accepted > 5000, "{accepted}");
}

/// Blocks recorded where they are placed fill heaps, and what is freed between is found again.
#[test]
fn placed_blocks_fill_the_heap() {
    let (mut full, mut again) = (0, 0);
    for seed in 0..300 {
        println!("seed {seed}");
        let mut random = Random::new(seed);
        let (map, _) = any(&mut random);
        let mut list = PlainList::new(map);
        let mut shadows = Shadows::cleared(map);
        for _ in 0..60 {
            let longest = 4 * map.form.segment;
            let (length, budget) = (random.between(1, longest), random.between(1, 6));
            let call = Call::Place { length, budget };
            let said = on(map, &mut shadows, call);
            assert_eq!(list.step(call), said, "{map:?} {call:?}");
            let budget = u32::MAX;
            let of_all = on(map, &mut shadows, Call::Place { length, budget });
            full += u32::from(of_all.number == 14);
            let bases: Vec<u32> = list.blocks().iter().map(|block| block.base).collect();
            let change = match said.number {
                0 => {
                    let base = said.fields[0];
                    Call::Record { base, length }
                }
                _ if bases.is_empty() => continue,
                _ => {
                    let base = random.pick(&bases);
                    Call::Free { base }
                }
            };
            let changed = on(map, &mut shadows, change);
            assert_eq!(changed.number, 0, "{map:?} {change:?}");
            assert_eq!(list.step(change), changed, "{map:?} {change:?}");
            assert!(image(map, list.blocks()) == shadows);
            again += u32::from(said.number == 0 && full > 0);
        }
    }
    assert!(full > 1000 && again > 1000, "{full} {again}");
}

/// The form with origins does not offer place, so that none is drawn for it.
#[test]
fn no_place_in_the_form_with_origins() {
    let is_place = |call| matches!(call, OriginsCall::Plain(Call::Place { .. }));
    for seed in 0..4000 {
        println!("seed {seed}");
        let mut random = Random::new(seed);
        let map = generate::map(&mut random, Scale::Crowded);
        let (_, call) = states::any(&mut random, map);
        assert!(!is_place(call), "{map:?} {call:?}");
        let (mut list, mut made) = (OriginsList::new(map, 1), Calls::default());
        for _ in 0..40 {
            let call = made.next(&mut random, map, list.blocks());
            assert!(!is_place(call), "{map:?} {call:?}");
            list.step(call);
        }
    }
}
