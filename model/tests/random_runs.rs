//! Random runs: list and image against the bytes, call by call.

mod common;

use common::on;
use model::call::Call;
use model::form::{Form, DESK, FORMS, PLAYER};
use model::generate::{self, Scale};
use model::image::{image, Shadows};
use model::map::Map;
use model::plain::{List, PlainList};
use model::plain_btree::PlainTree;
use model::random::Random;

/// How often each call met each number, so that a run can show what it tried.
type Met = [[u32; 16]; 17];

/// By kind, from 1 on; clear and place have none, and come first and last.
fn index(call: Call) -> usize {
    match (call, call.record_fields()) {
        (Call::Place { .. }, _) => 16,
        (_, kind) => kind.map_or(0, |(kind, _)| usize::from(kind) - 1),
    }
}

/// A run on all three models; numbers, fields and every shadow byte must agree.
fn run(random: &mut Random, map: Map, calls: u32, met: &mut Met) {
    assert!(map.good(), "{map:?}");
    let mut list = PlainList::new(map);
    let mut tree = PlainTree::new(map);
    let mut shadows = Shadows::cleared(map);
    for _ in 0..calls {
        let call = generate::call(random, map, list.blocks());
        let before = call.alters_nothing().then(|| shadows.clone());
        let answer = on(map, &mut shadows, call);
        assert_eq!(list.step(call), answer, "{map:?} {call:?}");
        assert_eq!(tree.step(call), answer, "tree, {map:?} {call:?}");
        let image = image(map, list.blocks());
        assert!(image == shadows, "bytes differ, {map:?} {call:?}");
        assert!(before.is_none_or(|before| before == shadows), "{call:?}");
        met[index(call)][answer.number as usize] += 1;
    }
    assert_eq!(tree.listed(), list.listed());
}

fn crowded(form: Form) {
    let mut met = Met::default();
    for seed in 0..6000 {
        println!("seed {seed}");
        let mut random = Random::new(seed);
        let map = generate::map_of(form, &mut random, Scale::Crowded);
        run(&mut random, map, 200, &mut met);
    }
    // Every number that a list can give was met by every call that can give it.
    let given: [&[usize]; 17] = [
        &[0],
        &[0, 3, 4, 5, 6],
        &[0, 4, 7, 15],
        &[0, 3, 4, 7, 13],
        &[0, 4, 7],
        &[0, 3],
        &[0, 3],
        &[0, 7],
        &[0],
        &[0, 3, 4, 5, 6],
        // Kinds 11 to 13 are not of this form.
        &[],
        &[],
        &[],
        &[0, 3, 4, 6],
        &[0, 3],
        &[0, 4, 7],
        &[0, 3, 14],
    ];
    for (kind, numbers) in given.iter().enumerate() {
        for (number, &count) in met[kind].iter().enumerate() {
            let kept = if numbers.contains(&number) {
                count > 100
            } else {
                count == 0
            };
            assert!(kept, "{kind} {number}: {count}");
        }
    }
}

#[test]
fn crowded_areas_of_the_player() {
    crowded(PLAYER);
}

#[test]
fn crowded_areas_of_the_desk() {
    crowded(DESK);
}

/// What both forms have in common holds for any two sizes that a form may have, so
/// that no size of either can stand where the other is meant.
#[test]
fn crowded_areas_of_forms_that_there_are_not() {
    let mut met = Met::default();
    for (width, segment) in [(4, 16), (5, 16), (7, 16), (8, 24), (4, 32), (8, 64)] {
        for seed in 0..300 {
            println!("seed {seed}");
            let mut random = Random::new(seed);
            let form = Form { width, segment };
            let map = generate::map_of(form, &mut random, Scale::Crowded);
            run(&mut random, map, 200, &mut met);
        }
    }
}

#[test]
fn full_size() {
    let mut met = Met::default();
    for seed in 0..24 {
        println!("seed {seed}");
        let mut random = Random::new(seed);
        let form = random.pick(&FORMS);
        let map = generate::map_of(form, &mut random, Scale::Full);
        run(&mut random, map, 250, &mut met);
    }
}

fn maps_lie_everywhere(form: Form) {
    let mut random = Random::new(1);
    let g = form.segment;
    let maps: Vec<Map> = (0..400)
        .map(|_| generate::map_of(form, &mut random, Scale::Crowded))
        .collect();
    let any = |holds: &dyn Fn(&Map) -> bool| assert!(maps.iter().any(holds));
    any(&|map| map.heap_start == g);
    any(&|map| map.stack_start == 8);
    any(&|map| map.heap_start + map.heap_size == g.wrapping_neg());
    any(&|map| map.stack_start + map.stack_size == 4_294_967_288);
    any(&|map| map.heap_start + map.heap_size == map.stack_start);
    any(&|map| map.stack_start + map.stack_size == map.heap_start);
    any(&|map| map.heap_size == 2 * g);
    any(&|map| map.stack_size == 16);
    any(&|map| map.stack_start % 16 == 8);
    any(&|map| map.stack_size % 16 == 8);
}

#[test]
fn maps_lie_at_the_bottom_at_the_top_and_touch_in_both_orders() {
    for form in FORMS {
        maps_lie_everywhere(form);
    }
}

fn full_of_the_smallest_blocks(map: Map, audit: [u32; 4]) {
    let mut tree = PlainTree::new(map);
    let mut shadows = Shadows::cleared(map);
    let g = map.form.segment;
    let pairs = map.heap_size / (2 * g);
    let heap = (0..pairs).map(|i| map.heap_start + g + 2 * g * i);
    let stack = (0..65_536).map(|i| map.stack_start + i);
    for base in heap.chain(stack) {
        let length = 1;
        // Every other stack block begins written, half of these as literals.
        let call = match base % 4 {
            0 if base < map.heap_start => Call::RecordWritten { base, length },
            2 if base < map.heap_start => Call::RecordLiteral { base, length },
            _ => Call::Record { base, length },
        };
        assert_eq!(tree.step(call).number, 0);
        assert_eq!(on(map, &mut shadows, call).number, 0);
    }
    assert!(image(map, &tree.listed()) == shadows);
    let answer = on(map, &mut shadows, Call::Audit);
    assert_eq!(answer, tree.step(Call::Audit));
    assert_eq!(answer.fields, audit);
}

#[test]
fn a_full_area_of_the_smallest_blocks() {
    let map = Map::new(65_552, 131_072, 8, 65_536);
    full_of_the_smallest_blocks(map, [8192, 65_536, 73_728, 32_768]);
    full_of_the_smallest_blocks(map.of(DESK), [4096, 65_536, 69_632, 32_768]);
}
