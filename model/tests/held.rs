//! The tests of a linked library, tested: the byte-level model stands in for one
//! of the desk, and others that get something wrong are found out.

mod common;

use std::panic::catch_unwind;

use common::data;
use model::call::{Answer, Call};
use model::form::{DESK, PLAYER};
use model::held::{stand_in, Held, Library};
use model::image::Shadows;
use model::map::{Area, Map};

/// The byte-level model in the place of the library.
const RIGHT: Held = Held {
    form: DESK,
    library: stand_in,
};

mod right {
    use super::*;

    model::held!(RIGHT);
    model::held!(RIGHT; every_upper_byte_of_every_number,);

    #[test]
    fn stated_samples() {
        for name in ["desk.txt", "desk-damage.txt"] {
            samples(RIGHT, name);
        }
    }
}

fn samples(held: Held, name: &str) {
    let text = String::from_utf8(data(name)).expect("samples are text");
    assert!(held.stated_samples(&text) > 30);
}

/// What one of the tests does.
type Test = fn(Held);

/// A wrong library is found out by each of these tests.
fn found_out(library: Library, tests: &[Test]) {
    let held = Held {
        form: DESK,
        library,
    };
    for (index, &test) in tests.iter().enumerate() {
        let refused = catch_unwind(|| test(held)).is_err();
        assert!(refused, "test {index} takes it");
    }
}

/// A call that reads has numbers of four bytes: those above count for nothing.
fn four_of_eight(map: Map, lent: &mut Shadows, call: Call, at: usize) -> Answer {
    let looks_only_for_zeros = matches!(call, Call::Clear | Call::Place { .. });
    if looks_only_for_zeros || call == Call::Audit || call.recording().is_some() {
        return stand_in(map, lent, call);
    }
    let kept = lent.heap.clone();
    let upper = |position: &usize| (at + 4..at + 8).contains(&(position % 16));
    let places: Vec<usize> = (0..lent.heap.len()).filter(upper).collect();
    places.iter().for_each(|&place| lent.heap[place] = 0);
    let said = stand_in(map, lent, call);
    for place in places {
        lent.heap[place] |= kept[place];
    }
    said
}

#[test]
fn a_segments_number_of_four_bytes() {
    found_out(
        |map, lent, call| four_of_eight(map, lent, call, 0),
        &[
            |held| held.every_upper_byte_of_every_number(),
            |held| held.calls_on_damaged_and_random_bytes(),
            |held| held.every_change_of_one_byte(),
            |held| samples(held, "desk.txt"),
            |held| samples(held, "desk-damage.txt"),
        ],
    );
}

#[test]
fn a_length_of_four_bytes() {
    found_out(
        |map, lent, call| four_of_eight(map, lent, call, 8),
        &[
            |held| held.every_upper_byte_of_every_number(),
            |held| held.calls_on_damaged_and_random_bytes(),
            |held| held.every_change_of_one_byte(),
            |held| samples(held, "desk.txt"),
            |held| samples(held, "desk-damage.txt"),
        ],
    );
}

/// Marks go into byte 8 alone, those of bytes 8 to 15 of a segment too.
fn one_byte_of_marks(map: Map, lent: &mut Shadows, call: Call) -> Answer {
    let before = lent.heap.clone();
    let said = stand_in(map, lent, call);
    if let (Call::Written { .. }, 0) = (call, said.number) {
        for place in (9..lent.heap.len()).step_by(16) {
            lent.heap[place - 1] |= lent.heap[place] & !before[place];
            lent.heap[place] = before[place];
        }
    }
    said
}

/// The last mark of a range that passes byte 7 of a segment is left out.
fn a_mark_left_out(map: Map, lent: &mut Shadows, call: Call) -> Answer {
    let before = lent.heap.clone();
    let said = stand_in(map, lent, call);
    if let (Call::Written { address, n: 9 }, 0) = (call, said.number) {
        if map.area(address) == Some(Area::Stack) {
            return said;
        }
        let position = map.position(Area::Heap, address + 8);
        let place = position - position % 16 + 8 + position % 16 / 8;
        lent.heap[place] = before[place];
    }
    said
}

#[test]
fn marks_in_the_wrong_byte() {
    found_out(
        one_byte_of_marks,
        &[
            |held| held.every_range_of_heap_blocks(),
            |held| held.every_range_at_the_end_of_an_area(),
            |held| held.runs_in_crowded_areas(),
            |held| held.every_call_at_every_address(),
            |held| samples(held, "desk.txt"),
        ],
    );
    found_out(
        a_mark_left_out,
        &[
            |held| held.every_range_of_heap_blocks(),
            |held| held.runs_in_crowded_areas(),
        ],
    );
}

/// A base that is a multiple of 8 alone, or a map with one, is taken as it is at
/// the player; 5 is told of all others.
fn multiples_of_8(map: Map, lent: &mut Shadows, call: Call) -> Answer {
    let said = stand_in(map, lent, call);
    match (said.number, call.recording()) {
        (5, Some((base, ..))) if base % 8 == 0 => stand_in(map.of(PLAYER), lent, call),
        _ => said,
    }
}

fn maps_of_the_player(map: Map, lent: &mut Shadows, call: Call) -> Answer {
    let said = stand_in(map, lent, call);
    match said.number {
        1 => stand_in(map.of(PLAYER), lent, call),
        _ => said,
    }
}

#[test]
fn multiples_of_8_taken() {
    found_out(
        multiples_of_8,
        &[
            |held| held.every_record_at_every_address(),
            |held| held.runs_in_crowded_areas(),
            |held| held.calls_on_damaged_and_random_bytes(),
            |held| samples(held, "desk.txt"),
        ],
    );
    found_out(
        maps_of_the_player,
        &[|held| held.bad_maps_and_wrong_lengths()],
    );
}

/// Gaps are looked for in steps of the player's segments.
fn places_of_the_player(map: Map, lent: &mut Shadows, call: Call) -> Answer {
    match call {
        Call::Place { .. } if map.good() => stand_in(map.of(PLAYER), lent, call),
        _ => stand_in(map, lent, call),
    }
}

#[test]
fn places_between_segments() {
    found_out(
        places_of_the_player,
        &[
            |held| held.every_length_and_budget(),
            |held| held.places_on_any_bytes(),
            |held| held.places_on_the_largest_heaps(),
            |held| held.runs_with_placed_blocks(),
            |held| samples(held, "desk.txt"),
        ],
    );
}

/// Audit looks past bytes 10 to 15 of a segment; header lengths stay as they are.
fn audit_of_ten_bytes(map: Map, lent: &mut Shadows, call: Call) -> Answer {
    let mut seen = lent.clone();
    let segments = seen.heap.chunks_exact_mut(16);
    for segment in segments.filter(|segment| segment[0] != 0) {
        segment[10..].fill(0);
    }
    match call {
        Call::Audit => stand_in(map, &mut seen, call),
        _ => stand_in(map, lent, call),
    }
}

/// Audit leaves byte 9 out of its count.
fn audit_of_one_byte(map: Map, lent: &mut Shadows, call: Call) -> Answer {
    let mut said = stand_in(map, lent, call);
    if let (Call::Audit, 0) = (call, said.number) {
        let second = lent.heap.chunks(16).filter(|segment| segment[0] != 0);
        let ones: u32 = second.map(|segment| segment[9].count_ones()).sum();
        said.fields[3] -= ones;
    }
    said
}

#[test]
fn audit_of_too_few_bytes() {
    found_out(
        audit_of_ten_bytes,
        &[
            |held| held.every_change_of_one_byte(),
            |held| held.calls_on_damaged_and_random_bytes(),
            |held| samples(held, "desk.txt"),
        ],
    );
    found_out(
        audit_of_one_byte,
        &[
            |held| held.runs_in_crowded_areas(),
            |held| held.every_change_of_one_byte(),
            |held| samples(held, "desk.txt"),
        ],
    );
}

/// A refused mark has set the bit of its first byte already.
fn marks_before_refusing(map: Map, lent: &mut Shadows, call: Call) -> Answer {
    let said = stand_in(map, lent, call);
    if let (Call::Written { address, .. }, 7) = (call, said.number) {
        stand_in(map, lent, Call::Written { address, n: 1 });
    }
    said
}

/// Free leaves the header as it is.
fn headers_left(map: Map, lent: &mut Shadows, call: Call) -> Answer {
    let before = lent.heap.clone();
    let said = stand_in(map, lent, call);
    if let (Call::Free { base: 1.. }, 0) = (call, said.number) {
        let first = (0..lent.heap.len()).find(|&place| lent.heap[place] != before[place]);
        let header = first.map_or(0..0, |first| first - first % 16..first - first % 16 + 16);
        lent.heap[header.clone()].copy_from_slice(&before[header]);
    }
    said
}

#[test]
fn bytes_that_change_or_stay() {
    found_out(
        marks_before_refusing,
        &[
            |held| held.every_range_of_heap_blocks(),
            |held| held.every_call_at_every_address(),
            |held| held.runs_in_crowded_areas(),
        ],
    );
    found_out(
        headers_left,
        &[
            |held| held.endings_at_every_address(),
            |held| held.runs_in_crowded_areas(),
            |held| samples(held, "desk.txt"),
        ],
    );
}
