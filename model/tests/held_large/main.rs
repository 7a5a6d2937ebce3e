//! The tests of a linked library in large areas, tested: the byte-level model stands
//! in for one, and others that get something wrong in large areas alone are found
//! out, at each size by the tests of that size.

mod answers;
mod bytes;
mod cells;
mod origins;

use std::panic::{catch_unwind, RefUnwindSafe};

use answers::*;
use bytes::*;
use model::form::{Form, DESK, FORMS};
use model::generate::Scale;
use model::held::large::Large;
use model::held::{stand_in, Held, Library};
use model::image::Shadows;

/// The byte-level model in the place of the library, where that takes little time.
mod right {
    use super::*;

    fn right(form: Form) -> Large<Shadows> {
        let library = stand_in;
        Held { form, library }.at(Scale::Middle)
    }

    #[test]
    fn at_middle_size() {
        for test in ALL {
            test(&right(DESK));
        }
    }
}

/// All tests of large areas.
const ALL: [Test; 12] = [
    |held| held.changes_of_a_byte(),
    |held| held.every_byte_once(),
    |held| held.every_value_of_a_byte(),
    |held| held.other_numbers(),
    |held| held.damaged_and_random_bytes(),
    |held| held.calls_at_addresses(),
    |held| held.totals(),
    |held| held.endings(),
    |held| held.recordings(),
    |held| held.ranges(),
    |held| held.wrong_maps_and_lengths(),
    |held| held.places(),
];

/// A wrong library is found out by each of these tests, and not for the lack of
/// something to be found.
fn refused<T: RefUnwindSafe>(held: &T, tests: &[fn(&T)]) {
    for (index, test) in tests.iter().enumerate() {
        let Err(told) = catch_unwind(|| test(held)) else {
            panic!("test {index} takes it");
        };
        let told = told.downcast_ref::<String>().expect("a message");
        assert!(told.contains("Map {"), "test {index}: {told}");
    }
}

/// What one of the tests does.
type Test = fn(&Large<Shadows>);

/// A library that is wrong at middle size, and one that is at full size, in these
/// forms.
fn found_out(forms: &[Form], [middle, full]: [Library; 2], tests: &[Test]) {
    for &form in forms {
        for (library, scale) in [(middle, Scale::Middle), (full, Scale::Full)] {
            refused(&Held { form, library }.at(scale), tests);
        }
    }
}

/// Both of the same mistake.
macro_rules! at_both {
    ($wrong:ident) => {
        [$wrong::<false>, $wrong::<true>]
    };
}

#[test]
fn damage_read_as_no_block() {
    let tests: [Test; 6] = [
        |held| held.changes_of_a_byte(),
        |held| held.every_value_of_a_byte(),
        |held| held.other_numbers(),
        |held| held.damaged_and_random_bytes(),
        |held| held.calls_at_addresses(),
        |held| held.endings(),
    ];
    found_out(&FORMS, at_both!(no_heap_damage), &tests);
    found_out(&FORMS, at_both!(no_stack_damage), &tests);
    let every_byte: [Test; 1] = [|held| held.every_byte_once()];
    found_out(&FORMS, at_both!(no_heap_damage), &every_byte);
}

#[test]
fn damage_that_free_and_remove_read_as_no_block() {
    found_out(
        &FORMS,
        at_both!(no_damage_at_ends),
        &[|held| held.endings()],
    );
}

#[test]
fn damage_in_the_upper_half_unseen_by_audit() {
    found_out(
        &FORMS,
        at_both!(half_an_audit),
        &[|held| held.changes_of_a_byte()],
    );
}

#[test]
fn segments_passed_over_by_audit() {
    found_out(
        &FORMS,
        at_both!(segments_passed_over),
        &[|held| held.every_byte_once()],
    );
}

#[test]
fn positions_and_lengths_of_too_few_bits() {
    let tests: [Test; 3] = [
        |held| held.calls_at_addresses(),
        |held| held.changes_of_a_byte(),
        |held| held.other_numbers(),
    ];
    found_out(&FORMS, at_both!(wrapped_positions), &tests);
    found_out(&FORMS, at_both!(short_lengths), &tests);
}

#[test]
fn bytes_of_numbers_unseen() {
    let tests: [Test; 2] = [|held| held.changes_of_a_byte(), |held| held.other_numbers()];
    found_out(&FORMS, at_both!(upper_byte_unseen), &tests);
    found_out(&[DESK], at_both!(four_of_eight), &tests);
}

#[test]
fn codes_that_are_none_read_as_no_block() {
    found_out(
        &FORMS,
        at_both!(codes_that_are_none),
        &[|held| held.every_value_of_a_byte()],
    );
}

#[test]
fn a_climb_that_ends_too_soon() {
    found_out(
        &FORMS,
        at_both!(climbs_too_short),
        &[|held| held.calls_at_addresses()],
    );
}

#[test]
fn two_blocks_taken_for_one() {
    found_out(
        &FORMS,
        at_both!(bases_of_few_bits),
        &[|held| held.calls_at_addresses()],
    );
}

#[test]
fn counts_of_too_few_bits() {
    found_out(
        &FORMS,
        at_both!(counts_of_few_bits),
        &[|held| held.totals()],
    );
}

#[test]
fn loops_that_end_too_soon() {
    let at_ends: [Test; 2] = [|held| held.endings(), |held| held.calls_at_addresses()];
    found_out(&FORMS, at_both!(ends_too_soon), &at_ends);
    let in_ranges: [Test; 1] = [|held| held.ranges()];
    found_out(&FORMS, at_both!(marks_too_few), &in_ranges);
    found_out(&FORMS, at_both!(looks_at_too_few), &in_ranges);
    let when_recorded: [Test; 1] = [|held| held.recordings()];
    found_out(&FORMS, at_both!(zeros_of_too_few), &when_recorded);
    found_out(&FORMS, at_both!(a_number_left_out), &when_recorded);
}

#[test]
fn maps_and_lengths_that_are_taken() {
    let tests: [Test; 1] = [|held| held.wrong_maps_and_lengths()];
    found_out(&FORMS, at_both!(lengths_of_few_bits), &tests);
    found_out(&FORMS, at_both!(areas_that_meet), &tests);
}

#[test]
fn gaps_of_too_few_bits() {
    let tests: [Test; 1] = [|held| held.places()];
    found_out(&FORMS, at_both!(gaps_of_few_bits), &tests);
    found_out(&FORMS, at_both!(long_gaps_unseen), &tests);
}

#[test]
fn numbers_left_out_in_runs() {
    for form in FORMS {
        let [middle, full] = at_both!(a_number_left_out);
        let library = middle;
        refused(
            &Held { form, library },
            &[|held| held.runs_at_middle_size()],
        );
        let library = full;
        refused(&Held { form, library }, &[|held| held.runs_at_full_size()]);
    }
}
