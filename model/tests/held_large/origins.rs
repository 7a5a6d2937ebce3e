//! The tests of the form with origins: wrong libraries are found out at each size by
//! the tests of that size.

use crate::answers::*;
use crate::bytes::*;
use crate::cells::*;
use crate::refused;
use model::generate::Scale;
use model::held::large::{AnyLibrary, Large};
use model::held::origins::HeldOrigins;
use model::origins::cells::State;

/// What one of the tests does.
type Test = fn(&Large<State>);

/// A library that is wrong at middle size, and one that is at full size.
fn found_out([middle, full]: [AnyLibrary<State>; 2], tests: &[Test]) {
    for (library, scale) in [(middle, Scale::Middle), (full, Scale::Full)] {
        refused(&HeldOrigins { library }.at(scale), tests);
    }
}

/// Both of the same mistake, made as a library without origins makes it.
macro_rules! as_plain {
    ($wrong:ident) => {
        [
            |map, state, call| on_state($wrong::<false>, map, state, call),
            |map, state, call| on_state($wrong::<true>, map, state, call),
        ]
    };
}

/// Both of the same mistake of this form.
macro_rules! at_both {
    ($wrong:ident) => {
        [$wrong::<false>, $wrong::<true>]
    };
}

#[test]
fn damage_read_as_no_block() {
    let tests: [Test; 6] = [
        |held| held.changes_of_a_byte(),
        |held| held.every_value_of_a_byte(),
        |held| held.other_numbers(),
        |held| held.damaged_and_random_bytes(),
        |held| held.calls_at_addresses(),
        |held| held.endings(),
    ];
    found_out(as_plain!(no_stack_damage), &tests);
    let of_the_heap: [Test; 2] = [
        |held| held.changes_of_a_byte(),
        |held| held.every_byte_once(),
    ];
    found_out(as_plain!(no_heap_damage), &of_the_heap);
}

#[test]
fn damage_read_as_no_block_for_pointers() {
    found_out(
        at_both!(no_damage_for_pointers),
        &[
            |held| held.changes_of_a_byte(),
            |held| held.damaged_and_random_bytes(),
            |held| held.calls_at_addresses(),
        ],
    );
}

#[test]
fn mistakes_of_the_plain_form() {
    found_out(
        as_plain!(wrapped_positions),
        &[|held| held.calls_at_addresses()],
    );
    found_out(as_plain!(upper_byte_unseen), &[|held| held.other_numbers()]);
    found_out(as_plain!(counts_of_few_bits), &[|held| held.totals()]);
    found_out(as_plain!(ends_too_soon), &[|held| held.endings()]);
    found_out(as_plain!(zeros_of_too_few), &[|held| held.recordings()]);
    found_out(as_plain!(marks_too_few), &[|held| held.ranges()]);
    found_out(as_plain!(looks_at_too_few), &[|held| held.ranges()]);
    found_out(
        as_plain!(lengths_of_few_bits),
        &[|held| held.wrong_maps_and_lengths()],
    );
}

#[test]
fn cells_of_too_few_bits() {
    found_out(at_both!(referents_elsewhere), &[|held| held.pointers()]);
    found_out(
        at_both!(origins_elsewhere),
        &[|held| held.recordings(), |held| held.stale_pointers()],
    );
}

#[test]
fn origins_of_two_bytes() {
    found_out(
        at_both!(two_bytes_of_origins),
        &[|held| held.pointers(), |held| held.changes_of_a_cell()],
    );
}

#[test]
fn cells_that_stay_behind() {
    found_out(
        at_both!(cells_that_stay),
        &[|held| held.endings(), |held| held.stale_pointers()],
    );
    found_out(at_both!(cells_not_cleared), &[|held| held.totals()]);
}

#[test]
fn lengths_of_cells_that_are_taken() {
    found_out(
        at_both!(cells_of_few_bits),
        &[|held| held.wrong_lengths_of_cells()],
    );
}

#[test]
fn origins_elsewhere_in_runs() {
    let [middle, full] = at_both!(origins_elsewhere);
    let library = middle;
    refused(
        &HeldOrigins { library },
        &[|held| held.runs_at_middle_size()],
    );
    let library = full;
    refused(&HeldOrigins { library }, &[|held| held.runs_at_full_size()]);
}
