//! A library held against the models: what the tests of every linked library of
//! a form without origins do.
//!
//! A library is one function, for which the byte-level model can stand in, right
//! or made wrong.
//!
//! - [`runs`]: runs from cleared shadows, against the list and its image.
//! - [`any_bytes`]: calls on damaged and random bytes, bad maps, wrong lengths.
//! - [`addresses`]: every call at every address, and every change of a byte.
//! - [`ranges`]: marks and tests of every range of a block.
//! - [`places`]: a place for the next block.
//! - [`endings`]: free and remove.
//! - [`numbers`]: numbers of 2 to the 32 or more, where they are wide enough.
//! - [`large`]: much of this in areas of a few thousand bytes and of the largest
//!   sizes.
//! - [`origins`]: the same for the form with origins.

pub mod addresses;
pub mod any_bytes;
pub mod endings;
pub mod large;
pub mod numbers;
pub mod origins;
pub mod places;
pub mod ranges;
pub mod runs;

use crate::bytes;
use crate::call::{Answer, Call};
use crate::form::Form;
use crate::generate::{map_of, Scale};
use crate::image::Shadows;
use crate::map::Map;
use crate::notation::{example, put, Example};
use crate::random::Random;

/// A library, and the form of its heap.
#[derive(Clone, Copy, Debug)]
pub struct Held {
    pub form: Form,
    pub library: Library,
}

/// One call on lent shadows.
pub type Library = fn(Map, &mut Shadows, Call) -> Answer;

/// The byte-level model in the place of a library.
pub fn stand_in(map: Map, lent: &mut Shadows, call: Call) -> Answer {
    bytes::call(
        map,
        &mut lent.heap,
        &mut lent.primary,
        &mut lent.secondary,
        call,
    )
}

/// All of them but for samples and numbers, each as a test of this library.
#[macro_export]
macro_rules! held {
    ($library:expr) => {
        $crate::held!($library;
            runs_in_crowded_areas,
            runs_at_full_size,
            calls_on_damaged_and_random_bytes,
            ranges_under_mixed_marks,
            bad_maps_and_wrong_lengths,
            every_call_at_every_address,
            every_record_at_every_address,
            every_change_of_one_byte,
            every_range_of_heap_blocks,
            every_range_of_stack_blocks,
            every_range_of_literals,
            every_range_at_the_end_of_an_area,
            every_length_and_budget,
            places_on_any_bytes,
            places_on_the_largest_heaps,
            runs_with_placed_blocks,
            endings_at_every_address,
        );
    };
    ($library:expr; $($name:ident,)*) => {
        $(
            #[test]
            fn $name() {
                $library.$name();
            }
        )*
    };
}

/// Those of large areas, at both sizes.
#[macro_export]
macro_rules! held_large {
    ($library:expr) => {
        $crate::held_large!($library;
            changes_of_a_byte,
            every_byte_once,
            every_value_of_a_byte,
            other_numbers,
            damaged_and_random_bytes,
            calls_at_addresses,
            totals,
            endings,
            recordings,
            ranges,
            wrong_maps_and_lengths,
            places,
        );
    };
    ($library:expr; $($name:ident,)*) => {
        mod middle_size {
            use super::*;
            $(
                #[test]
                fn $name() {
                    $library.at($crate::generate::Scale::Middle).$name();
                }
            )*
        }
        mod full_size {
            use super::*;
            $(
                #[test]
                fn $name() {
                    $library.at($crate::generate::Scale::Full).$name();
                }
            )*
        }
    };
}

impl Held {
    /// One call on any bytes, held against the byte-level model.
    pub fn agreed(&self, map: Map, lent: &mut Shadows, one: Call) -> Answer {
        let before = lent.clone();
        let mut other = lent.clone();
        let said = (self.library)(map, lent, one);
        let model = stand_in(map, &mut other, one);
        assert_eq!(said, model, "{map:?} {one:?} {before:?}");
        assert!(*lent == other, "bytes differ: {map:?} {one:?} {before:?}");
        if said.number != 0 || one.alters_nothing() {
            assert!(*lent == before, "bytes changed: {map:?} {one:?} {before:?}");
        }
        said
    }

    /// The same on a copy, so that the bytes are there for the next one.
    pub fn asked(&self, map: Map, bytes: &Shadows, one: Call) -> Answer {
        self.agreed(map, &mut bytes.clone(), one)
    }

    /// The calls of a file of samples that are of this form: what is stated of
    /// each, and how many there are.
    pub fn stated_samples(&self, text: &str) -> usize {
        let mut samples = 0;
        for line in text.lines() {
            let Some(Example::On(told)) = example(line) else {
                continue;
            };
            assert_eq!(told.map.form, self.form, "{line}");
            let mut lent = told.shadows.clone();
            let said = self.agreed(told.map, &mut lent, told.call);
            assert_eq!(said, told.answer, "{line}");
            let mut stated = lent.clone();
            put(&mut stated, &told.then).expect("bytes of the shadows");
            assert!(lent == stated, "{line}");
            samples += 1;
        }
        samples
    }

    fn map(&self, random: &mut Random, scale: Scale) -> Map {
        map_of(self.form, random, scale)
    }
}

/// How often the random tests are to be done, by `MONITOR_CALLS`.
pub fn times() -> u64 {
    let named = std::env::var("MONITOR_CALLS").ok();
    named.and_then(|times| times.parse().ok()).unwrap_or(1)
}
