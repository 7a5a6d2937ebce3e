//! Whole inputs of the calls program of this form.

use crate::call::Call;
use crate::generate::file::{program_map, spoil, taken};
use crate::generate::{map, Scale};
use crate::origins::call::{OriginsCall, FIRST_ORIGIN};
use crate::origins::generate::Calls;
use crate::origins::list::OriginsList;
use crate::program::{encode, encode_map};
use crate::random::Random;

/// An input file with at most so many records before its end.
pub fn file(random: &mut Random, records: u64) -> Vec<u8> {
    let mut input = Vec::new();
    let mut list: Option<OriginsList> = None;
    let mut calls = Calls::default();
    for _ in 0..random.below(records + 1) {
        if random.once_in(40) || (list.is_none() && random.once_in(2)) {
            let map = program_map(random);
            input.extend(encode_map(map));
            if taken(map) {
                let counter = list.map_or(FIRST_ORIGIN, |list| list.counter());
                list = Some(OriginsList::new(map, counter));
            }
        } else {
            input.extend(call_record(random, &mut calls, &mut list));
        }
    }
    spoil(random, &mut input);
    input
}

/// A call for the list as it stands; before any map, a call for any map.
pub fn call_record(
    random: &mut Random,
    calls: &mut Calls,
    list: &mut Option<OriginsList>,
) -> Vec<u8> {
    let made = match list {
        Some(list) => {
            let made = calls.next(random, list.map(), list.blocks());
            // Clear has no kind, so the file must not have it happen either.
            if made != OriginsCall::Plain(Call::Clear) {
                list.step(made);
            }
            made
        }
        None => {
            let map = map(random, Scale::Crowded);
            calls.next(random, map, &[])
        }
    };
    let (kind, fields) = made.record_fields().unwrap_or((9, vec![]));
    encode(kind, &fields)
}
