//! Whole inputs of the calls program, good to the end or cut somewhere.

use crate::call::Call;
use crate::generate::{call, edge_map, map, Scale};
use crate::map::{Map, NULL};
use crate::plain::{List, PlainList};
use crate::program::{encode, encode_map, LARGEST_HEAP, LARGEST_STACK};
use crate::random::Random;

/// The last kind of either form; the plain one does not know 11 to 13.
const LAST_KIND: u16 = 16;

/// An input file with at most so many records before its end.
pub fn file(random: &mut Random, records: u64) -> Vec<u8> {
    let mut input = Vec::new();
    let mut list: Option<PlainList> = None;
    for _ in 0..random.below(records + 1) {
        if random.once_in(25) || (list.is_none() && random.once_in(2)) {
            let map = program_map(random);
            input.extend(encode_map(map));
            if taken(map) {
                list = Some(PlainList::new(map));
            }
        } else {
            input.extend(call_record(random, &mut list));
        }
    }
    spoil(random, &mut input);
    input
}

pub(crate) fn taken(map: Map) -> bool {
    map.good() && map.heap_size <= LARGEST_HEAP && map.stack_size <= LARGEST_STACK
}

pub(crate) fn program_map(random: &mut Random) -> Map {
    match random.below(8) {
        0 => edge_map(random),
        1 => {
            let heap_size = random.pick(&[LARGEST_HEAP, LARGEST_HEAP + 8, 16]);
            let stack_size = random.pick(&[LARGEST_STACK, LARGEST_STACK + 8, 16]);
            Map::new(8, heap_size, 65_536, stack_size)
        }
        2 => map(random, Scale::Full),
        _ => map(random, Scale::Crowded),
    }
}

/// A call for the list as it stands; before any map, a call for any map.
fn call_record(random: &mut Random, list: &mut Option<PlainList>) -> Vec<u8> {
    let made = if let Some(list) = list {
        let made = call(random, list.map(), list.blocks());
        // Clear has no kind, so the file must not have it happen either; nor has
        // place, which alters nothing.
        if made != Call::Clear {
            list.step(made);
        }
        made
    } else if random.once_in(8) {
        // Number 1 comes first even for a call that would do nothing.
        Call::Free { base: NULL }
    } else {
        let map = map(random, Scale::Crowded);
        call(random, map, &[])
    };
    let (kind, fields) = made.record_fields().unwrap_or((9, vec![]));
    encode(kind, &fields)
}

/// Half of all files end badly: cut, or with a record of no kind or length.
pub(crate) fn spoil(random: &mut Random, input: &mut Vec<u8>) {
    match random.below(8) {
        0 => {
            let left = random.below(input.len() as u64 + 1);
            input.truncate(left as usize);
        }
        1 => {
            let kind = random.pick(&[
                0,
                11,
                13,
                LAST_KIND + 1,
                LAST_KIND + 2,
                255,
                256,
                258,
                256 + LAST_KIND,
                513,
                u16::MAX,
            ]);
            input.extend(encode(kind, &[4096, 64]));
        }
        2 => {
            let kind = random.between(1, u32::from(LAST_KIND)) as u16;
            let fields = vec![4104; random.below(6) as usize];
            input.extend(encode(kind, &fields));
        }
        3 => {
            let length = random.pick(&[0, 1, 2, 3, 4, 5, 7, 9, 13, u16::MAX]);
            input.extend(length.to_le_bytes());
            let kind = random.pick(&[2u16, 3, 9, 10, 14, 15, LAST_KIND]);
            input.extend(kind.to_le_bytes());
            input.extend([0; 16]);
        }
        _ => {}
    }
}
