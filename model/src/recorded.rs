//! The recorded runs of the plain form, some of them from before S-7, when free
//! took stack blocks too.
//!
//! One rule writes those as they are since: a free of a stack address, kind 3, is
//! a remove, kind 16. Every other record stays, and each line but for its kind.

use crate::call::Call;
use crate::map::{Area, Map};
use crate::program::{decode, encode, taken, Record};

/// Their names; the files lie in `tests/data`. The last one has removes already.
pub const RUNS: [&str; 3] = ["sha1", "sorts", "json"];

/// The calls file with a remove for each free of a stack address.
pub fn with_removals(input: &[u8]) -> Vec<u8> {
    let mut converted = Vec::new();
    for (bytes, removal) in records(input) {
        match removal {
            Some(call) => {
                let (kind, fields) = call.record_fields().expect("remove has a kind");
                converted.extend(encode(kind, &fields));
            }
            None => converted.extend(bytes),
        }
    }
    converted
}

/// The lines that the file gave when it was recorded, each with the kind that its
/// record has in the converted file.
pub fn lines_with_removals(input: &[u8], lines: &[u8]) -> Vec<u8> {
    let lines = lines.split_inclusive(|&byte| byte == b'\n');
    let told = lines.zip(records(input));
    let converted = told.map(|(line, (_, removal))| match line.strip_prefix(b"3 ") {
        Some(rest) if removal.is_some() => [b"16 ", rest].concat(),
        _ => line.to_vec(),
    });
    converted.flatten().collect()
}

/// Each record of the file with the remove that it becomes, if it does; what does
/// not decode is the last.
fn records(mut input: &[u8]) -> Vec<(&[u8], Option<Call>)> {
    let mut map = Map::default();
    let mut found = Vec::new();
    while !input.is_empty() {
        let Some((record, rest)) = decode(input) else {
            found.push((input, None));
            break;
        };
        let bytes = &input[..input.len() - rest.len()];
        input = rest;
        if let Record::Map(new) = record {
            if taken(new).is_ok() {
                map = new;
            }
        }
        found.push((bytes, removal(map, record)));
    }
    found
}

fn removal(map: Map, record: Record) -> Option<Call> {
    match record {
        Record::Call(_, Call::Free { base }) if map.area(base) == Some(Area::Stack) => {
            Some(Call::Remove { base })
        }
        _ => None,
    }
}
