//! The calls programs once more, on the byte-level models instead of lists.

use super::on;
use model::call::Answer;
use model::image::Shadows;
use model::map::Map;
use model::origins;
use model::origins::cells::{Cells, State};
use model::program;

/// The plain form.
pub fn run_on_bytes(input: &[u8]) -> Vec<u8> {
    let mut map = Map::default();
    let mut shadows = Shadows::cleared(map);
    lines(input, program::decode, |record| match record {
        program::Record::Map(new) => {
            let number = map_number(new);
            if number == 0 {
                map = new;
                shadows = Shadows::cleared(map);
            }
            format!("1 {number}\n")
        }
        program::Record::Call(kind, call) => {
            let answer = on(map, &mut shadows, call);
            line(kind, answer, call.answer_fields())
        }
    })
}

/// The form with origins.
pub fn origins_on_bytes(input: &[u8]) -> Vec<u8> {
    let mut map = Map::default();
    let mut state = State::cleared(map);
    lines(input, origins::program::decode, |record| match record {
        origins::program::Record::Map(new) => {
            let number = map_number(new);
            if number == 0 {
                map = new;
                state.shadows = Shadows::cleared(map);
                state.cells = Cells::cleared(map);
            }
            format!("1 {number}\n")
        }
        origins::program::Record::Call(kind, call) => {
            let answer = origins::bytes::call(map, &mut state, call);
            line(kind, answer, call.answer_fields())
        }
    })
}

/// The first record of an input and what follows it.
type Decode<R> = fn(&[u8]) -> Option<(R, &[u8])>;

/// The line of each record, up to the first that does not decode.
fn lines<R>(mut input: &[u8], decode: Decode<R>, mut line: impl FnMut(R) -> String) -> Vec<u8> {
    let mut output = String::new();
    while !input.is_empty() {
        let Some((record, rest)) = decode(input) else {
            output += "9\n";
            break;
        };
        input = rest;
        output += &line(record);
    }
    output.into_bytes()
}

/// 1, 10 or 0 for a map that a calls program is given.
fn map_number(map: Map) -> u32 {
    match (map.good(), map.heap_size, map.stack_size) {
        (false, ..) => 1,
        (true, 0..=32_768, 0..=16_384) => 0,
        _ => 10,
    }
}

/// The line of a call.
fn line(kind: u16, answer: Answer, answer_fields: usize) -> String {
    let fields = match answer.number {
        0 => &answer.fields[..answer_fields],
        _ => &[],
    };
    let fields: String = fields.iter().map(|field| format!(" {field}")).collect();
    format!("{kind} {}{fields}\n", answer.number)
}
