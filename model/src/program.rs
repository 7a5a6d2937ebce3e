//! The calls program: records in, one line a record out, on a plain list.

use crate::call::{refusal, Answer, Call, Outcome, NO_FIELDS};
use crate::map::Map;
use crate::plain::{List, PlainList};

/// The largest heap and stack the program takes.
pub const LARGEST_HEAP: u32 = 32_768;
pub const LARGEST_STACK: u32 = 16_384;

pub(crate) const MAP_KIND: u16 = 1;

/// A decoded record.
#[derive(Clone, Copy, Debug, PartialEq, Eq)]
pub enum Record {
    Map(Map),
    Call(u16, Call),
}

/// The program's output for a whole input.
pub fn run(input: &[u8]) -> Vec<u8> {
    run_on::<PlainList>(input)
}

/// The same on either form of the plain list.
pub fn run_on<L: List>(mut input: &[u8]) -> Vec<u8> {
    let mut program = Program::<L> { list: None };
    let mut output = String::new();
    while !input.is_empty() {
        let Some((record, rest)) = decode(input) else {
            output.push_str("9\n");
            break;
        };
        input = rest;
        output.push_str(&program.line(record));
    }
    output.into_bytes()
}

/// The first record of the input and what follows it, if it decodes.
pub fn decode(input: &[u8]) -> Option<(Record, &[u8])> {
    let (kind, fields, rest) = fields(input)?;
    let record = match map(kind, &fields) {
        Some(map) => Record::Map(map),
        None => Record::Call(kind, Call::from_record(kind, &fields)?),
    };
    Some((record, rest))
}

/// Kind and fields of the first record, and what follows it, whatever the kind.
pub(crate) fn fields(input: &[u8]) -> Option<(u16, Vec<u32>, &[u8])> {
    let &[low, high, kind_low, kind_high, ..] = input else {
        return None;
    };
    let length = usize::from(u16::from_le_bytes([low, high]));
    let kind = u16::from_le_bytes([kind_low, kind_high]);
    let body = input.get(4..length)?;
    // A length that is no whole number of fields is no kind's length.
    if body.len() % 4 != 0 {
        return None;
    }
    let fields: Vec<u32> = body
        .chunks_exact(4)
        .map(|four| u32::from_le_bytes([four[0], four[1], four[2], four[3]]))
        .collect();
    Some((kind, fields, &input[length..]))
}

/// The map of a map's record.
pub(crate) fn map(kind: u16, fields: &[u32]) -> Option<Map> {
    match (kind, fields) {
        (MAP_KIND, &[heap_start, heap_size, stack_start, stack_size]) => {
            Some(Map::new(heap_start, heap_size, stack_start, stack_size))
        }
        _ => None,
    }
}

/// The bytes of a record with this kind and these fields.
pub fn encode(kind: u16, fields: &[u32]) -> Vec<u8> {
    let length = 4 + 4 * fields.len() as u16;
    let mut bytes = length.to_le_bytes().to_vec();
    bytes.extend(kind.to_le_bytes());
    for field in fields {
        bytes.extend(field.to_le_bytes());
    }
    bytes
}

/// The bytes of a map's record.
pub fn encode_map(map: Map) -> Vec<u8> {
    encode(
        MAP_KIND,
        &[
            map.heap_start,
            map.heap_size,
            map.stack_start,
            map.stack_size,
        ],
    )
}

/// The list under the last accepted map; none stands for the map of zeros.
struct Program<L> {
    list: Option<L>,
}

impl<L: List> Program<L> {
    fn line(&mut self, record: Record) -> String {
        match record {
            Record::Map(map) => render(MAP_KIND, self.accept(map).into(), 0),
            Record::Call(kind, call) => render(kind, self.step(call), call.answer_fields()),
        }
    }

    fn accept(&mut self, map: Map) -> Outcome {
        taken(map)?;
        self.list = Some(L::new(map));
        Ok(NO_FIELDS)
    }

    fn step(&mut self, call: Call) -> Answer {
        match &mut self.list {
            Some(list) => list.step(call),
            None => Err(refusal::BAD_MAP).into(),
        }
    }
}

/// Whether the program takes a map; else the number of its refusal.
pub(crate) fn taken(map: Map) -> Result<(), u32> {
    if !map.good() {
        return Err(refusal::BAD_MAP);
    }
    if map.heap_size > LARGEST_HEAP || map.stack_size > LARGEST_STACK {
        return Err(refusal::TOO_LARGE);
    }
    Ok(())
}

/// One line: kind, number and, if accepted, the answer fields.
pub(crate) fn render(kind: u16, answer: Answer, answer_fields: usize) -> String {
    let mut words = vec![kind.to_string(), answer.number.to_string()];
    if answer.number == 0 {
        let fields = &answer.fields[..answer_fields];
        words.extend(fields.iter().map(u32::to_string));
    }
    words.join(" ") + "\n"
}
