//! The calls program of this form: the plain kinds, 14 to 16 among them, and
//! kinds 11 to 13.

use crate::call::{refusal, Answer, Outcome, NO_FIELDS};
use crate::map::Map;
use crate::origins::call::{OriginsCall, FIRST_ORIGIN};
use crate::origins::list::OriginsList;
use crate::program::{fields, map, render, taken, MAP_KIND};

/// A decoded record.
#[derive(Clone, Copy, Debug, PartialEq, Eq)]
pub enum Record {
    Map(Map),
    Call(u16, OriginsCall),
}

/// The program's output for a whole input.
pub fn run(mut input: &[u8]) -> Vec<u8> {
    let mut program = Program { list: None };
    let mut output = String::new();
    while !input.is_empty() {
        let Some((record, rest)) = decode(input) else {
            output.push_str("9\n");
            break;
        };
        input = rest;
        output.push_str(&program.line(record));
    }
    output.into_bytes()
}

/// The first record of the input and what follows it, if it decodes.
pub fn decode(input: &[u8]) -> Option<(Record, &[u8])> {
    let (kind, fields, rest) = fields(input)?;
    let record = match map(kind, &fields) {
        Some(map) => Record::Map(map),
        None => Record::Call(kind, OriginsCall::from_record(kind, &fields)?),
    };
    Some((record, rest))
}

/// The list under the last accepted map; none stands for the map of zeros.
struct Program {
    list: Option<OriginsList>,
}

impl Program {
    fn line(&mut self, record: Record) -> String {
        match record {
            Record::Map(map) => render(MAP_KIND, self.accept(map).into(), 0),
            Record::Call(kind, call) => render(kind, self.step(call), call.answer_fields()),
        }
    }

    /// An accepted map clears blocks and cells, and leaves the counter (S4.4).
    fn accept(&mut self, map: Map) -> Outcome {
        taken(map)?;
        let counter = self.list.as_ref().map_or(FIRST_ORIGIN, |l| l.counter());
        self.list = Some(OriginsList::new(map, counter));
        Ok(NO_FIELDS)
    }

    fn step(&mut self, call: OriginsCall) -> Answer {
        match &mut self.list {
            Some(list) => list.step(call),
            None => Err(refusal::BAD_MAP).into(),
        }
    }
}
