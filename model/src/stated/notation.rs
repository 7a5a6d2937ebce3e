//! The lines `on:`, `on desk:` and `run:` of the samples: a call states every byte
//! afterwards, and a run may stand for several inputs.

use crate::call::{Answer, NO_FIELDS};
use crate::map::Map;
use crate::notation::{
    asked, bytes_of, lines_of, number_of, numbers_of, put, words, OneCall, DESK_MAP, EXAMPLE_MAP,
};
use crate::program::encode;

/// An example: runs of the program, or one call on given bytes.
#[derive(Clone, Debug)]
pub enum Example {
    Run(Runs),
    On(OneCall),
}

/// Inputs of a calls program that have one output: a single one, or all those
/// that cut the last record.
#[derive(Clone, Debug, PartialEq, Eq)]
pub struct Runs {
    pub inputs: Vec<Vec<u8>>,
    pub output: Vec<u8>,
}

/// The example a line states, if it keeps to the notation.
pub fn example(line: &str) -> Option<Example> {
    let (head, text) = line.split_once(':')?;
    let (question, result) = text.split_once("=>")?;
    match head {
        "run" | "run[0]" => runs(question, result).map(Example::Run),
        "on" | "on[0]" => one_call(EXAMPLE_MAP, question, result).map(Example::On),
        "on desk" => one_call(DESK_MAP, question, result).map(Example::On),
        _ => None,
    }
}

pub(super) fn runs(question: &str, result: &str) -> Option<Runs> {
    Some(Runs {
        inputs: inputs(question)?,
        output: lines_of(result),
    })
}

/// The inputs that a text of records stands for.
pub(super) fn inputs(text: &str) -> Option<Vec<Vec<u8>>> {
    let mut texts: Vec<&str> = texts(text).collect();
    let cut = texts.last().and_then(|last| last.strip_prefix("cut "));
    texts.truncate(texts.len() - usize::from(cut.is_some()));
    let before = texts.into_iter().map(record).collect::<Option<Vec<_>>>()?;
    let before = before.concat();
    let Some(cut) = cut else {
        return Some(vec![before]);
    };
    let last = numbered(cut)?;
    let ends = 1..last.len();
    Some(ends.map(|end| [&before, &last[..end]].concat()).collect())
}

/// What stands between semicolons.
pub(super) fn texts(text: &str) -> impl Iterator<Item = &str> {
    let texts = text.split(';').map(|text| text.trim_matches(' '));
    texts.filter(|text| !text.is_empty())
}

/// The bytes of a record, or those that are given as they are.
pub(super) fn record(text: &str) -> Option<Vec<u8>> {
    match text.strip_prefix("bytes ") {
        Some(bytes) => words(bytes).map(number_of).collect(),
        None => numbered(text),
    }
}

/// The bytes of a record that is given by its kind and its fields.
fn numbered(text: &str) -> Option<Vec<u8>> {
    let numbers = numbers_of(text)?;
    let (&kind, fields) = numbers.split_first()?;
    Some(encode(u16::try_from(kind).ok()?, fields))
}

fn one_call(map: Map, question: &str, result: &str) -> Option<OneCall> {
    let (shadows, call) = asked(map, question)?;
    let (answer, then) = sides(result);
    let then = bytes_of(then)?;
    put(&mut shadows.clone(), &then)?;
    Some(OneCall {
        map,
        shadows,
        call,
        answer: answer_of(answer, call.answer_fields())?,
        then,
    })
}

/// The answer of a right-hand side, and what is told after it.
pub(super) fn sides(result: &str) -> (&str, &str) {
    result.split_once(" then ").unwrap_or((result, ""))
}

/// The number and exactly as many fields as the call has, on a refusal too.
pub(super) fn answer_of(text: &str, count: usize) -> Option<Answer> {
    let numbers = numbers_of(text)?;
    let (&number, stated) = numbers.split_first()?;
    if stated.len() != count {
        return None;
    }
    let mut fields = NO_FIELDS;
    fields[..count].copy_from_slice(stated);
    Some(Answer { number, fields })
}
