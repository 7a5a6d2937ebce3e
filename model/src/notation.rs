//! The one-line notation of the example files.
//!
//! `run: records => lines` is an input of the calls program and its output.
//! `on: bytes : call => number fields then bytes` is one call on shadows that
//! are zero but for the bytes given, and `on desk:` is the same at the desk.
//! `run[0]` and `on[0]` say that document 01 alone is meant. Lines beginning with
//! `#` are remarks.

use std::str::FromStr;

use crate::call::{Answer, Call, NO_FIELDS};
use crate::form::DESK;
use crate::image::Shadows;
use crate::map::Map;
use crate::program::encode;

/// The map of the examples.
pub const EXAMPLE_MAP: Map = Map::new(4096, 64, 8192, 32);

/// The same four numbers at the desk, where the heap has half as many segments.
pub const DESK_MAP: Map = EXAMPLE_MAP.of(DESK);

/// An example: a run of the program, or one call on given bytes.
#[derive(Clone, Debug)]
pub enum Example {
    Run { input: Vec<u8>, output: Vec<u8> },
    On(OneCall),
}

/// One call on given bytes, its answer, and the bytes that are then stated.
#[derive(Clone, Debug)]
pub struct OneCall {
    pub map: Map,
    pub shadows: Shadows,
    pub call: Call,
    pub answer: Answer,
    pub then: Vec<Bytes>,
}

impl OneCall {
    /// The shadows afterwards: those given, but for the bytes that are stated.
    pub fn after(&self) -> Shadows {
        let mut after = self.shadows.clone();
        put(&mut after, &self.then).expect("a sample's bytes have their places");
        after
    }
}

/// Bytes of one shadow from a position on.
#[derive(Clone, Debug)]
pub struct Bytes {
    pub shadow: Shadow,
    pub position: usize,
    pub bytes: Vec<u8>,
}

/// Which of the three shadows.
#[derive(Clone, Copy, Debug, PartialEq, Eq)]
pub enum Shadow {
    Heap,
    Primary,
    Secondary,
}

impl Shadow {
    /// In the order of the notation.
    pub const ALL: [Shadow; 3] = [Shadow::Heap, Shadow::Primary, Shadow::Secondary];

    /// Its name in the notation.
    pub fn name(self) -> &'static str {
        match self {
            Shadow::Heap => "heap",
            Shadow::Primary => "pri",
            Shadow::Secondary => "sec",
        }
    }

    /// This one of the three.
    pub fn of(self, shadows: &Shadows) -> &[u8] {
        match self {
            Shadow::Heap => &shadows.heap,
            Shadow::Primary => &shadows.primary,
            Shadow::Secondary => &shadows.secondary,
        }
    }

    fn of_mut(self, shadows: &mut Shadows) -> &mut [u8] {
        match self {
            Shadow::Heap => &mut shadows.heap,
            Shadow::Primary => &mut shadows.primary,
            Shadow::Secondary => &mut shadows.secondary,
        }
    }
}

/// All examples of a text, each with the remark before it and its own line.
pub fn examples(text: &str) -> Vec<(&str, &str, Example)> {
    let mut remark = "";
    let mut found = Vec::new();
    for line in text.lines().map(str::trim) {
        if let Some(words) = line.strip_prefix('#') {
            remark = words.trim();
        } else if !line.is_empty() {
            let example = example(line).unwrap_or_else(|| panic!("no example: {line}"));
            found.push((remark, line, example));
        }
    }
    found
}

/// The example a line states, if it keeps to the notation.
pub fn example(line: &str) -> Option<Example> {
    let (head, text) = line.split_once(':')?;
    let (question, result) = text.split_once("=>")?;
    match head {
        "run" | "run[0]" => Some(Example::Run {
            input: records(question).collect::<Option<Vec<_>>>()?.concat(),
            output: lines_of(result),
        }),
        "on" | "on[0]" => one_call(EXAMPLE_MAP, question, result).map(Example::On),
        "on desk" => one_call(DESK_MAP, question, result).map(Example::On),
        _ => None,
    }
}

/// The bytes of each record of a text; none where the text is no record.
pub fn records(text: &str) -> impl Iterator<Item = Option<Vec<u8>>> + '_ {
    let texts = text.split(';').filter(|record| words(record).count() > 0);
    texts.map(|record| {
        let numbers = numbers_of(record)?;
        let (&kind, fields) = numbers.split_first()?;
        Some(encode(u16::try_from(kind).ok()?, fields))
    })
}

pub(crate) fn lines_of(text: &str) -> Vec<u8> {
    text.split(';')
        .map(str::trim)
        .filter(|line| !line.is_empty())
        .flat_map(|line| format!("{line}\n").into_bytes())
        .collect()
}

fn one_call(map: Map, question: &str, result: &str) -> Option<OneCall> {
    let (shadows, call) = asked(map, question)?;
    let (answer, then) = result.split_once("then").unwrap_or((result, ""));
    Some(OneCall {
        map,
        shadows,
        call,
        answer: answer_of(answer)?,
        then: bytes_of(then)?,
    })
}

/// The shadows and the call of `bytes : call` under a map.
pub fn asked(map: Map, text: &str) -> Option<(Shadows, Call)> {
    let (bytes, call) = text.split_once(':')?;
    if !bytes.is_empty() && !bytes.starts_with(' ') {
        return None;
    }
    let mut shadows = Shadows::cleared(map);
    put(&mut shadows, &bytes_of(bytes)?)?;
    Some((shadows, call_of(call)?))
}

/// Puts bytes into the shadows, if they all have a place there.
pub fn put(shadows: &mut Shadows, parts: &[Bytes]) -> Option<()> {
    for part in parts {
        let shadow = part.shadow.of_mut(shadows);
        shadow
            .get_mut(part.position..part.position + part.bytes.len())?
            .copy_from_slice(&part.bytes);
    }
    Some(())
}

pub(crate) fn bytes_of(text: &str) -> Option<Vec<Bytes>> {
    words(text)
        .map(|part| {
            let (place, bytes) = part.split_once('=')?;
            let (name, position) = place.split_once('@')?;
            Some(Bytes {
                shadow: Shadow::ALL.into_iter().find(|s| s.name() == name)?,
                position: number_of::<u32>(position)? as usize,
                bytes: bytes.split(',').map(number_of).collect::<Option<_>>()?,
            })
        })
        .collect()
}

pub(crate) fn call_of(text: &str) -> Option<Call> {
    let text = text.trim_matches(' ');
    let (name, rest) = text.split_once(' ').unwrap_or((text, ""));
    let fields = numbers_of(rest)?;
    match (name, &fields[..]) {
        // These two have no kind.
        ("clear", &[]) => Some(Call::Clear),
        ("place", &[length, budget]) => Some(Call::Place { length, budget }),
        _ => {
            let &(kind, _) = NAMES.iter().find(|(_, known)| *known == name)?;
            Call::from_record(kind, &fields)
        }
    }
}

/// The kinds by their words.
const NAMES: [(u16, &str); 12] = [
    (2, "record"),
    (3, "free"),
    (4, "written"),
    (5, "ask"),
    (6, "valid"),
    (7, "initialised"),
    (8, "next"),
    (9, "audit"),
    (10, "record_written"),
    (14, "record_literal"),
    (15, "valid_read"),
    (16, "remove"),
];

pub(crate) fn answer_of(text: &str) -> Option<Answer> {
    let numbers = numbers_of(text)?;
    let (&number, stated) = numbers.split_first()?;
    let mut fields = NO_FIELDS;
    fields.get_mut(..stated.len())?.copy_from_slice(stated);
    Some(Answer { number, fields })
}

pub(crate) fn numbers_of(text: &str) -> Option<Vec<u32>> {
    words(text).map(number_of).collect()
}

/// What stands between spaces.
pub(crate) fn words(text: &str) -> impl Iterator<Item = &str> {
    text.split(' ').filter(|word| !word.is_empty())
}

/// A number in digits alone: the library's own parser takes a sign too.
pub(crate) fn number_of<T: FromStr>(word: &str) -> Option<T> {
    let digits = word.bytes().all(|byte| byte.is_ascii_digit());
    digits.then(|| word.parse().ok())?
}
