//! The samples program: lines of the notation without their right-hand sides
//! in, the same lines with them out.
//!
//! After a call each shadow that it changed is told, from the first byte that
//! changed to the last, so that a line says every shadow byte afterwards; in the
//! form with origins the counter too, where it changed. A line that is no sample
//! gets a question mark.

use crate::bytes;
use crate::call::Answer;
use crate::map::Map;
use crate::notation::{asked, records, Shadow, DESK_MAP, EXAMPLE_MAP};
use crate::origins;
use crate::origins::call::OriginsCall;
use crate::origins::cells::State;
use crate::origins::notation::Lent;
use crate::program;

/// A longer line is cut here and is no sample.
pub const LONGEST_LINE: usize = 4095;

/// A longer record is no record, whatever its kind.
const LONGEST_RECORD: usize = 4 + 4 * 15;

/// The text with the right-hand side of each sample.
pub fn answered(text: &[u8]) -> Vec<u8> {
    let mut output = Vec::new();
    for line in text.split_inclusive(|&byte| byte == b'\n') {
        let line = line.strip_suffix(b"\n").unwrap_or(line);
        if line.len() > LONGEST_LINE {
            output.extend(&line[..=LONGEST_LINE]);
            output.extend(b" => ?");
        } else {
            output.extend(line);
            output.extend(right_hand_side(&String::from_utf8_lossy(line)).into_bytes());
        }
        output.push(b'\n');
    }
    output
}

pub(crate) fn right_hand_side(line: &str) -> String {
    if line.is_empty() || line.starts_with('#') {
        return String::new();
    }
    let known = |head: &str| line.strip_prefix(head);
    let side = if let Some(question) = known("on:") {
        call_side(EXAMPLE_MAP, question)
    } else if let Some(question) = known("on desk:") {
        call_side(DESK_MAP, question)
    } else if let Some(records) = known("run:") {
        Some(run_side(records, program::run))
    } else if let Some(question) = known("on origins:") {
        origins_call_side(question)
    } else {
        known("run origins:").map(|records| run_side(records, origins::program::run))
    };
    let side = side.unwrap_or_else(|| "?".to_owned());
    match side.as_str() {
        "" => " =>".to_owned(),
        side => format!(" => {side}"),
    }
}

/// The lines of a calls program; text that is no record ends them.
fn run_side(text: &str, run: fn(&[u8]) -> Vec<u8>) -> String {
    let whole = |record: Option<Vec<u8>>| record.filter(|bytes| bytes.len() <= LONGEST_RECORD);
    let known: Vec<_> = records(text).map_while(whole).collect();
    let lines = String::from_utf8(run(&known.concat())).expect("lines are text");
    let mut told: Vec<&str> = lines.lines().collect();
    if known.len() < records(text).count() && told.last() != Some(&"9") {
        told.push("?");
    }
    told.join("; ")
}

fn call_side(map: Map, question: &str) -> Option<String> {
    let (before, call) = asked(map, question)?;
    let mut after = before.clone();
    let answer = bytes::call(
        map,
        &mut after.heap,
        &mut after.primary,
        &mut after.secondary,
        call,
    );
    let changed = Shadow::ALL.into_iter().filter_map(|shadow| {
        let told = change(shadow.of(&before), shadow.of(&after))?;
        Some(format!(" {}@{told}", shadow.name()))
    });
    Some(answer_text(call.answer_fields(), answer) + &then(changed.collect()))
}

fn origins_call_side(question: &str) -> Option<String> {
    let (before, call) = origins::notation::asked(question)?;
    Some(origins_side(EXAMPLE_MAP, before, call))
}

pub(crate) fn origins_side(map: Map, before: State, call: OriginsCall) -> String {
    let mut after = before.clone();
    let answer = origins::bytes::call(map, &mut after, call);
    let changed = Lent::ALL.into_iter().filter_map(|lent| {
        let told = change(lent.of(&before), lent.of(&after))?;
        Some(format!(" {}@{told}", lent.name()))
    });
    let mut changed: String = changed.collect();
    if after.counter != before.counter {
        changed += &format!(" counter={}", after.counter);
    }
    answer_text(call.answer_fields(), answer) + &then(changed)
}

/// The number and as many fields as the call has, on a refusal too.
fn answer_text(fields: usize, answer: Answer) -> String {
    let fields = &answer.fields[..fields];
    let words: Vec<String> = [answer.number]
        .iter()
        .chain(fields)
        .map(u32::to_string)
        .collect();
    words.join(" ")
}

fn then(changed: String) -> String {
    match changed.as_str() {
        "" => String::new(),
        changed => format!(" then{changed}"),
    }
}

/// The first position that changed, and the bytes from there to the last.
fn change(was: &[u8], is: &[u8]) -> Option<String> {
    let differs = |&place: &usize| was[place] != is[place];
    let first = (0..is.len()).find(differs)?;
    let last = (0..is.len()).rfind(differs)?;
    let bytes: Vec<String> = is[first..=last].iter().map(u8::to_string).collect();
    Some(format!("{first}={}", bytes.join(",")))
}
