//! Right-hand sides as the models give them: lines of the notation in, without
//! theirs, and the same lines with them out. A line that is no sample gets a
//! question mark.
//!
//! Calls without origins have those of the samples program; here a line has any
//! length, a run has bytes and cut records too, and a call with origins a map.

use super::notation::{inputs, record, texts};
use super::origins::asked;
use crate::origins;
use crate::program;
use crate::samples::{origins_side, right_hand_side};

/// The text with the right-hand side of each sample.
pub fn answered(text: &[u8]) -> Vec<u8> {
    let mut output = Vec::new();
    for line in text.split_inclusive(|&byte| byte == b'\n') {
        let line = line.strip_suffix(b"\n").unwrap_or(line);
        output.extend(line);
        output.extend(side(&String::from_utf8_lossy(line)).into_bytes());
        output.push(b'\n');
    }
    output
}

fn side(line: &str) -> String {
    let known = |head: &str| line.strip_prefix(head);
    let side = if let Some(records) = known("run:") {
        run_side(records, program::run)
    } else if let Some(records) = known("run origins:") {
        run_side(records, origins::program::run)
    } else if let Some(question) = known("on origins:") {
        let side = asked(question).map(|(map, before, call)| origins_side(map, before, call));
        side.unwrap_or_else(|| "?".to_owned())
    } else {
        return right_hand_side(line);
    };
    match side.as_str() {
        "" => " =>".to_owned(),
        side => format!(" => {side}"),
    }
}

/// The lines of a calls program; text that is no record ends them. Wherever a
/// record is cut they are the same.
fn run_side(text: &str, run: fn(&[u8]) -> Vec<u8>) -> String {
    let lines = |input: &[u8]| {
        let output = String::from_utf8(run(input)).expect("lines are text");
        output.lines().collect::<Vec<_>>().join("; ")
    };
    if let Some(inputs) = inputs(text) {
        return lines(&inputs[0]);
    }
    let known: Vec<_> = texts(text).map_while(record).collect();
    match lines(&known.concat()).as_str() {
        "" => "?".to_owned(),
        before => format!("{before}; ?"),
    }
}
