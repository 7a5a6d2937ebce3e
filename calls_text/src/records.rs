//! A calls file taken apart, up to the first record that does not decode.

use crate::kinds::{Form, Kind};

/// A record that decodes, and the byte at which it begins.
pub struct Record {
    pub at: usize,
    pub kind: &'static Kind,
    pub fields: Vec<u32>,
}

/// The record that ends the run: its number counted from 1, its first byte, and why it does not decode.
#[derive(Debug, PartialEq, Eq)]
pub struct Stop {
    pub record: usize,
    pub at: usize,
    pub why: String,
}

impl Record {
    /// The record as a line of text.
    pub fn text(&self) -> String {
        let mut words = vec![self.kind.word.to_owned()];
        words.extend(self.fields.iter().map(u32::to_string));
        words.join(" ")
    }
}

impl Stop {
    pub fn message(&self) -> String {
        let Stop { record, at, why } = self;
        format!("record {record} at byte {at} does not decode: {why}")
    }
}

/// All records, and the one that does not decode if there is one.
pub fn records(form: Form, file: &[u8]) -> (Vec<Record>, Option<Stop>) {
    let mut found = Vec::new();
    let mut at = 0;
    while at < file.len() {
        match record(form, file, at) {
            Ok(record) => {
                at += record.kind.length();
                found.push(record);
            }
            Err(why) => {
                let record = found.len() + 1;
                return (found, Some(Stop { record, at, why }));
            }
        }
    }
    (found, None)
}

fn record(form: Form, file: &[u8], at: usize) -> Result<Record, String> {
    let left = &file[at..];
    let &[l0, l1, k0, k1, ..] = left else {
        let bytes = left.len();
        return Err(format!(
            "the file ends after {bytes} of the 4 bytes that each record has"
        ));
    };
    let length = usize::from(u16::from_le_bytes([l0, l1]));
    let number = u16::from_le_bytes([k0, k1]);
    let kind = form
        .of_number(number)
        .ok_or_else(|| format!("kind {number} is unknown"))?;
    let right = kind.length();
    if length != right {
        let word = kind.word;
        return Err(format!("its length is {length}, that of {word} is {right}"));
    }
    let body = left
        .get(4..length)
        .ok_or_else(|| format!("the file ends after {} of its {length} bytes", left.len()))?;
    let fields = body.chunks_exact(4);
    let fields = fields
        .map(|b| u32::from_le_bytes([b[0], b[1], b[2], b[3]]))
        .collect();
    Ok(Record { at, kind, fields })
}
