//! Text to a calls file, and back.
//!
//! A line is a word and its numbers (`record 4104 20`), decimal or hexadecimal after `0x`. `raw 0c 00 02` writes any bytes, so
//! that every file has a text. `#` begins a remark, at the start of a line or after a record. A text for the form with origins says so:
//! its first line that is not blank or a remark is the word `origins` alone, which has no bytes.

use crate::kinds::{count, Form, Kind};
use crate::records::{records, Stop};

const RAW: &str = "raw";
const RAW_BYTES_A_LINE: usize = 16;

/// A calls file with its form, and the remarks of its text, each with the byte that it stands before.
#[derive(Debug, Default)]
pub struct Parsed {
    pub form: Form,
    pub file: Vec<u8>,
    pub remarks: Vec<(usize, String)>,
}

/// The calls file of a text; else a message for each bad line, which names the file and the line.
pub fn parse(name: &str, text: &str) -> Result<Parsed, Vec<String>> {
    let mut parsed = Parsed::default();
    let mut errors = Vec::new();
    let mut first = true;
    for (number, line) in (1..).zip(text.lines()) {
        let (record, remark) = line.split_once('#').unwrap_or((line, ""));
        if record.trim().is_empty() {
            if !remark.is_empty() {
                let remark = remark.trim().to_owned();
                parsed.remarks.push((parsed.file.len(), remark));
            }
            continue;
        }
        if std::mem::take(&mut first) && record.trim() == Form::Origins.word() {
            parsed.form = Form::Origins;
            continue;
        }
        match bytes_of(parsed.form, record) {
            Ok(bytes) => parsed.file.extend(bytes),
            Err(error) => errors.push(format!("{name}:{number}: {error}")),
        }
    }
    if errors.is_empty() {
        Ok(parsed)
    } else {
        Err(errors)
    }
}

/// The bytes of one line without its remark.
fn bytes_of(form: Form, line: &str) -> Result<Vec<u8>, String> {
    let mut words = line.split_whitespace();
    let Some(word) = words.next() else {
        return Ok(Vec::new());
    };
    let rest: Vec<&str> = words.collect();
    if word == RAW {
        return raw(&rest);
    }
    let kind = form.of_word(word).ok_or_else(|| unknown(form, word))?;
    if rest.len() != kind.fields.len() {
        return Err(wrong_count(kind, rest.len()));
    }
    let mut bytes = (kind.length() as u16).to_le_bytes().to_vec();
    bytes.extend(kind.number.to_le_bytes());
    for (field, digits) in kind.fields.iter().zip(rest) {
        let value = number(digits).map_err(|error| format!("{word}, {field}: {error}"))?;
        bytes.extend(value.to_le_bytes());
    }
    Ok(bytes)
}

fn raw(words: &[&str]) -> Result<Vec<u8>, String> {
    if words.is_empty() {
        return Err("raw takes bytes, two hexadecimal digits each".to_owned());
    }
    let byte = |word: &&str| {
        let two = word.len() == 2 && word.bytes().all(|digit| digit.is_ascii_hexdigit());
        let value = two.then(|| u8::from_str_radix(word, 16).ok()).flatten();
        let word = word.escape_debug();
        value.ok_or_else(|| format!("raw: `{word}` is no byte (two hexadecimal digits)"))
    };
    words.iter().map(byte).collect()
}

fn unknown(form: Form, word: &str) -> String {
    let origins = Form::Origins.word();
    if word == origins {
        return format!("`{origins}` stands alone on the first line, or nowhere");
    }
    if Form::Origins.of_word(word).is_some() {
        return format!(
            "`{word}` is a word of the form with origins: write `{origins}` on a line before all others"
        );
    }
    let words: Vec<&str> = form.kinds().map(|kind| kind.word).collect();
    let words = words.join(", ");
    let word = word.escape_debug();
    format!("unknown word `{word}`; the words are {words}, {RAW}")
}

fn wrong_count(kind: &Kind, got: usize) -> String {
    let (word, fields) = (kind.word, kind.fields);
    if fields.is_empty() {
        return format!("{word} takes no numbers, got {got}");
    }
    let numbers = count(fields.len() as u32, "number");
    format!("{word} takes {numbers} ({}), got {got}", fields.join(", "))
}

fn number(word: &str) -> Result<u32, String> {
    let (digits, radix) = word.strip_prefix("0x").map_or((word, 10), |hex| (hex, 16));
    let unsigned = digits.strip_prefix('-').unwrap_or(digits);
    if unsigned.is_empty() || !unsigned.chars().all(|digit| digit.is_digit(radix)) {
        let word = word.escape_debug();
        return Err(format!(
            "`{word}` is no number (decimal, or hexadecimal after 0x)"
        ));
    }
    u32::from_str_radix(digits, radix)
        .map_err(|_| format!("{word} is out of range (0 to {})", u32::MAX))
}

/// The text of a calls file; from a record that does not decode on, its bytes as they are.
pub fn text(form: Form, file: &[u8]) -> (String, Option<Stop>) {
    let (found, stop) = records(form, file);
    let mut lines: Vec<String> = Vec::new();
    if form == Form::Origins {
        lines.push(form.word().to_owned());
    }
    lines.extend(found.iter().map(|record| record.text()));
    if let Some(stop) = &stop {
        lines.push(format!("# {}", stop.message()));
        lines.extend(file[stop.at..].chunks(RAW_BYTES_A_LINE).map(raw_text));
    }
    lines.push(String::new());
    (lines.join("\n"), stop)
}

/// Any bytes as a line of text.
pub fn raw_text(bytes: &[u8]) -> String {
    let bytes = bytes.iter().map(|byte| format!(" {byte:02x}"));
    RAW.to_owned() + &bytes.collect::<String>()
}
