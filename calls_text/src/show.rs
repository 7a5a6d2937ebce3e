//! Input and output of a run side by side, each line with what it means.

use crate::kinds::{Form, Kind};
use crate::records::{records, Record, Stop};
use crate::refusals::refusal;
use crate::text::{raw_text, Parsed};

/// The line of a record that does not decode.
const UNDECODABLE: &str = "9";
/// How much of an undecodable rest is shown.
const RAW_SHOWN: usize = 8;

/// The table, and how many lines of the output are not those of their records.
pub struct Shown {
    pub text: String,
    pub wrong: usize,
}

/// One record: first byte, text, line, meaning, and whether the line is one of this record.
struct Row {
    at: usize,
    input: String,
    output: String,
    meaning: String,
    wrong: bool,
}

/// The table of an input and the output of a run on it.
pub fn show(input: &Parsed, output: &str) -> Shown {
    let (found, stop) = records(input.form, &input.file);
    let mut lines = output.lines();
    let mut rows: Vec<Row> = Vec::new();
    let found = found.iter();
    rows.extend(found.map(|record| row(input.form, record, lines.next())));
    rows.extend(stop.map(|stop| last_row(&stop, &input.file, lines.next())));
    rows.extend(lines.map(surplus));
    let wrong = rows.iter().filter(|row| row.wrong).count();
    let text = table(&rows, &input.remarks);
    Shown { text, wrong }
}

fn row(form: Form, record: &Record, line: Option<&str>) -> Row {
    let meaning = line.map_or(Err("no line".to_owned()), |line| {
        meaning(form, record, line)
    });
    Row {
        at: record.at,
        input: record.text(),
        output: line.unwrap_or_default().to_owned(),
        wrong: meaning.is_err(),
        meaning: meaning.unwrap_or_else(|error| format!("WRONG: {error}")),
    }
}

/// What a line means, as the line of this record; an error if it cannot be that.
fn meaning(form: Form, record: &Record, line: &str) -> Result<String, String> {
    let Kind { word, answers, .. } = record.kind;
    let not_its = || format!("this is no line of {word}");
    let numbers: Option<Vec<u32>> = line.split(' ').map(|word| word.parse().ok()).collect();
    let numbers = numbers.ok_or_else(not_its)?;
    match numbers[..] {
        [kind, 0, ref fields @ ..] if kind == u32::from(record.kind.number) => {
            if fields.len() == answers.len() {
                Ok((record.kind.told)(&record.fields, fields))
            } else {
                let (right, got) = (answers.len(), fields.len());
                Err(format!("{word} has {right} answer fields, here are {got}"))
            }
        }
        [kind, number] if kind == u32::from(record.kind.number) => Ok(refusal(form, word, number)),
        _ => Err(not_its()),
    }
}

fn last_row(stop: &Stop, file: &[u8], line: Option<&str>) -> Row {
    let rest = &file[stop.at..];
    let more = if rest.len() > RAW_SHOWN { " .." } else { "" };
    let wrong = line != Some(UNDECODABLE);
    let why = &stop.why;
    Row {
        at: stop.at,
        input: raw_text(&rest[..rest.len().min(RAW_SHOWN)]) + more,
        output: line.unwrap_or_default().to_owned(),
        wrong,
        meaning: if wrong {
            format!("WRONG: the line should be `{UNDECODABLE}`: {why}")
        } else {
            format!("undecodable, the run ends: {why}")
        },
    }
}

fn surplus(line: &str) -> Row {
    Row {
        at: usize::MAX,
        input: String::new(),
        output: line.to_owned(),
        meaning: "WRONG: a line without a record".to_owned(),
        wrong: true,
    }
}

fn table(rows: &[Row], remarks: &[(usize, String)]) -> String {
    let widest = |column: fn(&Row) -> usize| rows.iter().map(column).max().unwrap_or(0);
    let input_width = widest(|row| row.input.len()).max("input".len());
    let output_width = widest(|row| row.output.len()).max("output".len());
    let number_width = rows.len().to_string().len();
    let line = |number: &str, input: &str, output: &str, meaning: &str| {
        format!(
            "{number:>number_width$}  {input:input_width$}  {output:output_width$}  {meaning}\n"
        )
    };
    let mut text = line("", "input", "output", "meaning");
    let mut remarks = remarks.iter().peekable();
    for (number, row) in (1..).zip(rows) {
        while let Some((_, remark)) = remarks.next_if(|(before, _)| *before <= row.at) {
            text += &format!("# {remark}\n");
        }
        text += &line(&number.to_string(), &row.input, &row.output, &row.meaning);
    }
    text.extend(remarks.map(|(_, remark)| format!("# {remark}\n")));
    text
}
