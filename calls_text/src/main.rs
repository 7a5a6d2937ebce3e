//! The commands over calls files; see [`USAGE`].

use std::io::{self, Read, Write};
use std::process::ExitCode;

use calls_text::kinds::{Form, Kind, KINDS, ORIGINS_KINDS};
use calls_text::show::show;
use calls_text::text::{parse, text, Parsed};

const USAGE: &str = "\
calls_text encode FILE.txt     text to a calls file, on standard output
calls_text decode FILE         a calls file to text; status 1 if a record does not decode (its bytes are written as they are)
calls_text show FILE OUTPUT    input and output of a run side by side, in words; status 1 if a line cannot be its record's
calls_text form FILE.txt       the form of a text, which tells the program it is for: plain (calls) or origins (calls_origins)
A FILE whose name ends in .txt is text for `show`, any other is a calls file; `-` is standard input. A calls file is of the plain form;
`decode --origins` and `show --origins` take one of the form with origins.

A line of text is a word and its numbers, decimal or hexadecimal after 0x; `#` begins a remark:
";

fn main() -> ExitCode {
    let arguments: Vec<String> = std::env::args().skip(1).collect();
    let words: Vec<&str> = arguments.iter().map(String::as_str).collect();
    let done = match words[..] {
        ["encode", name] => text_file(name).and_then(|parsed| put(&parsed.file)),
        ["decode", name] => decode(Form::Plain, name),
        ["decode", "--origins", name] => decode(Form::Origins, name),
        ["show", name, output] => show_run(Form::Plain, name, output),
        ["show", "--origins", name, output] => show_run(Form::Origins, name, output),
        ["form", name] => text_file(name).and_then(|parsed| {
            let word = parsed.form.word();
            put(format!("{word}\n").as_bytes())
        }),
        ["help" | "--help" | "-h"] => put(usage().as_bytes()),
        _ => {
            eprint!("{}", usage());
            return ExitCode::from(2);
        }
    };
    match done {
        Ok(()) => ExitCode::SUCCESS,
        Err(message) => {
            eprintln!("{message}");
            ExitCode::FAILURE
        }
    }
}

fn usage() -> String {
    let raw = "  raw            bytes as they are, two hexadecimal digits each\n";
    let origins = "A first line `origins` says that the text is for the form with origins, which has these words too:\n";
    [USAGE, &rows(KINDS), raw, origins, &rows(ORIGINS_KINDS)].concat()
}

fn rows(kinds: &[Kind]) -> String {
    let row = |kind: &Kind| {
        let fields = kind.fields.iter().map(|field| field.to_uppercase());
        let fields = fields.collect::<Vec<String>>().join(", ");
        let row = format!("  {:<14} {fields}", kind.word);
        row.trim_end().to_owned() + "\n"
    };
    kinds.iter().map(row).collect()
}

fn decode(form: Form, name: &str) -> Result<(), String> {
    let (text, stop) = text(form, &bytes(name)?);
    put(text.as_bytes())?;
    match stop {
        None => Ok(()),
        Some(stop) => Err(format!("{name}: {}", stop.message())),
    }
}

/// The form is that of a calls file; a text says its own.
fn show_run(form: Form, name: &str, output: &str) -> Result<(), String> {
    let input = if name.ends_with(".txt") {
        text_file(name)?
    } else {
        Parsed {
            form,
            file: calls_file(name)?,
            remarks: Vec::new(),
        }
    };
    let lines = string(output)?;
    let shown = show(&input, &lines);
    put(shown.text.as_bytes())?;
    match shown.wrong {
        0 => Ok(()),
        1 => Err("a line of the output cannot be right, see WRONG above".to_owned()),
        wrong => Err(format!(
            "{wrong} lines of the output cannot be right, see WRONG above"
        )),
    }
}

fn text_file(name: &str) -> Result<Parsed, String> {
    let text = string(name)?;
    if text.contains('\0') {
        return Err(format!("{name}: this is no text; is it a calls file?"));
    }
    parse(name, &text).map_err(|errors| errors.join("\n"))
}

/// A calls file. Each record has a zero byte, so a file that could be text is taken for one that is misnamed.
fn calls_file(name: &str) -> Result<Vec<u8>, String> {
    let file = bytes(name)?;
    let is_text = |text: &str| !text.contains(|c: char| c.is_control() && !c.is_whitespace());
    if file.len() >= 4 && std::str::from_utf8(&file).is_ok_and(is_text) {
        return Err(format!(
            "{name}: this is text; the name of a text of calls ends in .txt"
        ));
    }
    Ok(file)
}

fn string(name: &str) -> Result<String, String> {
    String::from_utf8(bytes(name)?).map_err(|error| {
        let at = error.utf8_error().valid_up_to();
        format!("{name}: this is no text, from byte {at} on")
    })
}

fn bytes(name: &str) -> Result<Vec<u8>, String> {
    let mut bytes = Vec::new();
    let read = match name {
        "-" => io::stdin().read_to_end(&mut bytes).map(|_| bytes),
        _ => std::fs::read(name),
    };
    read.map_err(|error| format!("{name}: {error}"))
}

/// Standard output; a reader that has seen enough is no error.
fn put(bytes: &[u8]) -> Result<(), String> {
    let mut output = io::stdout().lock();
    match output.write_all(bytes).and_then(|()| output.flush()) {
        Err(error) if error.kind() != io::ErrorKind::BrokenPipe => {
            Err(format!("standard output: {error}"))
        }
        _ => Ok(()),
    }
}
