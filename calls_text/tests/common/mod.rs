//! What several test files share: the places of the files, and runs of the program with a deadline.
#![allow(dead_code)]

use std::fs::File;
use std::io::{Read, Write};
use std::path::{Path, PathBuf};
use std::process::{Child, ChildStdin, Command, ExitStatus, Stdio};
use std::sync::mpsc::channel;
use std::thread;
use std::time::{Duration, Instant};

use calls_text::kinds::Form;
use calls_text::records::{records, Record};
use calls_text::show::{show, Shown};
use calls_text::text::{parse, Parsed};
use model::program::encode;
use model::recorded::{lines_with_removals, with_removals};

/// A guard against a program that never ends, far above what any run takes.
pub const DEADLINE: Duration = Duration::from_secs(20);

/// A path of the repository.
pub fn repository(path: &str) -> PathBuf {
    Path::new(env!("CARGO_MANIFEST_DIR")).join("..").join(path)
}

/// The bytes of a file of the repository.
pub fn bytes(path: &str) -> Vec<u8> {
    std::fs::read(repository(path)).unwrap_or_else(|error| panic!("{path}: {error}"))
}

/// The calls file of a text.
pub fn calls(name: &str, text: &str) -> Vec<u8> {
    parsed(name, text).file
}

/// A text taken in, with its form.
pub fn parsed(name: &str, text: &str) -> Parsed {
    parse(name, text).unwrap_or_else(|errors| panic!("{}", errors.join("\n")))
}

/// The table of a text and an output.
pub fn shown(text: &str, output: &str) -> Shown {
    show(&parsed("x", text), output)
}

/// The meaning of one line as the line of one record.
pub fn meaning(record: &str, line: &str) -> String {
    let shown = shown(record, line);
    assert_eq!(shown.wrong, 0, "{}", shown.text);
    let row = shown.text.lines().nth(1).expect("a row");
    let (_, meaning) = row.split_once(&format!("  {line}  ")).expect("the line");
    meaning.trim().to_owned()
}

/// Names and calls files of the examples of a form.
pub fn examples(form: Form) -> Vec<(String, Vec<u8>)> {
    let folder = std::fs::read_dir(repository("examples/calls")).expect("examples/calls");
    let paths = folder.map(|entry| entry.expect("an entry of examples/calls").path());
    let mut texts: Vec<PathBuf> = paths
        .filter(|path| path.extension().is_some_and(|e| e == "txt"))
        .collect();
    texts.sort();
    assert!(!texts.is_empty(), "examples/calls has no text");
    let example = |path: &PathBuf| {
        let name = path
            .file_stem()
            .expect("a name")
            .to_string_lossy()
            .into_owned();
        let parsed = example_text(&name);
        (parsed.form == form).then_some((name, parsed.file))
    };
    texts.iter().filter_map(example).collect()
}

/// The calls file of one example.
pub fn example(name: &str) -> Vec<u8> {
    example_text(name).file
}

fn example_text(name: &str) -> Parsed {
    let path = format!("examples/calls/{name}.txt");
    let text = String::from_utf8(bytes(&path)).expect("examples are text");
    parsed(&path, &text)
}

/// A recorded run with remove for each free of a stack address, which free refuses since S-7, and the lines of it.
pub fn recorded(name: &str) -> (Vec<u8>, Vec<u8>) {
    let file = |end: &str| bytes(&format!("model/tests/data/{name}.{end}"));
    let (calls, lines) = (file("calls"), file("expected"));
    (with_removals(&calls), lines_with_removals(&calls, &lines))
}

/// The program under test; `CALLS_PROGRAM`, and `CALLS_ORIGINS_PROGRAM` for the form with origins, name another one.
pub fn program(form: Form) -> PathBuf {
    let (variable, name) = match form {
        Form::Plain => ("CALLS_PROGRAM", "calls"),
        Form::Origins => ("CALLS_ORIGINS_PROGRAM", "calls_origins"),
    };
    let named = std::env::var_os(variable).map(PathBuf::from);
    let path = named.unwrap_or_else(|| repository("target/bin").join(name));
    assert!(
        path.is_file(),
        "{} is missing: `rt check {name}` builds it",
        path.display()
    );
    path
}

/// What the model of the form prints.
pub fn model_run(form: Form, input: &[u8]) -> Vec<u8> {
    match form {
        Form::Plain => model::program::run(input),
        Form::Origins => model::origins::program::run(input),
    }
}

/// Compares the program with the model; the model's output is returned.
pub fn as_the_model(form: Form, what: &str, input: &[u8]) -> Vec<u8> {
    let expected = model_run(form, input);
    assert_lines(what, &piped(form, input), &expected);
    expected
}

/// Compares the program with an example's stored output, from a file and through a pipe.
pub fn as_stored(form: Form, name: &str, file: &[u8]) {
    let expected = bytes(&format!("examples/calls/{name}.expected"));
    let output = from_file(form, &format!("{name}.calls"), file);
    assert_lines(name, &output, &expected);
    assert_lines(name, &piped(form, file), &expected);
}

/// A record with this length and kind, and so many bytes after the two.
fn odd_record(length: u16, kind: u16, body: usize) -> Vec<u8> {
    let mut record = length.to_le_bytes().to_vec();
    record.extend(kind.to_le_bytes());
    // Bytes that would make good fields and good records.
    record.extend([8, 16, 0, 0, 4, 0, 9, 0].iter().cycle().take(body));
    record
}

/// After a map and a block, an odd record, with the audit behind it that must not be read.
pub fn ends_with_nine(form: Form, length: u16, kind: u16, body: usize) {
    let mut input = encode(1, &[4096, 64, 8192, 32]);
    input.extend(encode(2, &[4104, 20]));
    input.extend(odd_record(length, kind, body));
    input.extend(encode(9, &[]));
    let what = format!("length {length}, kind {kind}, {body} bytes");
    let expected = as_the_model(form, &what, &input);
    assert_eq!(expected, b"1 0\n2 0\n9\n", "{what}");
}

/// Lengths near that of a kind, and far from it, with bytes enough and with just as many as are told.
pub fn no_other_length(form: Form, kind: u16, right: u16) {
    let near = [
        right - 4,
        right - 1,
        right + 1,
        right + 4,
        right + 256,
        right << 8,
    ];
    for length in near.into_iter().chain([0, 1, 2, 3, 5, 65_535]) {
        ends_with_nine(form, length, kind, 32);
        let told = usize::from(length).saturating_sub(4);
        ends_with_nine(form, length, kind, told);
    }
}

/// A calls file with every kind, cut at every byte.
pub fn cut_at_every_byte(form: Form, name: &str) {
    let file = example(name);
    let (records, _) = records(form, &file);
    for kind in form.kinds() {
        let has = |record: &Record| record.kind.number == kind.number;
        assert!(records.iter().any(has), "{name}.txt has no {}", kind.word);
    }
    for end in 0..=file.len() {
        let what = format!("{name} cut after {end} bytes");
        as_the_model(form, &what, &file[..end]);
    }
}

/// How a run ended, and all that it wrote.
pub struct Ran {
    pub status: ExitStatus,
    pub output: Vec<u8>,
}

/// The output on an input that stands in a file.
pub fn from_file(form: Form, name: &str, input: &[u8]) -> Vec<u8> {
    let path = Path::new(env!("CARGO_TARGET_TMPDIR")).join(name);
    std::fs::write(&path, input).expect("a file under target");
    let file = File::open(&path).expect("the file just written");
    let ran = run(Command::new(program(form)).stdin(file), DEADLINE, |_| ());
    std::fs::remove_file(&path).expect("the file just written");
    assert!(ran.status.success(), "{name}: {}", ran.status);
    ran.output
}

/// The output on an input that comes through a pipe, written by `feed`.
pub fn through_pipe(form: Form, feed: impl FnOnce(ChildStdin) + Send + 'static) -> Vec<u8> {
    let ran = run(
        Command::new(program(form)).stdin(Stdio::piped()),
        DEADLINE,
        |child| {
            let input = child.stdin.take().expect("a pipe");
            thread::spawn(move || feed(input));
        },
    );
    assert!(ran.status.success(), "{}", ran.status);
    ran.output
}

/// The same with all of the input at once; a program that has seen enough closes it early.
pub fn piped(form: Form, input: &[u8]) -> Vec<u8> {
    let input = input.to_vec();
    through_pipe(form, move |mut pipe| drop(pipe.write_all(&input)))
}

/// Starts a command, does something with it, and waits for its output and its end.
pub fn run(command: &mut Command, deadline: Duration, then: impl FnOnce(&mut Child)) -> Ran {
    let mut child = command
        .stdout(Stdio::piped())
        .spawn()
        .expect("the program starts");
    let mut stdout = child.stdout.take().expect("a pipe");
    let (send, received) = channel();
    thread::spawn(move || {
        let mut output = Vec::new();
        let read = stdout.read_to_end(&mut output);
        send.send(read.map(|_| output))
    });
    then(&mut child);
    let begun = Instant::now();
    let Ok(output) = received.recv_timeout(deadline) else {
        child.kill().expect("a running program");
        panic!("the program still writes, or keeps its output open, after {deadline:?}");
    };
    let left = deadline.saturating_sub(begun.elapsed());
    let status = end(&mut child, left);
    let output = output.expect("output of the program");
    Ran { status, output }
}

/// Waits for the end of a program, and ends it where it does not.
pub fn end(child: &mut Child, deadline: Duration) -> ExitStatus {
    let begun = Instant::now();
    loop {
        if let Some(status) = child.try_wait().expect("a program of this test") {
            return status;
        }
        if begun.elapsed() > deadline {
            child.kill().expect("a running program");
            panic!("the program does not end within {deadline:?}");
        }
        thread::sleep(Duration::from_millis(1));
    }
}

/// Compares outputs; where they differ the first line that does is named.
pub fn assert_lines(what: &str, output: &[u8], expected: &[u8]) {
    if output == expected {
        return;
    }
    let (output, expected) = (
        String::from_utf8_lossy(output),
        String::from_utf8_lossy(expected),
    );
    let mut theirs = expected.split('\n');
    for (number, line) in (1..).zip(output.split('\n')) {
        let other = theirs.next();
        assert_eq!(
            Some(line),
            other,
            "{what}: line {number} of the output, then the expected one"
        );
    }
    panic!(
        "{what}: the output ends before the expected line {:?}",
        theirs.next()
    );
}
