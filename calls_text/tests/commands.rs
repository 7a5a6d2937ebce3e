//! The commands of the tool: what they write, say and end with.

mod common;

use std::io::Write;
use std::path::{Path, PathBuf};
use std::process::{Command, Output, Stdio};

use common::{bytes, repository};

fn tool(arguments: &[&str], input: &[u8]) -> Output {
    let mut command = Command::new(env!("CARGO_BIN_EXE_calls_text"));
    let pipes = command
        .stdin(Stdio::piped())
        .stdout(Stdio::piped())
        .stderr(Stdio::piped());
    let mut child = pipes.args(arguments).spawn().expect("the tool starts");
    let mut pipe = child.stdin.take().expect("a pipe");
    // A tool that reads no input may have ended already.
    drop(pipe.write_all(input));
    drop(pipe);
    child.wait_with_output().expect("the tool ends")
}

fn said(output: &Output) -> String {
    String::from_utf8_lossy(&output.stderr)
        .trim_end()
        .to_owned()
}

fn file(name: &str, bytes: &[u8]) -> PathBuf {
    let path = Path::new(env!("CARGO_TARGET_TMPDIR")).join(name);
    std::fs::write(&path, bytes).expect("a file under target");
    path
}

#[test]
fn encode_and_decode() {
    let worked = repository("examples/calls/worked.txt");
    let encoded = tool(&["encode", &worked.to_string_lossy()], &[]);
    assert!(encoded.status.success());
    assert_eq!(encoded.stdout, bytes("crates/calls/stdin"));
    let decoded = tool(&["decode", "-"], &encoded.stdout);
    assert!(decoded.status.success());
    let again = tool(&["encode", "-"], &decoded.stdout);
    assert_eq!(again.stdout, encoded.stdout);
}

#[test]
fn the_form_with_origins() {
    let stale = repository("examples/calls/stale.txt");
    let stale = stale.to_string_lossy();
    let form = |name: &str| tool(&["form", name], &[]).stdout;
    assert_eq!(form(&stale), b"origins\n");
    let worked = repository("examples/calls/worked.txt");
    assert_eq!(form(&worked.to_string_lossy()), b"plain\n");
    let encoded = tool(&["encode", &stale], &[]);
    assert!(encoded.status.success());
    let decoded = tool(&["decode", "--origins", "-"], &encoded.stdout);
    assert!(decoded.status.success());
    assert!(decoded.stdout.starts_with(b"origins\nmap "));
    let again = tool(&["encode", "-"], &decoded.stdout);
    assert_eq!(again.stdout, encoded.stdout);
    let plainly = tool(&["decode", "-"], &encoded.stdout);
    assert_eq!(plainly.status.code(), Some(1));
    let why = "record 4 at byte 44 does not decode: kind 11 is unknown";
    assert_eq!(said(&plainly), format!("-: {why}"));
    let lines = bytes("examples/calls/stale.expected");
    let calls = file("stale.calls", &encoded.stdout);
    let calls = calls.to_string_lossy();
    for words in [
        &["show", &stale, "-"][..],
        &["show", "--origins", &calls, "-"],
    ] {
        let shown = tool(words, &lines);
        assert!(shown.status.success(), "{}", said(&shown));
        let shown = String::from_utf8(shown.stdout).expect("a table is text");
        assert!(shown.contains("no, not live"), "{shown}");
    }
    assert_eq!(tool(&["show", &calls, "-"], &lines).status.code(), Some(1));
}

#[test]
fn what_does_not_decode_is_said() {
    let output = tool(&["decode", "-"], &[4, 0, 9, 0, 12, 0]);
    let message = "record 2 at byte 4 does not decode: the file ends after 2 of the 4 bytes that each record has";
    assert_eq!(output.status.code(), Some(1));
    assert_eq!(said(&output), format!("-: {message}"));
    assert_eq!(
        output.stdout,
        format!("audit\n# {message}\nraw 0c 00\n").as_bytes()
    );
}

#[test]
fn bad_text_is_said_and_nothing_written() {
    let output = tool(&["encode", "-"], b"audit\nrecord 4104\n");
    assert_eq!(output.status.code(), Some(1));
    assert_eq!(
        said(&output),
        "-:2: record takes 2 numbers (base, length), got 1"
    );
    assert!(output.stdout.is_empty());
}

#[test]
fn show_tells_right_from_wrong() {
    let input = repository("crates/calls/stdin");
    let input = input.to_string_lossy();
    let right = tool(&["show", &input, "-"], &bytes("crates/calls/stdout"));
    assert!(right.status.success(), "{}", said(&right));
    let wrong = tool(&["show", &input, "-"], b"1 0\n");
    assert_eq!(wrong.status.code(), Some(1));
    assert_eq!(
        said(&wrong),
        "14 lines of the output cannot be right, see WRONG above"
    );
}

#[test]
fn misnamed_files_are_said() {
    let text = file("misnamed.calls", b"audit\n");
    let text = text.to_string_lossy();
    let calls = file("misnamed.txt", &bytes("crates/calls/stdin"));
    let calls = calls.to_string_lossy();
    for (name, message) in [
        (
            &text,
            "this is text; the name of a text of calls ends in .txt",
        ),
        (&calls, "this is no text; is it a calls file?"),
    ] {
        let output = tool(&["show", name, "-"], b"9 1\n");
        assert_eq!(output.status.code(), Some(1));
        assert_eq!(said(&output), format!("{name}: {message}"));
    }
}

#[test]
fn no_such_file_and_no_such_command() {
    let output = tool(&["encode", "nowhere.txt"], &[]);
    assert_eq!(output.status.code(), Some(1));
    assert!(
        said(&output).starts_with("nowhere.txt: "),
        "{}",
        said(&output)
    );
    for words in [
        &[][..],
        &["encode"],
        &["walk", "x"],
        &["show", "x"],
        &["decode", "--plain", "x"],
    ] {
        let output = tool(words, &[]);
        assert_eq!(output.status.code(), Some(2));
        assert!(said(&output).starts_with("calls_text encode FILE.txt"));
    }
    assert!(tool(&["help"], &[]).status.success());
}
