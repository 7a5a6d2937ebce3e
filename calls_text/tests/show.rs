//! Input beside output: what each line means, and lines that cannot be right.

mod common;

use calls_text::kinds::{Form, KINDS, ORIGINS_KINDS};
use calls_text::refusals::refusal;
use calls_text::show::show;
use calls_text::text::Parsed;
use common::{bytes, examples, meaning, recorded, shown};
use model::recorded::RUNS;

#[test]
fn accepted_lines() {
    assert_eq!(
        meaning("map 4096 64 8192 32", "1 0"),
        "accepted: heap 4096 to 4159, stack 8192 to 8223, no block"
    );
    assert_eq!(
        meaning("record 4104 20", "2 0"),
        "recorded: a block at 4104 of 20 bytes"
    );
    assert_eq!(meaning("free 4104", "3 0"), "freed: the heap block at 4104");
    assert_eq!(
        meaning("free 0", "3 0"),
        "nothing freed: address 0 is the null pointer"
    );
    assert_eq!(
        meaning("written 4108 6", "4 0"),
        "marked as written: 4108 to 4113"
    );
    assert_eq!(
        meaning("ask 4113", "5 0 4104 20 9 1"),
        "in the block at 4104 of 20 bytes, offset 9, written"
    );
    assert_eq!(
        meaning("ask 8205", "5 0 8205 1 0 0"),
        "in the block at 8205 of 1 byte, offset 0, not written"
    );
    assert_eq!(
        meaning("valid 8200 6 8195", "6 0 1"),
        "yes, in one block that may be written: 8200 to 8205 and 8195"
    );
    assert_eq!(
        meaning("valid 8193 4294967295 1", "6 0 0"),
        "no, not in one block, or in a literal: 8193 to 4294975487 and 1"
    );
    assert_eq!(
        meaning("initialised 5 2", "7 0 1"),
        "yes, in one block and all written: 5 to 6"
    );
    assert_eq!(
        meaning("initialised 5 1", "7 0 0"),
        "no, not in one block or not all written: 5"
    );
    assert_eq!(
        meaning("next 4105", "8 0 4136 4"),
        "the first block from 4105 on: at 4136 of 4 bytes"
    );
    assert_eq!(
        meaning("audit", "9 0 2 1 35 6"),
        "2 heap blocks, 1 stack block, 35 live bytes, 6 of them written"
    );
    assert_eq!(
        meaning("record_written 8192 3", "10 0"),
        "recorded: a block at 8192 of 3 bytes, all written"
    );
}

#[test]
fn refused_lines() {
    assert_eq!(
        meaning("record 4128 4", "2 6"),
        "refused by 6: some shadow byte of the place is not zero"
    );
    for (line, said) in [
        ("10 3", "the length is 0"),
        (
            "10 4",
            "base in neither area, or the block or its header does not fit there",
        ),
        ("10 5", "a heap base must be a multiple of 8"),
        ("10 6", "some shadow byte of the place is not zero"),
    ] {
        let number = &line[3..];
        let expected = format!("refused by {number}: {said}");
        assert_eq!(meaning("record_written 4128 4", line), expected);
    }
    assert_eq!(meaning("ask 4124", "5 7"), "refused by 7: no block there");
    assert_eq!(
        meaning("free 4105", "3 7"),
        "refused by 7: no block has this base"
    );
    assert_eq!(meaning("free 0", "3 1"), "refused by 1: no good map yet");
    assert_eq!(
        meaning("free 1", "3 4"),
        "refused by 4: address in neither area"
    );
    assert_eq!(
        meaning("map 0 0 0 0", "1 1"),
        "refused by 1: the map breaks a rule; the one before stays"
    );
    assert_eq!(meaning("audit", "9 1"), "refused by 1: no good map yet");
    assert_eq!(
        refusal(Form::Plain, "ask", 77),
        "refused by 77: no number of this call"
    );
}

#[test]
fn an_undecodable_record() {
    assert_eq!(
        meaning("raw 04 00 00 01", "9"),
        "undecodable, the run ends: kind 256 is unknown"
    );
    let long = shown("raw 00 01 02 03 04 05 06 07 08 09", "9\n").text;
    assert!(
        long.contains("raw 00 01 02 03 04 05 06 07 ..  9 "),
        "{long}"
    );
}

#[test]
fn lines_that_cannot_be_right() {
    for (text, output) in [
        ("ask 1", ""),
        ("ask 1", "9\n"),
        ("ask 1", "5\n"),
        ("ask 1", "6 7\n"),
        ("ask 1", "5 0\n"),
        ("ask 1", "5 7 0\n"),
        ("ask 1", "5 0 1 2 3 4 5\n"),
        ("ask 1", "5 x\n"),
        ("ask 1", "5  7\n"),
        ("ask 1", "5 7\n5 7\n"),
        ("record_written 8192 3", "2 0\n"),
        ("record_written 8192 3", "10 0 1\n"),
        ("record_literal 8192 3", "10 0\n"),
        ("record_literal 8192 3", "14 0 1\n"),
        ("valid_read 8192 3 8192", "6 0 1\n"),
        ("valid_read 8192 3 8192", "15 0\n"),
        ("remove 8192", "3 0\n"),
        ("remove 8192", "16 0 1\n"),
        ("free 8192", "16 0\n"),
        ("", "9\n"),
        ("raw 00", ""),
        ("raw 00", "9 1\n"),
        ("raw 00", "9\n9\n"),
    ] {
        let shown = shown(text, output);
        assert_eq!(shown.wrong, 1, "{text} with {output:?}:\n{}", shown.text);
        assert_eq!(shown.text.matches("WRONG").count(), 1);
    }
}

#[test]
fn remarks_stand_before_their_records() {
    let text = shown(
        "# one\nask 1 # beside\n# two\n# three\naudit\n# end",
        "5 1\n9 1\n",
    )
    .text;
    let lines: Vec<&str> = text.lines().map(str::trim).collect();
    let starts = [
        "input", "# one", "1  ask 1", "# two", "# three", "2  audit", "# end",
    ];
    assert_eq!(lines.len(), starts.len(), "{text}");
    for (line, start) in lines.iter().zip(starts) {
        assert!(line.starts_with(start), "{text}");
    }
}

/// No stored output has a line without a meaning, so every number that arises has its words.
#[test]
fn every_stored_output_has_meanings() {
    for form in [Form::Plain, Form::Origins] {
        for (name, file) in examples(form) {
            let lines = bytes(&format!("examples/calls/{name}.expected"));
            has_meanings(form, &name, file, lines);
        }
    }
    for name in RUNS {
        let (file, lines) = recorded(name);
        has_meanings(Form::Plain, name, file, lines);
    }
}

fn has_meanings(form: Form, name: &str, file: Vec<u8>, lines: Vec<u8>) {
    let output = String::from_utf8(lines).expect("lines are text");
    let remarks = Vec::new();
    let input = Parsed {
        form,
        file,
        remarks,
    };
    let shown = show(&input, &output);
    assert_eq!(shown.wrong, 0, "{name}:\n{}", shown.text);
    assert!(!shown.text.contains("no number of this call"), "{name}");
}

#[test]
fn words_and_numbers_are_told_apart() {
    for (place, kind) in Form::Origins.kinds().enumerate() {
        let same = |other: &&calls_text::kinds::Kind| {
            other.word == kind.word || other.number == kind.number
        };
        assert_eq!(Form::Origins.kinds().filter(same).count(), 1, "row {place}");
    }
    assert_eq!(KINDS.len() + ORIGINS_KINDS.len(), 16);
}

#[test]
fn lines_of_the_form_with_origins() {
    for (record, line, said) in [
        (
            "point 8192 4104",
            "11 0",
            "set: the pointer at 8192, to the block of 4104 if there is one",
        ),
        (
            "copy 8196 8192",
            "12 0",
            "set: the pointer at 8196, as the one at 8192",
        ),
        (
            "live 8192 4104",
            "13 0 1",
            "yes, live and holds 4104: what the pointer at 8192 was set to",
        ),
        (
            "live 8192 4104",
            "13 0 0",
            "no, not live or does not hold 4104: what the pointer at 8192 was set to",
        ),
        ("live 8192 4104", "13 1", "refused by 1: no good map yet"),
        (
            "point 0 4104",
            "11 4",
            "refused by 4: the pointer's cell is in neither area",
        ),
        (
            "copy 0 4104",
            "12 4",
            "refused by 4: a pointer's cell is in neither area",
        ),
        (
            "live 8192 4104",
            "13 8",
            "refused by 8: a reading is damaged",
        ),
        (
            "point 8193 0",
            "11 11",
            "refused by 11: the pointer's cell is no multiple of 4, or its four bytes are not in one block",
        ),
        (
            "copy 8193 0",
            "12 11",
            "refused by 11: a pointer's cell is no multiple of 4, or its four bytes are not in one block",
        ),
        (
            "record 8193 1",
            "2 5",
            "refused by 5: a base must be a multiple of 4, a heap base of 8",
        ),
        (
            "record_written 8192 1",
            "10 12",
            "refused by 12: the counter is outside 1 to 4294967295: no origin is left",
        ),
        (
            "record_literal 8193 1",
            "14 5",
            "refused by 5: a base must be a multiple of 4, a heap base of 8",
        ),
        (
            "record_literal 8192 1",
            "14 12",
            "refused by 12: the counter is outside 1 to 4294967295: no origin is left",
        ),
        (
            "valid_read 8192 2 8193",
            "15 0 1",
            "yes, in one block: 8192 to 8193 and 8193",
        ),
    ] {
        assert_eq!(meaning(&format!("origins\n{record}"), line), said);
    }
    let wrong = shown("origins\nlive 8192 4104", "13 0\n");
    assert_eq!(wrong.wrong, 1, "{}", wrong.text);
}
