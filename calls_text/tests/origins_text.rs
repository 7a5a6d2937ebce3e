//! Texts of the form with origins: its words, and the line that says the form.

mod common;

use calls_text::kinds::{Form, ORIGINS_KINDS};
use calls_text::text::{parse, text};
use common::parsed;
use model::program::encode;

fn errors(text: &str) -> String {
    parse("x.txt", text).expect_err("bad text").join("\n")
}

#[test]
fn words_of_the_form_with_origins() {
    let text = "# remark\n\n  origins  # the form\nmap 1 2 3 4\npoint 5 6\ncopy 7 8\nlive 9 0xa\nrecord 11 12\nrecord_literal 13 14\nvalid_read 15 16 17\nremove 18\n";
    let read = parsed("x", text);
    assert_eq!(read.form, Form::Origins);
    let records = [
        encode(1, &[1, 2, 3, 4]),
        encode(11, &[5, 6]),
        encode(12, &[7, 8]),
        encode(13, &[9, 10]),
        encode(2, &[11, 12]),
        encode(14, &[13, 14]),
        encode(15, &[15, 16, 17]),
        encode(16, &[18]),
    ];
    assert_eq!(read.file, records.concat());
    let alone = parsed("x", "origins");
    assert_eq!((alone.form, alone.file.len()), (Form::Origins, 0));
    assert_eq!(parsed("x", "audit").form, Form::Plain);
    assert_eq!(parsed("x", "# origins\naudit").form, Form::Plain);
}

#[test]
fn the_form_is_said_first() {
    let first = "is a word of the form with origins: write `origins` on a line before all others";
    for word in ["point 1 2", "copy 1 2", "live 1 2", "point"] {
        let name = word.split(' ').next().expect("a word");
        assert_eq!(errors(word), format!("x.txt:1: `{name}` {first}"));
    }
    let nowhere = "`origins` stands alone on the first line, or nowhere";
    assert_eq!(errors("audit\norigins"), format!("x.txt:2: {nowhere}"));
    assert_eq!(errors("origins\norigins"), format!("x.txt:2: {nowhere}"));
    assert_eq!(errors("origins 1"), format!("x.txt:1: {nowhere}"));
    assert_eq!(
        errors("origins\npoint 8192"),
        "x.txt:2: point takes 2 numbers (cell, address), got 1"
    );
    assert_eq!(
        errors("origins\nlive 8192 x"),
        "x.txt:2: live, address: `x` is no number (decimal, or hexadecimal after 0x)"
    );
    let words = "map, record, free, written, ask, valid, initialised, next, audit, record_written, record_literal, valid_read, remove, point, copy, live, raw";
    assert_eq!(
        errors("origins\npiont 1 2"),
        format!("x.txt:2: unknown word `piont`; the words are {words}")
    );
}

#[test]
fn kinds_of_the_other_form_do_not_decode() {
    for kind in ORIGINS_KINDS {
        let file = encode(kind.number, &[1, 2]);
        let (_, stop) = text(Form::Plain, &file);
        let why = stop.expect("no plain kind").why;
        assert_eq!(why, format!("kind {} is unknown", kind.number));
        let (written, none) = text(Form::Origins, &file);
        assert_eq!(written, format!("origins\n{} 1 2\n", kind.word));
        assert_eq!(none, None);
    }
    let (written, stop) = text(Form::Origins, &encode(17, &[1]));
    assert_eq!(stop.expect("no kind").why, "kind 17 is unknown");
    assert!(written.starts_with("origins\n# record 1 at byte 0 does not decode"));
}
