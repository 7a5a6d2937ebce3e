//! Text to a calls file and back, and the messages for bad text.

mod common;

use calls_text::kinds::{Form, KINDS, ORIGINS_KINDS};
use calls_text::records::Stop;
use calls_text::text::{parse, text};
use common::{bytes, calls, examples, parsed};
use model::generate::file::file;
use model::origins::generate::file::file as origins_file;
use model::program::encode;
use model::random::Random;
use model::recorded::RUNS;

fn errors(text: &str) -> String {
    parse("x.txt", text).expect_err("bad text").join("\n")
}

fn stop(file: &[u8]) -> Stop {
    text(Form::Plain, file)
        .1
        .expect("a file that does not decode")
}

/// A file's text gives the file again, whatever its bytes.
fn round_trip(form: Form, file: &[u8]) -> String {
    let (written, _) = text(form, file);
    let again = parsed("round trip", &written);
    assert_eq!(again.file, file, "{written}");
    assert_eq!(again.form, form, "{written}");
    written
}

#[test]
fn each_word_is_its_record() {
    let file = calls("x", "map 1 2 3 4\nrecord 5 6\nfree 7\nwritten 8 9\nask 10\nvalid 11 12 13\ninitialised 14 15\nnext 16\naudit\nrecord_written 17 18\nrecord_literal 19 20\nvalid_read 21 22 23\nremove 24");
    let mut expected = encode(1, &[1, 2, 3, 4]);
    expected.extend(encode(2, &[5, 6]));
    expected.extend(encode(3, &[7]));
    expected.extend(encode(4, &[8, 9]));
    expected.extend(encode(5, &[10]));
    expected.extend(encode(6, &[11, 12, 13]));
    expected.extend(encode(7, &[14, 15]));
    expected.extend(encode(8, &[16]));
    expected.extend(encode(9, &[]));
    expected.extend(encode(10, &[17, 18]));
    expected.extend(encode(14, &[19, 20]));
    expected.extend(encode(15, &[21, 22, 23]));
    expected.extend(encode(16, &[24]));
    assert_eq!(file, expected);
}

#[test]
fn numbers_remarks_and_bytes() {
    let file = calls(
        "x",
        "\n# all\r\n  free 0x1008  # hexadecimal\n\tfree 4294967295\r\nraw 0C 00 ff#bytes\n\n",
    );
    assert_eq!(
        file,
        [8, 0, 3, 0, 8, 16, 0, 0, 8, 0, 3, 0, 255, 255, 255, 255, 12, 0, 255]
    );
    assert!(calls("x", "# only a remark").is_empty());
    assert!(calls("x", "").is_empty());
}

#[test]
fn messages_name_file_and_line() {
    assert_eq!(
        errors("audit\n\nrecord 4104"),
        "x.txt:3: record takes 2 numbers (base, length), got 1"
    );
    assert_eq!(
        errors("record_written 8192"),
        "x.txt:1: record_written takes 2 numbers (base, length), got 1"
    );
    assert_eq!(
        errors("record_literal 8192 4 0"),
        "x.txt:1: record_literal takes 2 numbers (base, length), got 3"
    );
    assert_eq!(
        errors("valid_read 8192 4"),
        "x.txt:1: valid_read takes 3 numbers (address, n, from), got 2"
    );
    for word in ["free", "remove"] {
        let expected = format!("x.txt:1: {word} takes 1 number (base), got 0");
        assert_eq!(errors(word), expected);
    }
    assert_eq!(
        errors("audit 1 2"),
        "x.txt:1: audit takes no numbers, got 2"
    );
    assert_eq!(
        errors("map 1 2 3"),
        "x.txt:1: map takes 4 numbers (heap start, heap size, stack start, stack size), got 3"
    );
    assert_eq!(
        errors("# x\nrecrod 1 2"),
        "x.txt:2: unknown word `recrod`; the words are map, record, free, written, ask, valid, initialised, next, audit, record_written, record_literal, valid_read, remove, raw"
    );
    assert_eq!(
        errors("ask 4294967296"),
        "x.txt:1: ask, address: 4294967296 is out of range (0 to 4294967295)"
    );
    assert_eq!(
        errors("ask 0x100000000"),
        "x.txt:1: ask, address: 0x100000000 is out of range (0 to 4294967295)"
    );
    assert_eq!(
        errors("ask -1"),
        "x.txt:1: ask, address: -1 is out of range (0 to 4294967295)"
    );
    for word in ["12a", "0x", "0xg", "+1", "1,000", "-", "٣"] {
        let expected = format!(
            "x.txt:1: written, n: `{word}` is no number (decimal, or hexadecimal after 0x)"
        );
        assert_eq!(errors(&format!("written 1 {word}")), expected);
    }
    assert_eq!(
        errors("raw"),
        "x.txt:1: raw takes bytes, two hexadecimal digits each"
    );
    for word in ["0", "0x1", "123", "gg", "+1", "é"] {
        let expected = format!("x.txt:1: raw: `{word}` is no byte (two hexadecimal digits)");
        assert_eq!(errors(&format!("raw 00 {word}")), expected);
    }
}

#[test]
fn every_bad_line_has_its_message() {
    assert_eq!(errors("ask\naudit\nfoo\nraw").lines().count(), 3);
}

#[test]
fn back_to_text() {
    let written = "map 4096 64 8192 32\nrecord 4104 20\nfree 4104\nwritten 1 2\nask 3\nvalid 4 5 6\ninitialised 7 8\nnext 9\naudit\nrecord_written 10 11\nrecord_literal 12 13\nvalid_read 14 15 16\nremove 17\n";
    let plain = |file: &[u8]| text(Form::Plain, file);
    assert_eq!(plain(&calls("x", written)), (written.to_owned(), None));
    assert_eq!(plain(&[]), (String::new(), None));
}

#[test]
fn what_does_not_decode_is_named() {
    let mut file = encode(9, &[]);
    file.extend(encode(3, &[4104]));
    let whole = file.len();
    let why = |more: &[u8]| {
        let stop = stop(&[&file, more].concat());
        assert_eq!((stop.record, stop.at), (3, whole));
        stop.message()
    };
    let message = |why: &str| format!("record 3 at byte 12 does not decode: {why}");
    assert_eq!(
        why(&[12]),
        message("the file ends after 1 of the 4 bytes that each record has")
    );
    assert_eq!(why(&[12, 0, 2, 1]), message("kind 258 is unknown"));
    assert_eq!(
        why(&encode(2, &[1])),
        message("its length is 8, that of record is 12")
    );
    assert_eq!(
        why(&encode(10, &[1, 2, 3])),
        message("its length is 16, that of record_written is 12")
    );
    assert_eq!(
        why(&encode(14, &[1])),
        message("its length is 8, that of record_literal is 12")
    );
    assert_eq!(
        why(&encode(15, &[1, 2])),
        message("its length is 12, that of valid_read is 16")
    );
    assert_eq!(why(&encode(11, &[1, 2])), message("kind 11 is unknown"));
    assert_eq!(
        why(&encode(16, &[1, 2])),
        message("its length is 12, that of remove is 8")
    );
    assert_eq!(why(&encode(17, &[1])), message("kind 17 is unknown"));
    assert_eq!(
        why(&[12, 0, 2, 0, 7]),
        message("the file ends after 5 of its 12 bytes")
    );
    let (written, _) = text(Form::Plain, &[&file[..], &[12, 0, 2, 0, 7]].concat());
    let remark = "# record 3 at byte 12 does not decode: the file ends after 5 of its 12 bytes";
    assert_eq!(
        written,
        format!("audit\nfree 4104\n{remark}\nraw 0c 00 02 00 07\n")
    );
}

#[test]
fn every_file_has_a_text() {
    for form in [Form::Plain, Form::Origins] {
        for (_, file) in examples(Form::Plain)
            .into_iter()
            .chain(examples(Form::Origins))
        {
            for end in 0..=file.len() {
                round_trip(form, &file[..end]);
            }
        }
        for name in RUNS {
            round_trip(form, &bytes(&format!("model/tests/data/{name}.calls")));
        }
        for seed in 0..300 {
            println!("seed {seed}");
            let mut random = Random::new(seed);
            round_trip(form, &file(&mut random, 60));
            round_trip(form, &origins_file(&mut random, 60));
            let noise: Vec<u8> = (0..random.below(80))
                .map(|_| random.number() as u8)
                .collect();
            round_trip(form, &noise);
        }
    }
}

#[test]
fn a_text_without_bytes_comes_back() {
    for (form, head) in [(Form::Plain, ""), (Form::Origins, "origins\n")] {
        let kinds: Vec<_> = form.kinds().collect();
        for seed in 0..300 {
            let mut random = Random::new(seed);
            let mut lines = head.to_owned();
            for _ in 0..random.below(30) {
                let kind = random.pick(&kinds);
                let fields: String = kind
                    .fields
                    .iter()
                    .map(|_| format!(" {}", random.word()))
                    .collect();
                lines += &format!("{}{fields}\n", kind.word);
            }
            let file = parsed("x", &lines).file;
            assert_eq!(round_trip(form, &file), lines, "seed {seed}");
        }
    }
}

/// The texts that README shows are good, and have every word of their form.
#[test]
fn the_texts_of_the_readme() {
    let readme = String::from_utf8(bytes("README.md")).expect("README is text");
    let (_, section) = readme.split_once("## Calls as text").expect("its section");
    let plain = KINDS.iter().map(|kind| kind.word).chain(["raw"]);
    let more = ORIGINS_KINDS.iter().map(|kind| kind.word);
    let forms = [
        (Form::Plain, plain.collect::<Vec<&str>>()),
        (Form::Origins, more.collect()),
    ];
    for (block, (form, words)) in section.split("```").skip(1).step_by(2).zip(forms) {
        assert_eq!(parsed("README", block).form, form);
        for word in words {
            let begins = |line: &str| line.split(' ').next() == Some(word);
            assert!(block.lines().any(begins), "README does not show {word}");
        }
    }
}

/// The tables of kinds against the models' own.
#[test]
fn kinds_and_lengths_are_the_models() {
    for number in 0..=u16::MAX {
        for fields in 0..8 {
            let record = encode(number, &vec![4104; fields]);
            let decodes = |form| text(form, &record).1.is_none();
            let plain = model::program::decode(&record).is_some();
            let origins = model::origins::program::decode(&record).is_some();
            assert_eq!(
                decodes(Form::Plain),
                plain,
                "kind {number}, {fields} fields"
            );
            assert_eq!(
                decodes(Form::Origins),
                origins,
                "kind {number}, {fields} fields"
            );
        }
    }
}
