//! The calls program on stored examples, on files cut at every byte, and on records that do not decode.

mod common;

use calls_text::kinds::{Form, KINDS};
use common::{
    as_stored, as_the_model, assert_lines, bytes, ends_with_nine, examples, from_file,
    no_other_length, piped, recorded,
};
use model::notation::Example;
use model::recorded::RUNS;

const FORM: Form = Form::Plain;

#[test]
fn stored_examples() {
    for (name, file) in examples(FORM) {
        as_stored(FORM, &name, &file);
    }
}

/// With remove for free of stack addresses the lines are those that were recorded; as recorded, those of the model.
#[test]
fn traces() {
    for name in RUNS {
        let (calls, expected) = recorded(name);
        assert_lines(
            name,
            &from_file(FORM, &format!("{name}.calls"), &calls),
            &expected,
        );
        assert_lines(name, &piped(FORM, &calls), &expected);
        let before = bytes(&format!("model/tests/data/{name}.calls"));
        as_the_model(FORM, &format!("{name} as recorded"), &before);
    }
}

/// Inputs with the output that the specification gives for them.
#[test]
fn stated_examples() {
    for (name, least) in [
        ("open-points.txt", 16),
        ("record-written.txt", 16),
        ("free-null.txt", 21),
        ("literals-open-points.txt", 4),
        ("literals.txt", 24),
        ("remove.txt", 21),
    ] {
        let text = String::from_utf8(bytes(&format!("model/tests/data/{name}"))).expect("text");
        let mut runs = 0;
        for (remark, line, example) in model::notation::examples(&text) {
            if let Example::Run { input, output } = example {
                assert_lines(&format!("{remark} {line}"), &piped(FORM, &input), &output);
                runs += 1;
            }
        }
        assert!(runs >= least, "only {runs} runs in {name}");
    }
}

#[test]
fn no_input_gives_no_output() {
    assert!(from_file(FORM, "none.calls", &[]).is_empty());
    assert!(piped(FORM, &[]).is_empty());
}

#[test]
fn cut_at_every_byte() {
    common::cut_at_every_byte(FORM, "each-kind");
}

#[test]
fn lengths_of_no_kind() {
    for kind in KINDS {
        no_other_length(FORM, kind.number, kind.length() as u16);
    }
}

#[test]
fn kinds_that_are_none() {
    let known = |kind: u16| KINDS.iter().any(|known| known.number == kind);
    let near = (0..40).chain([255, 32_768, 65_535]);
    let high = KINDS.iter().map(|kind| kind.number << 8);
    let both = KINDS.iter().map(|kind| 256 + kind.number);
    for kind in near.chain(high).chain(both).filter(|&kind| !known(kind)) {
        for length in [0, 4, 8, 12, 16, 20, 28, 65_535] {
            ends_with_nine(FORM, length, kind, 32);
        }
    }
}

/// The first record may be the odd one, and may be all there is.
#[test]
fn odd_at_once() {
    for record in [
        vec![0],
        vec![9],
        vec![4, 0],
        vec![4, 0, 9],
        vec![0; 4],
        vec![255; 4],
        vec![255; 70_000],
    ] {
        assert_eq!(
            as_the_model(FORM, &format!("{:?}", &record[..1]), &record),
            b"9\n"
        );
    }
}
