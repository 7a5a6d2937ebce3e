//! The calls program of the form with origins: stored and stated examples, files cut at every byte, records that do not decode, random
//! files, input in portions. `CALLS_RUNS` multiplies the number of random files.

mod common;

use std::io::Write;
use std::thread;
use std::time::Duration;

use calls_text::kinds::{Form, ORIGINS_KINDS};
use common::{
    as_stored, as_the_model, assert_lines, bytes, ends_with_nine, example, examples, from_file,
    model_run, no_other_length, piped, recorded, through_pipe,
};
use model::generate::{map, Scale};
use model::map::Map;
use model::origins::generate::file::{call_record, file};
use model::origins::generate::Calls;
use model::origins::list::OriginsList;
use model::origins::notation::{example as stated, Example};
use model::program::{encode, encode_map, LARGEST_HEAP, LARGEST_STACK};
use model::random::Random;
use model::recorded::RUNS;

const FORM: Form = Form::Origins;

fn times() -> u64 {
    let named = std::env::var("CALLS_RUNS").ok();
    named.and_then(|times| times.parse().ok()).unwrap_or(1)
}

#[test]
fn stored_examples() {
    let found = examples(FORM);
    assert!(found.len() >= 2, "{} examples", found.len());
    for (name, file) in found {
        as_stored(FORM, &name, &file);
    }
}

/// Inputs with the output that the specification gives for them.
#[test]
fn stated_examples() {
    for (name, least) in [
        ("origins-open-points.txt", 7),
        ("origins.txt", 20),
        ("literals-origins.txt", 24),
        ("remove-origins.txt", 13),
    ] {
        let text = String::from_utf8(bytes(&format!("model/tests/data/{name}"))).expect("text");
        let mut runs = 0;
        for line in text.lines() {
            if let Some(Example::Run { input, output }) = stated(line) {
                assert_lines(line, &piped(FORM, &input), &output);
                runs += 1;
            }
        }
        assert!(runs >= least, "only {runs} runs in {name}");
    }
}

/// Calls of the plain form alone: their lines are the plain program's, as long as every base is a multiple of 4.
#[test]
fn plain_examples() {
    for name in ["worked", "statics", "each-kind", "literals", "remove"] {
        as_the_model(FORM, name, &example(name));
    }
    for name in RUNS {
        let as_recorded = bytes(&format!("model/tests/data/{name}.calls"));
        for calls in [as_recorded, recorded(name).0] {
            let output = from_file(FORM, &format!("{name}-origins.calls"), &calls);
            assert_lines(name, &output, &model_run(FORM, &calls));
        }
    }
}

#[test]
fn no_input_gives_no_output() {
    assert!(from_file(FORM, "none-origins.calls", &[]).is_empty());
    assert!(piped(FORM, &[]).is_empty());
}

#[test]
fn cut_at_every_byte() {
    common::cut_at_every_byte(FORM, "origins");
}

#[test]
fn lengths_of_no_kind() {
    for kind in FORM.kinds() {
        no_other_length(FORM, kind.number, kind.length() as u16);
    }
}

#[test]
fn kinds_that_are_none() {
    let known = |kind: u16| FORM.of_number(kind).is_some();
    let near = (0..40).chain([255, 32_768, 65_535]);
    let high = FORM.kinds().map(|kind| kind.number << 8);
    let both = FORM.kinds().map(|kind| 256 + kind.number);
    for kind in near.chain(high).chain(both).filter(|&kind| !known(kind)) {
        for length in [0, 4, 8, 12, 16, 20, 28, 65_535] {
            ends_with_nine(FORM, length, kind, 32);
        }
    }
}

/// The plain program knows none of the kinds that this form has alone.
#[test]
fn the_plain_program_ends_there() {
    for kind in ORIGINS_KINDS {
        let length = kind.length() as u16;
        ends_with_nine(Form::Plain, length, kind.number, kind.length() - 4);
    }
}

#[test]
fn short_files() {
    for seed in 0..500 * times() {
        println!("seed {seed}");
        let input = file(&mut Random::new(seed), 200);
        as_the_model(FORM, &format!("seed {seed}"), &input);
    }
}

#[test]
fn longer_files() {
    for seed in 0..40 * times() {
        println!("seed {seed}");
        let input = file(&mut Random::new(1_000_000 + seed), 5000);
        let output = from_file(FORM, &format!("longer-origins-{seed}.calls"), &input);
        assert_lines(&format!("seed {seed}"), &output, &model_run(FORM, &input));
    }
}

/// Exactly so many records, all of which decode, mostly in small areas.
fn long_file(random: &mut Random, records: u32) -> Vec<u8> {
    let mut input = Vec::new();
    let mut list = None;
    let mut calls = Calls::default();
    for record in 0..records {
        if record % 400 == 0 {
            let map = match random.once_in(8) {
                true => Map::new(8, LARGEST_HEAP, 65_536, LARGEST_STACK),
                false => map(random, Scale::Crowded),
            };
            let counter = list.map_or(1, |list: OriginsList| list.counter());
            list = Some(OriginsList::new(map, counter));
            input.extend(encode_map(map));
        } else {
            input.extend(call_record(random, &mut calls, &mut list));
        }
    }
    input
}

#[test]
fn a_hundred_thousand_records() {
    const RECORDS: u32 = 100_000;
    let input = long_file(&mut Random::new(7), RECORDS);
    let expected = model_run(FORM, &input);
    let lines = expected.iter().filter(|&&byte| byte == b'\n').count();
    assert_eq!(lines, RECORDS as usize);
    let output = from_file(FORM, "long-origins.calls", &input);
    assert_lines("a hundred thousand records", &output, &expected);
}

#[test]
fn a_short_read_is_not_the_end() {
    for (name, size) in [("origins", 1), ("origins", 5), ("stale", 7)] {
        let input = [example(name), encode(13, &[8192, 4104])].concat();
        let expected = model_run(FORM, &input);
        let output = through_pipe(FORM, move |mut pipe| {
            for portion in input.chunks(size) {
                if pipe.write_all(portion).is_err() {
                    return;
                }
                thread::sleep(Duration::from_micros(300));
            }
        });
        assert_lines(&format!("{name} in portions of {size}"), &output, &expected);
    }
}
