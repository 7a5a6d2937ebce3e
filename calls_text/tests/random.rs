//! The calls program against the model on random files, short and long. `CALLS_RUNS` multiplies the number of files.

mod common;

use std::fs::File;
use std::path::Path;
use std::process::Command;
use std::time::{Duration, Instant};

use calls_text::kinds::Form;
use common::{assert_lines, from_file, piped, program, run};
use model::call::Call;
use model::generate::file::file;
use model::generate::{call, map, Scale};
use model::map::Map;
use model::plain::{List, PlainList};
use model::program::{encode, encode_map, LARGEST_HEAP, LARGEST_STACK};
use model::random::Random;

fn times() -> u64 {
    let named = std::env::var("CALLS_RUNS").ok();
    named.and_then(|times| times.parse().ok()).unwrap_or(1)
}

#[test]
fn short_files() {
    for seed in 0..500 * times() {
        println!("seed {seed}");
        let input = file(&mut Random::new(seed), 200);
        assert_lines(
            &format!("seed {seed}"),
            &piped(Form::Plain, &input),
            &model::program::run(&input),
        );
    }
}

#[test]
fn longer_files() {
    for seed in 0..40 * times() {
        println!("seed {seed}");
        let input = file(&mut Random::new(1_000_000 + seed), 5000);
        let output = from_file(Form::Plain, &format!("longer-{seed}.calls"), &input);
        assert_lines(
            &format!("seed {seed}"),
            &output,
            &model::program::run(&input),
        );
    }
}

/// A map for some hundred calls: mostly small areas, at times the largest.
fn long_run_map(random: &mut Random) -> Map {
    if random.once_in(8) {
        Map::new(8, LARGEST_HEAP, 65_536, LARGEST_STACK)
    } else {
        map(random, Scale::Crowded)
    }
}

/// Exactly so many records, all of which decode.
fn long_file(random: &mut Random, records: u32) -> Vec<u8> {
    let map = long_run_map(random);
    let mut input = encode_map(map);
    let mut list = PlainList::new(map);
    for _ in 1..records {
        if random.once_in(400) {
            let map = long_run_map(random);
            list = PlainList::new(map);
            input.extend(encode_map(map));
            continue;
        }
        let made = call(random, list.map(), list.blocks());
        // Clear and place have no kind.
        let made = match made.record_fields() {
            Some(_) => made,
            None => Call::Audit,
        };
        list.step(made);
        let (kind, fields) = made.record_fields().expect("audit has a kind");
        input.extend(encode(kind, &fields));
    }
    input
}

#[test]
fn a_million_records() {
    const RECORDS: u32 = 1_000_000;
    let seed = 7;
    println!("seed {seed}");
    let input = long_file(&mut Random::new(seed), RECORDS);
    let path = Path::new(env!("CARGO_TARGET_TMPDIR")).join("million.calls");
    std::fs::write(&path, &input).expect("a file under target");
    let begun = Instant::now();
    let file = File::open(&path).expect("the file just written");
    let ran = run(
        Command::new(program(Form::Plain)).stdin(file),
        Duration::from_secs(600),
        |_| (),
    );
    let seconds = begun.elapsed().as_secs_f64();
    std::fs::remove_file(&path).expect("the file just written");
    println!(
        "{RECORDS} records, {} bytes in, {} bytes out, {seconds:.2} s",
        input.len(),
        ran.output.len()
    );
    assert!(ran.status.success(), "{}", ran.status);
    let expected = model::program::run(&input);
    assert_eq!(
        expected.iter().filter(|&&byte| byte == b'\n').count(),
        RECORDS as usize
    );
    assert_lines("a million records", &ran.output, &expected);
}
