//! The calls program: undecodable records, and random files on both lists.

mod common;

use common::program::run_on_bytes;
use model::generate::file::file;
use model::plain_btree::PlainTree;
use model::program::{decode, encode, run, run_on};
use model::random::Random;

const MAP: [u32; 4] = [4096, 64, 8192, 32];

fn text(input: &[u8]) -> String {
    String::from_utf8(run(input)).expect("lines are text")
}

fn after_map(more: &[u8]) -> String {
    let mut input = encode(1, &MAP);
    input.extend(more);
    text(&input)
}

#[test]
fn the_bytes_of_a_record() {
    assert_eq!(encode(9, &[]), [4, 0, 9, 0]);
    assert_eq!(encode(3, &[4104]), [8, 0, 3, 0, 8, 16, 0, 0]);
    assert_eq!(
        encode(10, &[4104, 9]),
        [12, 0, 10, 0, 8, 16, 0, 0, 9, 0, 0, 0]
    );
    assert_eq!(
        encode(14, &[8192, 9]),
        [12, 0, 14, 0, 0, 32, 0, 0, 9, 0, 0, 0]
    );
    assert_eq!(
        encode(15, &[8192, 9, 8193]),
        [16, 0, 15, 0, 0, 32, 0, 0, 9, 0, 0, 0, 1, 32, 0, 0]
    );
    assert_eq!(encode(16, &[8195]), [8, 0, 16, 0, 3, 32, 0, 0]);
}

#[test]
fn lengths_are_those_of_the_kinds() {
    let lengths = [20, 12, 8, 12, 8, 16, 12, 8, 4, 12];
    let later = [(14, 12), (15, 16), (16, 8)];
    for (kind, right) in (1u16..).zip(lengths).chain(later) {
        for length in 0..40u16 {
            let mut record = length.to_le_bytes().to_vec();
            record.extend(kind.to_le_bytes());
            record.resize(64, 0);
            assert_eq!(
                decode(&record).is_some(),
                length == right,
                "{kind} {length}"
            );
        }
    }
}

#[test]
fn a_cut_record_prints_nine_alone() {
    for kind in [2, 10, 14] {
        let record = encode(kind, &[8192, 20]);
        for left in 1..record.len() {
            assert_eq!(after_map(&record[..left]), "1 0\n9\n");
        }
        assert_eq!(after_map(&record), format!("1 0\n{kind} 0\n"));
    }
    assert_eq!(after_map(&[]), "1 0\n");
    assert_eq!(text(&[]), "");
}

#[test]
fn nothing_is_read_after_nine() {
    for bad in [
        encode(0, &[]),
        encode(11, &[4104, 1]),
        encode(258, &[4104, 8]),
        encode(266, &[4104, 8]),
        encode(2, &[4104]),
        encode(10, &[4104]),
        encode(10, &[4104, 8, 0]),
        encode(12, &[4104, 1]),
        encode(13, &[4104, 1]),
        encode(14, &[8192]),
        encode(14, &[8192, 8, 0]),
        encode(15, &[8192, 8]),
        encode(15, &[8192, 8, 8192, 0]),
        encode(16, &[]),
        encode(16, &[8192, 8]),
        encode(17, &[8192]),
        encode(270, &[8192, 8]),
        encode(271, &[8192, 8, 8192]),
        encode(272, &[8192]),
        encode(9, &[0]),
        vec![4, 1, 9, 0],
        vec![0, 0, 9, 0],
        vec![3, 0, 9, 0],
    ] {
        let mut input = bad.clone();
        input.extend(encode(9, &[]));
        assert_eq!(after_map(&input), "1 0\n9\n", "{bad:?}");
    }
}

#[test]
fn a_refused_audit_is_not_nine_alone() {
    assert_eq!(text(&encode(9, &[])), "9 1\n");
}

#[test]
fn random_files() {
    let mut ended_early = 0;
    let mut too_large = 0;
    let mut literals = [0; 5];
    for seed in 0..1500 {
        println!("seed {seed}");
        let input = file(&mut Random::new(seed), 200);
        let output = run(&input);
        assert_eq!(output, run_on::<PlainTree>(&input));
        assert_eq!(output, run_on_bytes(&input));
        let lines = String::from_utf8(output).expect("lines are text");
        ended_early += u32::from(lines.ends_with("\n9\n"));
        too_large += lines.lines().filter(|&line| line == "1 10").count();
        let wanted = ["14 0", "14 6", "15 0 1", "15 0 0", "4 13"];
        for (count, line) in literals.iter_mut().zip(wanted) {
            *count += lines.lines().filter(|&met| met == line).count();
        }
    }
    assert!(ended_early > 100 && too_large > 100);
    assert!(literals.iter().all(|&count| count > 100), "{literals:?}");
}
