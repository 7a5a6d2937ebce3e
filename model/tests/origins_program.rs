//! The calls program of the form with origins.

mod common;

use common::program::origins_on_bytes;
use model::generate;
use model::origins::generate::file::file;
use model::origins::program::{decode, run};
use model::program::encode;
use model::random::Random;

const MAP: [u32; 4] = [4096, 64, 8192, 32];

fn text(input: &[u8]) -> String {
    String::from_utf8(run(input)).expect("lines are text")
}

#[test]
fn lengths_are_those_of_the_kinds() {
    let lengths = [20, 12, 8, 12, 8, 16, 12, 8, 4, 12, 12, 12, 12, 12, 16, 8];
    for (kind, right) in (1u16..).zip(lengths) {
        for length in 0..40u16 {
            let mut record = length.to_le_bytes().to_vec();
            record.extend(kind.to_le_bytes());
            record.resize(64, 0);
            let decoded = decode(&record).is_some();
            assert_eq!(decoded, length == right, "{kind} {length}");
        }
    }
    for kind in (0..1).chain(17..=u16::MAX) {
        for fields in 0..8 {
            assert!(decode(&encode(kind, &vec![0; fields])).is_none(), "{kind}");
        }
    }
}

/// The plain program knows kinds 11 to 13 no more than any other.
#[test]
fn the_plain_program_stays() {
    for kind in 11..=13 {
        for fields in 0..8 {
            let record = encode(kind, &vec![8192; fields]);
            assert!(model::program::decode(&record).is_none(), "{kind}");
            let input = [encode(1, &MAP), record, encode(9, &[])].concat();
            assert_eq!(model::program::run(&input), b"1 0\n9\n");
        }
    }
}

#[test]
fn a_cut_record_prints_nine_alone() {
    for kind in 11..=16 {
        let fields = match kind {
            15 => &[8192, 4, 8192][..],
            16 => &[8192],
            _ => &[8192, 4],
        };
        let record = encode(kind, fields);
        for left in 1..record.len() {
            let input = [encode(1, &MAP), record[..left].to_vec()].concat();
            assert_eq!(text(&input), "1 0\n9\n");
        }
    }
    assert_eq!(text(&[]), "");
}

#[test]
fn before_any_map() {
    let mut input: Vec<u8> = (11..=14).flat_map(|kind| encode(kind, &[0, 0])).collect();
    input.extend(encode(15, &[0, 0, 0]));
    input.extend(encode(16, &[0]));
    assert_eq!(text(&input), "11 1\n12 1\n13 1\n14 1\n15 1\n16 1\n");
}

#[test]
fn random_files() {
    let mut ended_early = 0;
    let mut lines_met = [0; 12];
    for seed in 0..1000 {
        println!("seed {seed}");
        let input = file(&mut Random::new(seed), 200);
        let output = run(&input);
        assert!(output == origins_on_bytes(&input));
        let lines = String::from_utf8(output).expect("lines are text");
        ended_early += u32::from(lines.ends_with("\n9\n"));
        let wanted = [
            "1 10", "13 0 1", "13 0 0", "14 0", "14 5", "15 0 1", "15 0 0", "4 13", "3 15", "16 0",
            "16 4", "16 7",
        ];
        for (count, line) in lines_met.iter_mut().zip(wanted) {
            *count += lines.lines().filter(|&met| met == line).count();
        }
    }
    assert!(ended_early > 100, "{ended_early}");
    assert!(lines_met.iter().all(|&count| count > 100), "{lines_met:?}");
}

/// On files of the plain form the two programs print the same lines, until a base
/// is no multiple of four or a kind is this form's alone.
#[test]
fn plain_files_print_what_they_did() {
    let (mut same, mut unaligned) = (0, 0);
    for seed in 0..1000 {
        let input = generate::file::file(&mut Random::new(seed), 200);
        let lines = |output: Vec<u8>| String::from_utf8(output).expect("lines are text");
        let (plain, origins) = (lines(model::program::run(&input)), lines(run(&input)));
        for (plainly, line) in plain.lines().zip(origins.lines()) {
            if plainly != line {
                let five = ["2 5", "10 5", "14 5"].contains(&line);
                assert!(five || plainly == "9", "seed {seed}: {plainly}, {line}");
                unaligned += u32::from(five);
                break;
            }
            same += 1;
        }
    }
    assert!(same > 5000 && unaligned > 300, "{same} {unaligned}");
}
