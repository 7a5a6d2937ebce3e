//! The codes of Table 1 in the samples of tests/data.

mod common;

use std::collections::HashMap;

use common::table1;
use model::call::{refusal, Answer};
use model::stated::notation::Example;
use model::stated::{all, left, origins, Told};

/// What the samples of calls state: answer and primary bytes, by left-hand side.
type Stated = HashMap<String, (Answer, Vec<u8>)>;

fn stated() -> Stated {
    let told = |told: &Told| match told {
        Told::Plain(Example::On(told)) => Some((told.answer, told.after().primary)),
        Told::Origins(origins::Example::On(told)) => {
            Some((told.answer, told.after().shadows.primary))
        }
        _ => None,
    };
    let samples = all().into_iter();
    let stated = samples.filter_map(|sample| Some((left(&sample.line), told(&sample.told)?)));
    stated.collect()
}

/// Each row of the table is a sample in both directions, without bit 1 and with it,
/// with bit 1 in both forms.
#[test]
fn table_1_in_the_samples() {
    let stated = stated();
    let rows = table1();
    for length in 1..=8 {
        for (word, mark) in [("record", 0), ("record_written", 1), ("record_literal", 3)] {
            let codes = rows.iter().filter(|row| row.1 == length);
            let mut bytes = [0; 32];
            for (byte, row) in bytes[8..].iter_mut().zip(codes) {
                *byte = 4 * row.0 + mark;
            }
            let (answer, primary) = &stated[&format!("on: : {word} 8200 {length}")];
            assert_eq!((answer.number, &primary[..]), (0, &bytes[..]));
        }
    }
    for (code, length, offset) in rows {
        let (position, byte, address) = (8 + offset, 4 * code, 8200 + offset);
        let (answer, _) = &stated[&format!("on: pri@{position}={byte} : ask {address}")];
        assert_eq!(*answer, Ok([8200, length, offset, 0]).into());
        for form in ["on", "on origins"] {
            let given = |low: u8| format!("{form}: pri@{position}={} :", byte + low);
            of_a_literal(&stated, given, address, [8200, length, offset]);
        }
    }
}

/// The codes of long blocks with bit 1, in a block of 15 bytes.
#[test]
fn long_codes_of_literals_in_the_samples() {
    let stated = stated();
    for j in 0..15 {
        let byte = 4 * (48 + j);
        let offset = u32::from(j);
        for form in ["on", "on origins"] {
            let given = |low: u8| format!("{form}: pri@{j}={} sec@0=15 :", byte + low);
            of_a_literal(&stated, given, 8192 + offset, [8192, 15, offset]);
        }
    }
}

/// One byte with bit 1, unwritten and written: read as any other, valid only to
/// be read, and not to be written.
fn of_a_literal(
    stated: &Stated,
    given: impl Fn(u8) -> String,
    address: u32,
    [base, length, offset]: [u32; 3],
) {
    let (unwritten, written) = (given(2), given(3));
    let ask = |mark| Ok([base, length, offset, mark]).into();
    let read_only: Answer = Err(refusal::LITERAL).into();
    for (question, answer) in [
        (format!("{unwritten} ask {address}"), ask(0)),
        (format!("{written} ask {address}"), ask(1)),
        (
            format!("{written} valid {address} 1 {address}"),
            Ok([0; 4]).into(),
        ),
        (
            format!("{written} valid_read {address} 1 {address}"),
            Ok([1, 0, 0, 0]).into(),
        ),
        (format!("{unwritten} written {address} 1"), read_only),
    ] {
        let found = stated.get(&question).map(|(answer, _)| *answer);
        assert_eq!(found, Some(answer), "{question}");
    }
}
