//! What is stated in the model's data, on the library itself.

use linked::LIBRARY;
use model::call::{Answer, NO_FIELDS};
use model::image::Shadows;
use model::map::Map;
use model::program::{decode, Record};
use model::recorded::{with_removals, RUNS};

/// A file of the model's data.
fn data(name: &str) -> Vec<u8> {
    let folder = concat!(env!("CARGO_MANIFEST_DIR"), "/../model/tests/data");
    std::fs::read(format!("{folder}/{name}")).expect("a file of the model's data")
}

/// A file of the model's data that is text.
fn text(name: &str) -> String {
    String::from_utf8(data(name)).expect("samples are text")
}

#[test]
fn stated_samples() {
    for (name, least) in [("place.txt", 100), ("remove.txt", 100), ("damage.txt", 120)] {
        let samples = LIBRARY.stated_samples(&text(name));
        assert!(samples > least, "{name}: {samples}");
    }
}

/// The recorded runs, with remove for free of stack addresses: every answer is that of the lines.
#[test]
fn recorded_runs() {
    for name in RUNS {
        let file = with_removals(&data(&format!("{name}.calls")));
        let lines = text(&format!("{name}.expected"));
        let mut left = &file[..];
        let (mut map, mut lent) = (Map::default(), Shadows::cleared(Map::default()));
        for line in lines.lines() {
            let (record, rest) = decode(left).expect("a record for each line");
            left = rest;
            match record {
                Record::Map(new) => {
                    map = new;
                    lent = Shadows::cleared(map);
                }
                Record::Call(_, one) => {
                    let said = linked::call(map, &mut lent, one);
                    assert_eq!(said, told(line), "{name} {one:?}");
                }
            }
        }
    }
}

/// The answer of a line that tells kind, number and fields.
fn told(line: &str) -> Answer {
    let numbers = line
        .split(' ')
        .skip(1)
        .map(|word| word.parse().expect("a number"));
    let numbers: Vec<u32> = numbers.collect();
    let mut fields = NO_FIELDS;
    fields[..numbers.len() - 1].copy_from_slice(&numbers[1..]);
    let number = numbers[0];
    Answer { number, fields }
}
