//! The plain list and the byte-level model side by side: the worked example of
//! document 01 call by call, and every block alone on every address.

mod common;

use common::{data, ending, on};
use model::call::{refusal, Answer, Call};
use model::image::{image, Shadows};
use model::map::Map;
use model::notation::{DESK_MAP, EXAMPLE_MAP};
use model::plain::{List, PlainList};

/// Both models side by side on the map of the samples, in either form.
struct Both {
    map: Map,
    list: PlainList,
    shadows: Shadows,
}

const MAPS: [Map; 2] = [EXAMPLE_MAP, DESK_MAP];

impl Both {
    fn new(map: Map) -> Self {
        Both {
            map,
            list: PlainList::new(map),
            shadows: Shadows::cleared(map),
        }
    }

    fn step(&mut self, call: Call) -> Answer {
        let answer = on(self.map, &mut self.shadows, call);
        assert_eq!(self.list.step(call), answer, "{call:?}");
        let image = image(self.map, self.list.blocks());
        assert_eq!(image, self.shadows, "{call:?}");
        answer
    }
}

#[test]
fn worked_example_call_by_call() {
    let text = String::from_utf8(data("document-01.txt")).expect("example files are text");
    let worked = text.lines().find(|line| line.starts_with("run")).unwrap();
    let (records, lines) = worked.split_once("=>").unwrap();
    let mut both = Both::new(EXAMPLE_MAP);
    // The first record is the map, which both have already.
    for (record, line) in records.split(';').zip(lines.split(';')).skip(1) {
        let words = |text: &str| -> Vec<u32> {
            let words = text.split_whitespace();
            words.map(|word| word.parse().unwrap()).collect()
        };
        let (record, line) = (words(record), words(line));
        let call = Call::from_record(record[0] as u16, &record[1..]).unwrap();
        let answer = both.step(call);
        assert_eq!(answer.number, line[1], "{call:?}");
        assert_eq!(answer.fields[..line.len() - 2], line[2..], "{call:?}");
    }
}

/// Every address of both areas, in each form.
fn places() -> impl Iterator<Item = (Map, u32)> {
    let addresses = || (4096..4160).chain(8192..8224);
    let maps = MAPS.into_iter();
    maps.flat_map(move |map| addresses().map(move |base| (map, base)))
}

#[test]
fn every_block_alone_on_every_address() {
    for (map, base) in places() {
        for length in 0..66 {
            let mut both = Both::new(map);
            if both.step(Call::Record { base, length }).number != 0 {
                continue;
            }
            let n = length;
            both.step(Call::Written { address: base, n });
            whole_life(&mut both, base);
        }
    }
}

/// From the recording on: what every address reads as, the totals, the end.
fn whole_life(both: &mut Both, base: u32) {
    for address in (4090..4170).chain(8185..8230) {
        both.step(Call::Ask { address });
    }
    both.step(Call::Audit);
    both.step(ending(both.map, base));
    assert_eq!(both.shadows, Shadows::cleared(both.map));
}

#[test]
fn every_literal_alone_on_every_address() {
    for (map, base) in places() {
        for length in 0..34 {
            let mut both = Both::new(map);
            let answer = both.step(Call::RecordLiteral { base, length });
            let outside = length > 0 && base < 8192;
            match outside {
                true => assert_eq!(answer.number, refusal::OUTSIDE),
                false => assert_eq!(answer, Both::new(map).step(Call::Record { base, length })),
            }
            if answer.number != 0 {
                continue;
            }
            for address in base - 1..=base + length {
                reads_and_is_not_written(&mut both, base, length, address);
            }
            let [.., live, written] = both.step(Call::Audit).fields;
            assert_eq!([live, written], [length, length], "{base} {length}");
            whole_life(&mut both, base);
        }
    }
}

/// Ranges from an address of a literal or beside it, up to one byte too far.
fn reads_and_is_not_written(both: &mut Both, base: u32, length: u32, address: u32) {
    let inside = (base..base + length).contains(&address);
    for n in 1..=length + 1 {
        let whole = inside && address - base + n <= length;
        let from = base;
        let valid = both.step(Call::Valid { address, n, from });
        let readable = both.step(Call::ValidRead { address, n, from });
        let written = both.step(Call::Initialised { address, n });
        let answers = [valid, readable, written].map(|said| said.fields[0]);
        assert_eq!(answers, [0, u32::from(whole), u32::from(whole)]);
        let number = match (whole, (8192..8224).contains(&address)) {
            (true, _) => refusal::LITERAL,
            (false, true) => refusal::NO_BLOCK,
            (false, false) => refusal::OUTSIDE,
        };
        assert_eq!(both.step(Call::Written { address, n }).number, number);
    }
}

#[test]
fn every_block_that_begins_written_alone_on_every_address() {
    for (map, base) in places() {
        for length in 0..66 {
            let mut both = Both::new(map);
            let answer = both.step(Call::RecordWritten { base, length });
            assert_eq!(answer, Both::new(map).step(Call::Record { base, length }));
            if answer.number != 0 {
                continue;
            }
            let [.., live, written] = both.step(Call::Audit).fields;
            assert_eq!([live, written], [length, length], "{base} {length}");
            whole_life(&mut both, base);
        }
    }
}
