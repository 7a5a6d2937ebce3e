//! What several test files share.
#![allow(dead_code)]

pub mod clauses;
pub mod gaps;
pub mod lent;
pub mod program;

use std::collections::HashMap;
use std::path::PathBuf;

use model::bytes;
use model::call::{Answer, Call};
use model::decode::decode;
use model::image::Shadows;
use model::map::Map;
use model::notation::{examples, Example, OneCall};
use model::plain::List;
use model::reading::View;

/// A file of tests/data.
pub fn data(name: &str) -> Vec<u8> {
    let path = PathBuf::from(env!("CARGO_MANIFEST_DIR"))
        .join("tests/data")
        .join(name);
    std::fs::read(&path).unwrap_or_else(|error| panic!("{}: {error}", path.display()))
}

/// The examples of a file: remark, line, example.
pub fn texts(name: &str) -> Vec<(String, String, Example)> {
    let text = String::from_utf8(data(name)).expect("example files are text");
    let found = examples(&text).into_iter();
    found
        .map(|(remark, line, example)| (remark.to_owned(), line.to_owned(), example))
        .collect()
}

/// Table 1 of source document 000: code, length and offset of each row.
pub fn table1() -> Vec<(u8, u32, u32)> {
    let text = String::from_utf8(data("table1.txt")).expect("the table is text");
    let rows = text.lines().filter(|line| !line.starts_with('#'));
    rows.map(|row| {
        let numbers: Vec<u32> = row.split(' ').map(|word| word.parse().unwrap()).collect();
        (numbers[0] as u8, numbers[1], numbers[2])
    })
    .collect()
}

/// A file of the samples program.
pub fn stored(name: &str) -> String {
    let path = PathBuf::from(env!("CARGO_MANIFEST_DIR"))
        .join("../crates/samples")
        .join(name);
    std::fs::read_to_string(&path).unwrap_or_else(|error| panic!("{}: {error}", path.display()))
}

/// The stored right-hand side of each line of the input.
pub fn right_hand_sides() -> HashMap<String, String> {
    let (input, output) = (stored("stdin"), stored("stdout"));
    let pairs = input.lines().zip(output.lines());
    let sides = pairs.filter_map(|(line, answered)| {
        let side = answered.strip_prefix(line)?.strip_prefix(" =>")?;
        Some((line.to_owned(), side.trim_start().to_owned()))
    });
    sides.collect()
}

/// One call of the byte-level model.
pub fn on(map: Map, shadows: &mut Shadows, call: Call) -> Answer {
    bytes::call(
        map,
        &mut shadows.heap,
        &mut shadows.primary,
        &mut shadows.secondary,
        call,
    )
}

/// Its answer and the bytes afterwards.
pub fn step(map: Map, bytes: &Shadows, call: Call) -> (Answer, Shadows) {
    let mut after = bytes.clone();
    (on(map, &mut after, call), after)
}

/// Shadows under their map, to look at only.
pub fn view(map: Map, shadows: &Shadows) -> View<'_> {
    View {
        map,
        heap: &shadows.heap,
        primary: &shadows.primary,
        secondary: &shadows.secondary,
    }
}

/// Every address of the two areas, from the lowest on.
pub fn addresses(map: Map) -> impl Iterator<Item = u32> {
    let [low, high] = map.climbing().map(|area| map.bounds(area));
    low.chain(high).map(|address| address as u32)
}

/// One example on the byte-level model: answer, stated bytes, and no change
/// where none is due.
pub fn on_bytes(line: &str, example: &OneCall) {
    let mut shadows = example.shadows.clone();
    let answer = on(example.map, &mut shadows, example.call);
    assert_eq!(answer, example.answer, "{line}: {:?}", example.call);
    if answer.number != 0 || example.call.alters_nothing() {
        assert_eq!(shadows, example.shadows, "{line}: bytes changed");
    }
    for stated in &example.then {
        let shadow = stated.shadow.of(&shadows);
        let bytes = &shadow[stated.position..][..stated.bytes.len()];
        assert_eq!(bytes, stated.bytes, "{line}: bytes afterwards");
    }
}

/// The same of an example that tells every byte afterwards.
pub fn on_every_byte(line: &str, example: &OneCall) {
    on_bytes(line, example);
    let (_, shadows) = step(example.map, &example.shadows, example.call);
    assert_eq!(shadows, example.after(), "{line}: bytes afterwards");
}

/// The list whose image the shadows are, made by calls alone.
pub fn list_of<L: List>(map: Map, shadows: &Shadows) -> Option<L> {
    let blocks = decode(view(map, shadows))?;
    let mut list = L::new(map);
    for block in blocks {
        let (base, length) = (block.base, block.length);
        if block.literal {
            list.step(Call::RecordLiteral { base, length });
            continue;
        }
        list.step(Call::Record { base, length });
        for (address, _) in (base..).zip(&block.written).filter(|(_, &mark)| mark) {
            list.step(Call::Written { address, n: 1 });
        }
    }
    Some(list)
}

/// The call that ends the block of this base, or is refused there.
pub fn ending(map: Map, base: u32) -> Call {
    let area = map.area(base).expect("a base of an area");
    Call::to_end(area, base)
}
