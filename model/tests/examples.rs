//! Every example of the open points, and more on bytes that are no image.

mod common;

use common::{on_bytes, texts};
use model::notation::Example;
use model::plain_btree::PlainTree;
use model::program::{run, run_on};

fn text(bytes: Vec<u8>) -> String {
    String::from_utf8(bytes).expect("lines are text")
}

fn check(name: &str) -> usize {
    let found = texts(name);
    let count = found.len();
    for (remark, line, example) in found {
        let line = format!("{remark} {line}");
        match example {
            Example::On(example) => on_bytes(&line, &example),
            Example::Run { input, output } => {
                assert_eq!(text(run(&input)), text(output.clone()), "{line}");
                assert_eq!(text(run_on::<PlainTree>(&input)), text(output), "{line}");
            }
        }
    }
    count
}

#[test]
fn every_example_of_the_open_points() {
    assert_eq!(check("open-points.txt"), 46);
}

#[test]
fn document_01() {
    assert_eq!(check("document-01.txt"), 67);
}

#[test]
fn calls_on_damage() {
    assert_eq!(check("calls-on-damage.txt"), 131);
}

#[test]
fn odd_bytes() {
    assert_eq!(check("odd-bytes.txt"), 49);
}

#[test]
fn record_written() {
    assert_eq!(check("record-written.txt"), 85);
}

#[test]
fn free_null() {
    assert_eq!(check("free-null.txt"), 64);
}

#[test]
fn every_example_of_the_open_points_of_literals() {
    assert_eq!(check("literals-open-points.txt"), 12);
}

#[test]
fn literals() {
    assert_eq!(check("literals.txt"), 324);
}

#[test]
fn remove() {
    assert_eq!(check("remove.txt"), 130);
}

#[test]
fn desk() {
    assert_eq!(check("desk.txt"), 119);
}

#[test]
fn marks() {
    assert_eq!(check("marks.txt"), 119);
}
