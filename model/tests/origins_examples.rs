//! Every example of the open points of S-4, and a sample for each of its clauses
//! and for each of S-5 and S-7 in this form.

mod common;

use common::data;
use common::program::origins_on_bytes;
use model::notation::{example as plain_example, Example as PlainExample, EXAMPLE_MAP};
use model::origins::bytes;
use model::origins::notation::{example, put, Example, OneCall};
use model::origins::program::run;
use model::samples::answered;

fn lines(name: &str) -> Vec<String> {
    let text = String::from_utf8(data(name)).expect("example files are text");
    let lines = text.lines().map(str::trim);
    let stated = lines.filter(|line| !line.is_empty() && !line.starts_with('#'));
    stated.map(str::to_owned).collect()
}

fn text(bytes: Vec<u8>) -> String {
    String::from_utf8(bytes).expect("lines are text")
}

/// Answer, what is stated afterwards, and no change where none is due.
fn on_bytes(line: &str, told: &OneCall) {
    let mut state = told.state.clone();
    let answer = bytes::call(EXAMPLE_MAP, &mut state, told.call);
    assert_eq!(answer, told.answer, "{line}");
    if answer.number != 0 || told.call.alters_nothing() {
        assert!(state == told.state, "{line}: something changed");
    }
    let mut stated = state.clone();
    put(&mut stated, &told.then).unwrap_or_else(|| panic!("{line}: nothing to state"));
    assert_eq!(state, stated, "{line}: afterwards");
}

fn check(name: &str) -> usize {
    let lines = lines(name);
    for line in &lines {
        match (example(line), plain_example(line)) {
            (Some(Example::On(told)), _) => on_bytes(line, &told),
            (Some(Example::Run { input, output }), _) => {
                assert_eq!(text(run(&input)), text(output.clone()), "{line}");
                assert_eq!(text(origins_on_bytes(&input)), text(output), "{line}");
            }
            (None, Some(PlainExample::Run { input, output })) => {
                assert_eq!(text(model::program::run(&input)), text(output), "{line}");
            }
            _ => panic!("{name}: no example: {line}"),
        }
    }
    lines.len()
}

#[test]
fn every_example_of_the_open_points() {
    assert_eq!(check("origins-open-points.txt"), 8);
}

#[test]
fn every_clause() {
    assert_eq!(check("origins.txt"), 341);
}

#[test]
fn literals() {
    assert_eq!(check("literals-origins.txt"), 288);
}

#[test]
fn remove() {
    assert_eq!(check("remove-origins.txt"), 78);
}

/// The samples program's right-hand sides are whole: put on the given state they
/// are the state afterwards.
#[test]
fn answered_lines_tell_the_whole_state() {
    let names = [
        "origins-open-points.txt",
        "origins.txt",
        "literals-origins.txt",
        "remove-origins.txt",
    ];
    for line in names.map(lines).concat() {
        let question = line
            .split("=>")
            .next()
            .expect("a left-hand side")
            .trim_end();
        let whole = text(answered(question.as_bytes()));
        let whole = whole.trim_end();
        let Some(Example::On(told)) = example(whole) else {
            assert_eq!(whole, line.trim_end(), "a run's lines are all told");
            continue;
        };
        let mut state = told.state.clone();
        let answer = bytes::call(EXAMPLE_MAP, &mut state, told.call);
        assert_eq!(answer, told.answer, "{whole}");
        let mut after = told.state.clone();
        put(&mut after, &told.then).expect("bytes of the state");
        assert_eq!(after, state, "{whole}");
    }
}

#[test]
fn what_is_no_sample_gets_a_question_mark() {
    for line in [
        "on origins: heapcells=137 : audit",
        "on origins: stackcells=137 : audit",
        "on origins: pri=137 : audit",
        "on origins: heapcells@128=1 : audit",
        "on origins: heapcells=127 heapcells@127=1 : audit",
        "on origins: counter=18446744073709551616 : audit",
        "on origins: counter= : audit",
        "on origins: counter@0=1 : audit",
        "on origins: cells=1 : audit",
        "on origins: : point 8192",
        "on origins: : live 8192 8192 1",
        "on origins: : place 8 1",
        "on origins: : place 8",
        "on origins: : room 8 1",
        "on origins: : remove",
        "on origins: : remove 8192 4",
        "on: heapcells@0=1 : audit",
        "on: counter=1 : audit",
        "on: heap=63 : audit",
        "on: : point 8192 8192",
        "on: : place 8",
        "on: : place 8 1 0",
        "on: : place 4294967296 1",
        "on: : remove",
        "on: : remove 8192 4",
        "on: : removed 8192",
        "on  origins: : audit",
        "run  origins: 9",
        "origins: : audit",
    ] {
        let side = text(answered(line.as_bytes()));
        assert_eq!(side, format!("{line} => ?\n"));
    }
    for (line, side) in [
        ("on origins:: audit", "0 0 0 0 0"),
        (
            "on origins: heapcells=136 heapcells@135=1 heapcells=128 : audit",
            "0 0 0 0 0",
        ),
        (
            "on origins: counter=1 counter=7 : record 8192 1",
            "0 then pri@0=4 stackcells@0=7 counter=8",
        ),
        ("run origins: 9; x", "9 1; ?"),
    ] {
        assert_eq!(
            text(answered(line.as_bytes())),
            format!("{line} => {side}\n")
        );
    }
}
