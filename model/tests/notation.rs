//! The notation of the samples, and the folder of their files.

mod common;

use std::fs;
use std::path::{Path, PathBuf};

use common::{data, step};
use model::origins;
use model::program;
use model::stated::notation::Example;
use model::stated::{self, all, all_of, answered, left, told, Told};

fn text(bytes: Vec<u8>) -> String {
    String::from_utf8(bytes).expect("lines are text")
}

/// The models' right-hand side of a left-hand side, with it.
fn whole(left: &str) -> String {
    text(answered(left.as_bytes())).trim_end().to_owned()
}

/// Whether the byte-level models, and the programs on lists, give what is told.
fn holds(line: &str, told: &Told) -> bool {
    match told {
        Told::Plain(Example::On(told)) => {
            step(told.map, &told.shadows, told.call) == (told.answer, told.after())
        }
        Told::Plain(Example::Run(runs)) => {
            let same = |input: &Vec<u8>| program::run(input) == runs.output;
            runs.inputs.iter().all(same)
        }
        Told::Origins(stated::origins::Example::On(told)) => {
            let mut state = told.state.clone();
            let said = origins::bytes::call(told.map, &mut state, told.call);
            (said, state) == (told.answer, told.after())
        }
        Told::Origins(stated::origins::Example::Run(runs)) => {
            let same = |input: &Vec<u8>| origins::program::run(input) == runs.output;
            runs.inputs.iter().all(same)
        }
        Told::NoSample => whole(&left(line)) == line,
    }
}

/// The right-hand sides that the models write are samples that say what is stated.
#[test]
fn the_models_right_hand_sides() {
    let mut no_samples = 0;
    for sample in all() {
        assert!(holds(&sample.line, &sample.told), "{sample}");
        let line = whole(&left(&sample.line));
        let by_model = told(&line).unwrap_or_else(|| panic!("no sample: {line}"));
        assert!(holds(&line, &by_model), "{line}");
        match (&sample.told, &by_model) {
            (Told::NoSample, Told::NoSample) => no_samples += 1,
            (Told::Plain(Example::On(stated)), Told::Plain(Example::On(made))) => {
                let said = (stated.answer, stated.after());
                assert_eq!(said, (made.answer, made.after()), "{sample}");
            }
            (Told::Plain(Example::Run(stated)), Told::Plain(Example::Run(made))) => {
                assert_eq!(stated.output, made.output, "{sample}");
            }
            (Told::Origins(_), Told::Origins(_)) => {}
            _ => panic!("{sample}: another kind of line: {line}"),
        }
    }
    assert!(no_samples >= 162, "{no_samples}");
}

/// The lines that a right-hand side becomes when one of its digits is another one;
/// a position may tell what is so anyway, so that its digits are left out.
fn with_another_digit(line: &str) -> Vec<String> {
    let right = line.find("=>").expect("two sides") + 2;
    let digit = |&(at, byte): &(usize, u8)| {
        let position = line[..at].rfind('@') > line[..at].rfind(['=', ' ']);
        byte.is_ascii_digit() && !position
    };
    let bytes = (right..).zip(line.as_bytes()[right..].iter().copied());
    let other = |(at, byte): (usize, u8)| {
        let next = b'0' + (byte - b'0' + 1) % 10;
        format!("{}{}{}", &line[..at], next as char, &line[at + 1..])
    };
    bytes.filter(digit).map(other).collect()
}

#[test]
fn every_digit_of_a_right_hand_side_counts() {
    let mut changed = 0;
    for sample in all() {
        for line in with_another_digit(&sample.line) {
            let taken = told(&line).is_some_and(|told| holds(&line, &told));
            assert!(!taken, "{sample}: {line} is taken too");
            changed += 1;
        }
    }
    assert!(changed > 20_000, "{changed}");
}

/// What is not told after `then` has not changed.
#[test]
fn every_change_is_told() {
    let mut changes = 0;
    for sample in all() {
        let Some((line, _)) = sample.line.split_once(" then ") else {
            continue;
        };
        let without = told(line).expect("a call");
        let nothing = match &without {
            Told::Plain(Example::On(told)) => {
                step(told.map, &told.shadows, told.call).1 == told.shadows
            }
            Told::Origins(stated::origins::Example::On(told)) => {
                let mut state = told.state.clone();
                origins::bytes::call(told.map, &mut state, told.call);
                state == told.state
            }
            _ => panic!("{sample}: no call"),
        };
        assert_eq!(holds(line, &without), nothing, "{sample}");
        changes += u32::from(!nothing);
    }
    assert!(changes > 300, "{changes}");
}

#[test]
fn remarks_stay_and_empty_lines() {
    let text = |input: &str| text(answered(input.as_bytes()));
    assert_eq!(text(""), "");
    assert_eq!(text("\n# on: : audit\n"), "\n# on: : audit\n");
    assert_eq!(text("run:\non::audit"), "run: =>\non::audit => 0 0 0 0 0\n");
}

/// The page of the folder says of every file where its right-hand sides come from.
#[test]
fn every_file_is_named_on_the_page() {
    let page = String::from_utf8(data("README.md")).expect("the page is text");
    let tables: String = page.lines().filter(|line| line.starts_with('|')).collect();
    for sample in all() {
        let name = format!("`{}`", sample.file);
        assert_eq!(tables.matches(&name).count(), 1, "{name}");
    }
}

/// A folder with these files, each with its text.
fn folder(name: &str, files: &[(&str, &str)]) -> PathBuf {
    let folder = Path::new(env!("CARGO_TARGET_TMPDIR")).join(name);
    let _ = fs::remove_dir_all(&folder);
    fs::create_dir_all(&folder).expect("a folder under target");
    for (file, text) in files {
        fs::write(folder.join(file), text).expect("a file under target");
    }
    folder
}

#[test]
fn what_a_folder_may_hold() {
    let good = ("good.txt", "# A remark.\n\non: : audit => 0 0 0 0 0\n");
    let other = ("a.calls", "oops");
    let found = all_of(&folder("good", &[good, other])).expect("one sample");
    assert_eq!(found.len(), 1);
    assert_eq!(found[0].remark, "A remark.");
    let whole = ("whole.txt", "on: : audit => 8 0 0 0 0\n");
    let found = all_of(&folder("whole", &[good, whole])).expect("one sample");
    assert_eq!((found.len(), &found[0].file[..]), (1, whole.0));
    for (name, file, what) in [
        ("none", ("x.txt", "# No sample.\n"), "x.txt: no sample"),
        (
            "odd",
            ("x.txt", "oops\n"),
            "x.txt: neither remark nor sample: oops",
        ),
        (
            "side",
            ("x.txt", "on: : clear\n"),
            "x.txt: neither remark nor sample: on: : clear",
        ),
        (
            "fields",
            ("x.txt", "on: : ask 0 => 4\n"),
            "x.txt: neither remark nor sample: on: : ask 0 => 4",
        ),
        (
            "kind",
            ("x.text", "on: : clear => 0\n"),
            "x.text: neither samples nor anything known",
        ),
        (
            "bare",
            ("x", "on: : clear => 0\n"),
            "x: neither samples nor anything known",
        ),
        (
            "twice",
            ("x.txt", "on[0]: : audit => 8 0 0 0 0\n"),
            "x.txt: on[0]: : audit => 8 0 0 0 0: good.txt tells something else",
        ),
    ] {
        let found = all_of(&folder(name, &[good, file]));
        assert_eq!(found.map(|all| all.len()), Err(what.to_owned()));
    }
}
