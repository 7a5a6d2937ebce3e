//! Every sample of tests/data on the models of the form without origins, and what
//! the samples must be as a whole.

mod common;

use common::gaps::defined;
use common::program::run_on_bytes;
use common::{list_of, on_every_byte};
use model::call::Call;
use model::form::DESK;
use model::image::image;
use model::map::Area;
use model::notation::{OneCall, EXAMPLE_MAP};
use model::plain::{List, PlainList};
use model::plain_btree::PlainTree;
use model::program::{run, run_on};
use model::stated::notation::{Example, Runs};
use model::stated::{all, Sample, Told};

fn text(bytes: &[u8]) -> String {
    String::from_utf8(bytes.to_vec()).expect("lines are text")
}

/// The samples that are one call of the player or of the desk.
fn calls() -> Vec<(Sample, OneCall)> {
    let told = |sample: Sample| match &sample.told {
        Told::Plain(Example::On(told)) => Some((sample.clone(), told.clone())),
        _ => None,
    };
    all().into_iter().filter_map(told).collect()
}

#[test]
fn every_call_on_bytes() {
    let mut samples = [0; 2];
    for (sample, told) in calls() {
        on_every_byte(&sample.to_string(), &told);
        samples[usize::from(told.map.form == DESK)] += 1;
    }
    assert!(samples[0] >= 1464 && samples[1] >= 160, "{samples:?}");
}

/// Where the given bytes are an image, both lists answer alike, and the image of
/// what they hold afterwards is the stated bytes.
#[test]
fn every_call_on_lists() {
    let mut images = [0; 2];
    for (sample, told) in calls() {
        let Some(mut list) = list_of::<PlainList>(told.map, &told.shadows) else {
            continue;
        };
        let mut tree = list_of::<PlainTree>(told.map, &told.shadows).expect("the same blocks");
        assert_eq!(list.step(told.call), told.answer, "{sample}");
        assert_eq!(tree.step(told.call), told.answer, "{sample}");
        assert_eq!(image(told.map, list.blocks()), told.after(), "{sample}");
        assert_eq!(tree.listed(), list.listed(), "{sample}");
        images[usize::from(told.map.form == DESK)] += 1;
    }
    assert!(images[0] >= 535 && images[1] >= 82, "{images:?}");
}

#[test]
fn every_run() {
    let (mut samples, mut inputs) = (0, 0);
    for sample in all() {
        let Some(Runs {
            inputs: all,
            output,
        }) = sample.runs(false)
        else {
            continue;
        };
        let output = text(output);
        for input in all {
            assert_eq!(text(&run(input)), output, "{sample}");
            assert_eq!(text(&run_on::<PlainTree>(input)), output, "{sample}");
            assert_eq!(text(&run_on_bytes(input)), output, "{sample}");
            inputs += 1;
        }
        samples += 1;
    }
    assert!(samples >= 389 && inputs >= 633, "{samples} {inputs}");
}

/// By the heap's bytes alone, and by the stack's alone; free reads the heap only,
/// and remove the stack.
#[test]
fn each_call_that_can_give_8_does() {
    let refused: Vec<String> = calls()
        .into_iter()
        .filter(|(_, told)| told.answer.number == 8)
        .map(|(sample, _)| sample.line)
        .collect();
    let both = [
        "written",
        "ask",
        "valid",
        "valid_read",
        "initialised",
        "next",
        "audit",
    ];
    let both = both.map(|word| (word, [true, true]));
    let one = [("free", [true, false]), ("remove", [false, true])];
    for (word, reads) in both.into_iter().chain(one) {
        for (reads, other) in reads
            .into_iter()
            .zip([["pri@", "sec@"], ["heap@", "heap@"]])
        {
            let alone = |line: &String| {
                let (given, rest) = line.split_once(" : ").expect("a call");
                rest.split(' ').next() == Some(word) && !other.iter().any(|o| given.contains(o))
            };
            assert_eq!(refused.iter().any(alone), reads, "{word} {other:?}");
        }
    }
}

/// No byte counts where free meets address 0 or the stack area, or remove an
/// address outside it.
#[test]
fn what_is_said_of_any_bytes() {
    let mut met = [0; 3];
    for (sample, told) in calls() {
        let in_stack = |base| EXAMPLE_MAP.area(base) == Some(Area::Stack);
        let (index, number) = match told.call {
            Call::Free { base: 0 } => (0, 0),
            Call::Free { base } if in_stack(base) => (1, 15),
            Call::Remove { base } if !in_stack(base) => (2, 4),
            _ => continue,
        };
        assert_eq!(told.answer.number, number, "{sample}");
        assert_eq!(told.after(), told.shadows, "{sample}");
        met[index] += 1;
    }
    assert!(met.iter().all(|&count| count > 15), "{met:?}");
}

/// A place for the next block, by the definition of gaps.
#[test]
fn every_place() {
    let mut met = [0; 2];
    for (sample, told) in calls() {
        if let Call::Place { length, budget } = told.call {
            let by_definition = defined(told.map, &told.shadows.heap, length, budget);
            assert_eq!(by_definition, told.answer, "{sample}");
            met[usize::from(told.map.form == DESK)] += 1;
        }
    }
    assert!(met[0] >= 116 && met[1] >= 11, "{met:?}");
}
