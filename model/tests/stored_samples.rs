//! The samples program's input and stored output, beside what document 01,
//! its open points and the requests state, and beside the plain list.
//!
//! After new lines in `crates/samples/stdin`, the stored output is made anew by
//! `model-samples < crates/samples/stdin > crates/samples/stdout`.

mod common;

use common::{data, right_hand_sides, stored, view};
use model::call::Call;
use model::decode::decode;
use model::form::DESK;
use model::image::{image, Shadows};
use model::map::{Area, Map};
use model::notation::{example, put, Example, OneCall, EXAMPLE_MAP};
use model::origins::notation as origins;
use model::plain::{List, PlainList};
use model::samples::{answered, LONGEST_LINE};

/// The files of tests/data whose right-hand sides are stated and stored.
const STATED: [&str; 19] = [
    "document-01.txt",
    "open-points.txt",
    "damage.txt",
    "near-damage.txt",
    "calls-on-damage.txt",
    "odd-bytes.txt",
    "record-written.txt",
    "free-null.txt",
    "marks.txt",
    "origins-open-points.txt",
    "origins.txt",
    "literals-open-points.txt",
    "literals.txt",
    "literals-origins.txt",
    "place.txt",
    "remove.txt",
    "remove-origins.txt",
    "desk.txt",
    "desk-damage.txt",
];

/// The samples that are one call of the player or of the desk.
fn calls() -> impl Iterator<Item = (String, String)> {
    let one_call = |question: &str| question.starts_with("on:") || question.starts_with("on desk:");
    let sides = right_hand_sides().into_iter();
    sides.filter(move |(question, side)| one_call(question) && side != "?")
}

/// A line of a data file as the program reads it, and what is stated of it.
fn split(line: &str) -> (String, &str) {
    let (question, stated) = line.split_once("=>").expect("an example has two sides");
    (
        question.replacen("[0]:", ":", 1).trim_end().to_owned(),
        stated.trim(),
    )
}

/// Shadows after a call, as a whole right-hand side tells them.
fn after(told: &OneCall) -> Shadows {
    let mut shadows = told.shadows.clone();
    put(&mut shadows, &told.then).expect("bytes of the shadows");
    shadows
}

fn one_call(question: &str, side: &str) -> OneCall {
    match example(&format!("{question} => {side}")) {
        Some(Example::On(told)) => told,
        _ => panic!("no call: {question} => {side}"),
    }
}

#[test]
fn the_stored_output_is_the_models() {
    let made = String::from_utf8(answered(stored("stdin").as_bytes())).expect("lines are text");
    for (made, kept) in made.lines().zip(stored("stdout").lines()) {
        assert_eq!(made, kept);
    }
    assert_eq!(made, stored("stdout"));
}

#[test]
fn every_stated_example_is_stored_with_its_right_hand_side() {
    let sides = right_hand_sides();
    for name in STATED {
        let text = String::from_utf8(data(name)).expect("example files are text");
        let lines = text
            .lines()
            .filter(|l| !l.is_empty() && !l.starts_with('#'));
        for line in lines {
            let (question, stated) = split(line);
            let side = sides
                .get(&question)
                .unwrap_or_else(|| panic!("{name}: {line}"));
            if question.starts_with("run") {
                assert_eq!(side, stated, "{name}: {line}");
                continue;
            }
            let numbers = |side: &str| side.split(" then ").next().map(str::to_owned);
            assert_eq!(numbers(side), numbers(stated), "{name}: {line}");
            if question.starts_with("on origins:") {
                stored_with_origins(&question, side, stated);
                continue;
            }
            let after = after(&one_call(&question, side));
            for part in &one_call(&question, stated).then {
                let bytes = &part.shadow.of(&after)[part.position..][..part.bytes.len()];
                assert_eq!(bytes, part.bytes, "{name}: {line}");
            }
        }
    }
}

/// What is stated of the state afterwards, beside the whole of it that is stored.
fn stored_with_origins(question: &str, side: &str, stated: &str) {
    let told = |side: &str| match origins::example(&format!("{question} => {side}")) {
        Some(origins::Example::On(told)) => told,
        _ => panic!("no call: {question} => {side}"),
    };
    let (whole, stated) = (told(side), told(stated));
    let mut after = whole.state;
    origins::put(&mut after, &whole.then).expect("bytes of the state");
    let kept = after.clone();
    origins::put(&mut after, &stated.then).expect("bytes of the state");
    assert_eq!(after, kept, "{question}");
}

/// By the heap's bytes alone, and by the stack's alone; free reads the heap only,
/// and remove the stack.
#[test]
fn each_call_that_can_give_8_does() {
    let sides = right_hand_sides();
    let refused: Vec<_> = sides.iter().filter(|s| s.1.starts_with('8')).collect();
    let both = [
        "written",
        "ask",
        "valid",
        "valid_read",
        "initialised",
        "next",
        "audit",
    ];
    let both = both.map(|word| (word, [true, true]));
    let one = [("free", [true, false]), ("remove", [false, true])];
    for (word, reads) in both.into_iter().chain(one) {
        for (reads, other) in reads
            .into_iter()
            .zip([["pri@", "sec@"], ["heap@", "heap@"]])
        {
            let alone = |question: &str| {
                let call = question.split(" : ").nth(1).unwrap_or("");
                call.split(' ').next() == Some(word) && !other.iter().any(|o| question.contains(o))
            };
            let met = refused.iter().any(|s| alone(s.0));
            assert_eq!(met, reads, "{word} {other:?}");
        }
    }
}

/// Free of the null pointer alters no byte, so its samples tell none.
#[test]
fn free_of_0_changes_nothing() {
    let mut samples = 0;
    for (question, side) in calls() {
        if question.ends_with(": free 0") {
            assert_eq!(side, "0", "{question}");
            samples += 1;
        }
    }
    assert!(samples > 15, "{samples} samples");
}

/// No byte counts where free meets the stack area, or remove an address outside it.
#[test]
fn free_of_the_stack_and_remove_elsewhere_say_the_same_of_any_bytes() {
    let mut met = [0; 2];
    for (question, side) in calls() {
        let in_stack = |base| EXAMPLE_MAP.area(base) == Some(Area::Stack);
        match one_call(&question, &side).call {
            Call::Free { base } if in_stack(base) => {
                assert_eq!(side, "15", "{question}");
                met[0] += 1;
            }
            Call::Remove { base } if !in_stack(base) => {
                assert_eq!(side, "4", "{question}");
                met[1] += 1;
            }
            _ => {}
        }
    }
    assert!(met.iter().all(|&count| count > 25), "{met:?}");
}

/// Where the given bytes are an image, the plain list answers alike.
#[test]
fn the_plain_list_agrees_on_images() {
    let mut images = [0; 2];
    for (question, side) in calls() {
        let told = one_call(&question, &side);
        let Some(mut list) = list_of(told.map, &told.shadows) else {
            continue;
        };
        images[usize::from(told.map.form == DESK)] += 1;
        assert_eq!(list.step(told.call), told.answer, "{question}");
        assert_eq!(image(told.map, list.blocks()), after(&told), "{question}");
    }
    assert!(images[0] > 500 && images[1] > 70, "{images:?}");
}

/// The list whose image the shadows are, made by calls alone.
fn list_of(map: Map, shadows: &Shadows) -> Option<PlainList> {
    let blocks = decode(view(map, shadows))?;
    let mut list = PlainList::new(map);
    for block in blocks {
        let (base, length) = (block.base, block.length);
        if block.literal {
            list.step(Call::RecordLiteral { base, length });
            continue;
        }
        list.step(Call::Record { base, length });
        for (address, _) in (base..).zip(&block.written).filter(|(_, &mark)| mark) {
            list.step(Call::Written { address, n: 1 });
        }
    }
    Some(list)
}

#[test]
fn remarks_stay_and_other_lines_get_a_question_mark() {
    let text = |input: &str| String::from_utf8(answered(input.as_bytes())).unwrap();
    assert_eq!(text(""), "");
    assert_eq!(text("\n# on: : audit\n"), "\n# on: : audit\n");
    assert_eq!(text("run:\non::audit"), "run: =>\non::audit => 0 0 0 0 0\n");
    let long = "9".repeat(LONGEST_LINE + 2);
    let cut = &long[1..];
    // The desk has no calls program.
    assert_eq!(text("run desk: 9"), "run desk: 9 => ?\n");
    assert_eq!(text(&long), format!("{cut} => ?\n"));
    let fields = " 0".repeat(16);
    assert_eq!(
        text(&format!("run: 9{fields}")),
        format!("run: 9{fields} => ?\n")
    );
    let fields = " 0".repeat(15);
    assert_eq!(
        text(&format!("run: 9{fields}")),
        format!("run: 9{fields} => 9\n")
    );
}
