//! The stored outputs are the model's. `CALLS_EXPECTED=write` writes them anew.

mod common;

use calls_text::kinds::Form;
use common::{assert_lines, bytes, example, examples, model_run, repository};
use model::program::run;

#[test]
fn stored_outputs_are_the_models() {
    let write = std::env::var_os("CALLS_EXPECTED").is_some_and(|value| value == "write");
    for form in [Form::Plain, Form::Origins] {
        for (name, file) in examples(form) {
            let path = format!("examples/calls/{name}.expected");
            let output = model_run(form, &file);
            if write {
                std::fs::write(repository(&path), output).expect("a file of examples/calls");
            } else {
                let what = format!("{path} (CALLS_EXPECTED=write writes it anew)");
                assert_lines(&what, &bytes(&path), &output);
            }
        }
    }
}

/// The program's own input is the worked example; its output was typed from the specification.
#[test]
fn the_worked_example() {
    let input = example("worked");
    assert!(
        bytes("crates/calls/stdin") == input,
        "crates/calls/stdin is not examples/calls/worked.txt"
    );
    assert_lines(
        "crates/calls/stdout",
        &bytes("crates/calls/stdout"),
        &run(&input),
    );
}
