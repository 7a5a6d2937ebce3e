//! Every run of the model's data on the calls programs.

mod common;

use calls_text::kinds::Form;
use common::{assert_lines, model_run, piped};
use model::stated::all;

/// Every run of a form: the program's lines are the stated ones and the model's. How many samples and how many inputs there are is returned.
fn every_run(form: Form) -> (usize, usize) {
    let (mut samples, mut inputs) = (0, 0);
    for sample in all() {
        let Some(runs) = sample.runs(form == Form::Origins) else {
            continue;
        };
        for input in &runs.inputs {
            let what = sample.to_string();
            assert_lines(&what, &piped(form, input), &runs.output);
            assert_lines(&what, &model_run(form, input), &runs.output);
            inputs += 1;
        }
        samples += 1;
    }
    (samples, inputs)
}

#[test]
fn every_run_of_the_plain_program() {
    let (samples, inputs) = every_run(Form::Plain);
    assert!(samples >= 380 && inputs >= 630, "{samples} {inputs}");
}

#[test]
fn every_run_of_the_program_with_origins() {
    let (samples, inputs) = every_run(Form::Origins);
    assert!(samples >= 340 && inputs >= 640, "{samples} {inputs}");
}
