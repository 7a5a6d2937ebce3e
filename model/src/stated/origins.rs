//! The lines of the samples for the form with origins, `on origins:` and
//! `run origins:`, which may give another map.

use super::notation::{answer_of, runs, sides, Runs};
use crate::call::Answer;
use crate::map::Map;
use crate::notation::{number_of, words, EXAMPLE_MAP};
use crate::origins::call::OriginsCall;
use crate::origins::cells::State;
use crate::origins::notation::{named_call, part, parts, put, state_of, Part};

/// An example: runs of the program, or one call on a given state.
#[derive(Clone, Debug)]
pub enum Example {
    Run(Runs),
    On(OneCall),
}

/// One call on a given state, its answer, and what is then stated.
#[derive(Clone, Debug)]
pub struct OneCall {
    pub map: Map,
    pub state: State,
    pub call: OriginsCall,
    pub answer: Answer,
    pub then: Vec<Part>,
}

impl OneCall {
    /// The state afterwards: the one given, but for what is stated.
    pub fn after(&self) -> State {
        let mut after = self.state.clone();
        put(&mut after, &self.then).expect("a sample's bytes have their places");
        after
    }
}

/// The example a line states, if it keeps to the notation.
pub fn example(line: &str) -> Option<Example> {
    let (head, text) = line.split_once(':')?;
    let (question, result) = text.split_once("=>")?;
    match head {
        "run origins" => runs(question, result).map(Example::Run),
        "on origins" => one_call(question, result).map(Example::On),
        _ => None,
    }
}

fn one_call(question: &str, result: &str) -> Option<OneCall> {
    let (map, state, call) = asked(question)?;
    let (answer, then) = sides(result);
    let then = parts(then)?;
    put(&mut state.clone(), &then)?;
    Some(OneCall {
        map,
        state,
        call,
        answer: answer_of(answer, call.answer_fields())?,
        then,
    })
}

/// The map, the state and the call of `state : call`. Of two maps the last one
/// counts; the lengths are those of the example map, whatever map is given.
pub(super) fn asked(text: &str) -> Option<(Map, State, OriginsCall)> {
    let (given, call) = text.split_once(':')?;
    if !given.is_empty() && !given.starts_with(' ') {
        return None;
    }
    let mut map = EXAMPLE_MAP;
    let mut parts = Vec::new();
    for word in words(given) {
        match word.strip_prefix("map=") {
            Some(numbers) => map = map_of(numbers)?,
            None => parts.push(part(word)?),
        }
    }
    Some((map, state_of(&parts)?, named_call(call)?))
}

fn map_of(text: &str) -> Option<Map> {
    let numbers: Option<Vec<u32>> = text.split(',').map(number_of).collect();
    let [heap_start, heap_size, stack_start, stack_size] = numbers?.try_into().ok()?;
    Some(Map::new(heap_start, heap_size, stack_start, stack_size))
}
