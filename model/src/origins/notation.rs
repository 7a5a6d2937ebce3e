//! The lines of the example files for this form.
//!
//! `run origins: records => lines` is an input of the calls program of this
//! form. `on origins: state : call => number fields then state` is one call on
//! a state that is zero, with the counter at 1, but for what is given:
//! `heap@8=1,0` and the like as in the plain form, `heapcells@16=1` and
//! `stackcells@4=1` for the cells, `counter=5`, and `heapcells=127` for a
//! length that is not the area's (of any of the five, at most [`LONGEST`]).

use crate::call::Answer;
use crate::notation::EXAMPLE_MAP;
use crate::notation::{answer_of, call_of, lines_of, number_of, numbers_of, records, words};
use crate::origins::call::OriginsCall;
use crate::origins::cells::State;

/// The longest length that can be given.
pub const LONGEST: usize = 136;

/// An example: a run of the program, or one call on a given state.
#[derive(Clone, Debug)]
pub enum Example {
    Run { input: Vec<u8>, output: Vec<u8> },
    On(OneCall),
}

/// One call on a given state, its answer, and what is then stated.
#[derive(Clone, Debug)]
pub struct OneCall {
    pub state: State,
    pub call: OriginsCall,
    pub answer: Answer,
    pub then: Vec<Part>,
}

/// A part of a state.
#[derive(Clone, Debug)]
pub enum Part {
    Bytes(Lent, usize, Vec<u8>),
    Length(Lent, usize),
    Counter(u64),
}

/// Which of the five lent shadows.
#[derive(Clone, Copy, Debug, PartialEq, Eq)]
pub enum Lent {
    Heap,
    Primary,
    Secondary,
    HeapCells,
    StackCells,
}

impl Lent {
    /// In the order in which they are told.
    pub const ALL: [Lent; 5] = [
        Lent::Heap,
        Lent::Primary,
        Lent::Secondary,
        Lent::HeapCells,
        Lent::StackCells,
    ];

    /// Its name in the notation.
    pub fn name(self) -> &'static str {
        match self {
            Lent::Heap => "heap",
            Lent::Primary => "pri",
            Lent::Secondary => "sec",
            Lent::HeapCells => "heapcells",
            Lent::StackCells => "stackcells",
        }
    }

    /// This one of a state.
    pub fn of(self, state: &State) -> &[u8] {
        match self {
            Lent::Heap => &state.shadows.heap,
            Lent::Primary => &state.shadows.primary,
            Lent::Secondary => &state.shadows.secondary,
            Lent::HeapCells => &state.cells.heap,
            Lent::StackCells => &state.cells.stack,
        }
    }

    fn of_mut(self, state: &mut State) -> &mut Vec<u8> {
        match self {
            Lent::Heap => &mut state.shadows.heap,
            Lent::Primary => &mut state.shadows.primary,
            Lent::Secondary => &mut state.shadows.secondary,
            Lent::HeapCells => &mut state.cells.heap,
            Lent::StackCells => &mut state.cells.stack,
        }
    }
}

/// All examples of a text, each with the remark before it and its own line.
pub fn examples(text: &str) -> Vec<(&str, &str, Example)> {
    let mut remark = "";
    let mut found = Vec::new();
    for line in text.lines().map(str::trim) {
        if let Some(words) = line.strip_prefix('#') {
            remark = words.trim();
        } else if !line.is_empty() {
            let example = example(line).unwrap_or_else(|| panic!("no example: {line}"));
            found.push((remark, line, example));
        }
    }
    found
}

/// The example a line states, if it keeps to the notation.
pub fn example(line: &str) -> Option<Example> {
    let (head, text) = line.split_once(':')?;
    let (question, result) = text.split_once("=>")?;
    match head {
        "run origins" => Some(Example::Run {
            input: records(question).collect::<Option<Vec<_>>>()?.concat(),
            output: lines_of(result),
        }),
        "on origins" => {
            let (state, call) = asked(question)?;
            let (answer, then) = result.split_once("then").unwrap_or((result, ""));
            Some(Example::On(OneCall {
                state,
                call,
                answer: answer_of(answer)?,
                then: parts(then)?,
            }))
        }
        _ => None,
    }
}

/// The state and the call of `state : call`.
pub fn asked(text: &str) -> Option<(State, OriginsCall)> {
    let (given, call) = text.split_once(':')?;
    if !given.is_empty() && !given.starts_with(' ') {
        return None;
    }
    Some((state_of(&parts(given)?)?, named_call(call)?))
}

/// The state of the parts given, from left to right: bytes must have their
/// place in the length given last before them.
pub(crate) fn state_of(parts: &[Part]) -> Option<State> {
    let mut state = State::cleared(EXAMPLE_MAP);
    let mut lengths = Lent::ALL.map(|lent| lent.of(&state).len());
    for lent in Lent::ALL {
        lent.of_mut(&mut state).resize(LONGEST, 0);
    }
    for part in parts {
        match *part {
            Part::Bytes(lent, position, ref bytes) => {
                let room = &mut lent.of_mut(&mut state)[..lengths[lent as usize]];
                room.get_mut(position..position + bytes.len())?
                    .copy_from_slice(bytes);
            }
            Part::Length(lent, length) if length <= LONGEST => {
                lengths[lent as usize] = length;
            }
            Part::Length(..) => return None,
            Part::Counter(counter) => state.counter = counter,
        }
    }
    for (lent, length) in Lent::ALL.into_iter().zip(lengths) {
        lent.of_mut(&mut state).truncate(length);
    }
    Some(state)
}

/// A state with what is stated of it afterwards, which is no length.
pub fn put(state: &mut State, parts: &[Part]) -> Option<()> {
    for part in parts {
        match part {
            Part::Bytes(lent, position, bytes) => lent
                .of_mut(state)
                .get_mut(*position..position + bytes.len())?
                .copy_from_slice(bytes),
            Part::Length(..) => return None,
            Part::Counter(counter) => state.counter = *counter,
        }
    }
    Some(())
}

pub(crate) fn parts(text: &str) -> Option<Vec<Part>> {
    words(text).map(part).collect()
}

pub(crate) fn part(word: &str) -> Option<Part> {
    let lent = |name: &str| Lent::ALL.into_iter().find(|lent| lent.name() == name);
    let (place, value) = word.split_once('=')?;
    if let Some((name, position)) = place.split_once('@') {
        let bytes: Option<Vec<u8>> = value.split(',').map(number_of).collect();
        let position = number_of::<u32>(position)? as usize;
        return Some(Part::Bytes(lent(name)?, position, bytes?));
    }
    match place {
        "counter" => Some(Part::Counter(number_of(value)?)),
        name => Some(Part::Length(lent(name)?, number_of::<u32>(value)? as usize)),
    }
}

pub(crate) fn named_call(text: &str) -> Option<OriginsCall> {
    let trimmed = text.trim_matches(' ');
    let (name, rest) = trimmed.split_once(' ').unwrap_or((trimmed, ""));
    let names = ["point", "copy", "live"];
    match names.iter().position(|&known| known == name) {
        Some(index) => OriginsCall::from_record(index as u16 + 11, &numbers_of(rest)?),
        // This form does not offer place.
        None if name == "place" => None,
        None => call_of(text).map(OriginsCall::Plain),
    }
}
