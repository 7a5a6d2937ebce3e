//! Cases over many blocks of one length: recorded, freed or removed, marked whole, looked at whole.

use model::call::Call;

use crate::case::{thousands, Case, Group, ROOMY};
use crate::state::State;

/// Blocks of a case, at most.
const PLACES: usize = 200;
const LENGTHS: [u32; 3] = [8, 64, 1024];

/// The room of an area between its last two blocks.
pub struct Room {
    pub area: &'static str,
    start: u32,
    pub end: u32,
    /// Bytes ahead of each block.
    header: u32,
    /// Bases are multiples of it.
    step: u32,
}

impl Room {
    pub fn of(state: &State) -> [Room; 2] {
        let segment = state.map.form.segment;
        let areas = [
            ("heap", state.heap_blocks(), segment, segment),
            ("stack", state.stack_blocks(), 0, 8),
        ];
        areas.map(|(area, blocks, header, step)| {
            let [.., one, other] = &blocks[..] else {
                panic!("an area has two blocks at least");
            };
            Room {
                area,
                start: one.base + one.length,
                end: other.base,
                header,
                step,
            }
        })
    }

    /// The bases of blocks of one length, one after the other.
    pub fn bases(&self, length: u32) -> Vec<u32> {
        let first = self.start.next_multiple_of(self.step) + self.header;
        let taken = length.next_multiple_of(self.step) + self.header;
        let bases = (first..self.end - self.header - length).step_by(taken as usize);
        bases.take(PLACES).collect()
    }
}

/// A call for a block of this base and length.
type Each = fn(&State, u32, u32) -> Call;

const RECORD: Each = |_, base, length| Call::Record { base, length };
const RECORD_WRITTEN: Each = |_, base, length| Call::RecordWritten { base, length };
const RECORD_LITERAL: Each = |_, base, length| Call::RecordLiteral { base, length };
const END: Each = |state, base, _| state.to_end(base);
const WRITTEN: Each = |_, address, n| Call::Written { address, n };
const INITIALISED: Each = |_, address, n| Call::Initialised { address, n };

const BOTH: &[&str] = &["heap", "stack"];
const HEAP: &[&str] = &["heap"];
const STACK: &[&str] = &["stack"];

/// A case's words and group, the areas that have it, and what is made on all blocks before, timed and after.
struct Way(
    &'static str,
    Group,
    &'static [&'static str],
    Option<Each>,
    Each,
    Option<Each>,
);

#[rustfmt::skip]
const WAYS: [Way; 7] = [
    Way("written of a whole block", Group::Marking, BOTH, Some(RECORD), WRITTEN, Some(END)),
    // All bytes are written, so that every mark is looked at.
    Way("initialised of a whole block", Group::Marking, BOTH, Some(RECORD_WRITTEN), INITIALISED, Some(END)),
    Way("record", Group::Placing, BOTH, None, RECORD, Some(END)),
    Way("record_written", Group::Placing, BOTH, None, RECORD_WRITTEN, Some(END)),
    Way("record_literal", Group::Placing, STACK, None, RECORD_LITERAL, Some(END)),
    Way("free", Group::Placing, HEAP, Some(RECORD), END, None),
    Way("remove", Group::Placing, STACK, Some(RECORD), END, None),
];

/// One case for each way, area and length.
pub fn cases(state: &State) -> Vec<Case> {
    let rooms = Room::of(state);
    let mut cases = Vec::new();
    for &Way(words, group, areas, before, timed, after) in &WAYS {
        for room in rooms.iter().filter(|room| areas.contains(&room.area)) {
            for length in LENGTHS {
                let bases = room.bases(length);
                let each = |call: Each| {
                    let calls = bases.iter().map(|&base| call(state, base, length));
                    calls.collect()
                };
                let title = format!("{words} of {}, {}", thousands(length), room.area);
                let mut case = Case::new(title, group, ROOMY, each(timed));
                case.before = before.map(each).unwrap_or_default();
                case.after = after.map(each).unwrap_or_default();
                cases.push(case);
            }
        }
    }
    cases
}

#[cfg(test)]
mod tests {
    use super::*;
    use crate::lists::Calls;
    use crate::state::{roomy, PLAYER};
    use model::map::Area;
    use model::plain::List;

    const ALL_WRITTEN: [u32; 4] = [1, 0, 0, 0];

    /// Each timed call has one whole block, which is unmarked before `written` and all written before `initialised`.
    fn check(state: &State, case: &Case, area: Area, length: u32) {
        let title = &case.title;
        let mut list = state.list();
        let mut step = |call| {
            let answer = list.step(call);
            assert_eq!(answer.number, 0, "{title}: {call:?}");
            answer.fields
        };
        for &call in &case.before {
            step(call);
        }
        assert!(case.of_marks() && case.timed.len() > 30, "{title}");
        for &call in &case.timed {
            let (Call::Written { address, n } | Call::Initialised { address, n }) = call else {
                panic!("{title}: {call:?}");
            };
            let last = Call::Ask {
                address: address + length - 1,
            };
            let marked = |mark| [address, length, length - 1, mark];
            assert_eq!((n, state.map.area(address)), (length, Some(area)));
            if let Call::Initialised { .. } = call {
                assert_eq!(step(call), ALL_WRITTEN, "{title}");
            } else {
                assert_eq!(step(last), marked(0), "{title}");
                step(call);
            }
            assert_eq!(step(last), marked(1), "{title}");
        }
        for &call in &case.after {
            step(call);
        }
        assert_eq!(list.listed(), state.list().listed(), "{title}");
    }

    /// Literals are recorded in the stack alone; blocks are freed in the heap and removed in the stack. All calls are accepted.
    #[test]
    fn areas_and_acceptance() {
        let state = roomy(PLAYER);
        let cases = cases(&state);
        let count = |words: &str| {
            let named = |case: &&Case| case.title.starts_with(words);
            cases.iter().filter(named).count()
        };
        assert_eq!(count("record of"), 2 * LENGTHS.len());
        assert_eq!(count("record_written of"), 2 * LENGTHS.len());
        assert_eq!(count("record_literal of"), LENGTHS.len());
        assert_eq!(count("free of"), LENGTHS.len());
        assert_eq!(count("remove of"), LENGTHS.len());
        for case in &cases {
            let freed = matches!(case.calls, Calls::Frees(_));
            let removed = matches!(case.calls, Calls::Removes(_));
            assert_eq!(freed, case.title.starts_with("free of"));
            assert_eq!(removed, case.title.starts_with("remove of"));
            let mut list = state.list();
            for &call in [&case.before, &case.timed, &case.after]
                .into_iter()
                .flatten()
            {
                assert_eq!(list.step(call).number, 0, "{}: {call:?}", case.title);
            }
        }
    }

    #[test]
    fn marks_of_whole_blocks() {
        let state = roomy(PLAYER);
        let cases = cases(&state);
        for (area, of) in [(Area::Heap, "heap"), (Area::Stack, "stack")] {
            for (length, text) in [(8, "8"), (64, "64"), (1024, "1,024")] {
                for word in ["written", "initialised"] {
                    let title = format!("{word} of a whole block of {text}, {of}");
                    let case = cases.iter().find(|case| case.title == title);
                    check(&state, case.expect(&title), area, length);
                }
            }
        }
    }
}
