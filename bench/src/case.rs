//! What is measured: the cases, each a list of calls in a state.

use model::block::Block;
use model::call::Call;
use model::random::Random;

use crate::lists::Calls;
use crate::places::{self, Room};
use crate::state::{filled, roomy, Grid, State, PLAYER};
use crate::targets::{targets, Target};
use crate::traces::{self, Run, TRACES};

/// Addresses asked for, in no order.
pub const QUERIES: usize = 1024;

/// What a case is, for the targets.
#[derive(Clone, Copy, PartialEq, Eq)]
pub enum Group {
    Reading,
    Next,
    /// Marks set, and marks of whole blocks looked at: without a target.
    Marking,
    Placing,
    Whole,
    Replay,
    /// Places chosen for blocks.
    Gaps,
    /// The same by two forms, each on blocks of its own: the answers are not the same.
    OwnGaps,
    /// The calls that only the form with origins has.
    Pointer,
}

pub struct Case {
    pub title: String,
    pub group: Group,
    /// Which state it begins in.
    pub state: usize,
    pub before: Vec<Call>,
    pub timed: Vec<Call>,
    pub after: Vec<Call>,
    /// The timed calls in a form that is quick to walk. Of a pointer they are its own, and `timed` has what the plain form does instead.
    pub calls: Calls,
}

impl Case {
    pub fn new(title: impl Into<String>, group: Group, state: usize, timed: Vec<Call>) -> Self {
        Case {
            title: title.into(),
            group,
            state,
            before: Vec::new(),
            calls: Calls::new(&timed),
            timed,
            after: Vec::new(),
        }
    }

    /// E-ACSL has no search, no audit, no clearing and no choice of places, and its literals are not on the stack.
    pub fn known_to_eacsl(&self) -> bool {
        let whole = |call: &Call| {
            matches!(
                call,
                Call::Next { .. } | Call::Audit | Call::Clear | Call::Place { .. }
            )
        };
        let literal = |call: &Call| matches!(call, Call::RecordLiteral { .. });
        !self.timed.iter().any(|call| whole(call) || literal(call))
    }

    /// Whether its calls set marks or look at them.
    pub fn of_marks(&self) -> bool {
        matches!(self.calls, Calls::Written(_) | Calls::Initialised(_))
    }
}

pub struct Plan {
    pub states: Vec<State>,
    pub cases: Vec<Case>,
    /// The targets of a case, by its number.
    pub targets: fn(usize, &Case) -> Vec<Target>,
}

pub const FILLED: usize = 0;
pub const ROOMY: usize = 1;

/// All states and cases.
pub fn plan() -> Plan {
    let (states, cases) = cases_on(PLAYER, TRACES.into_iter().map(traces::read));
    Plan {
        states,
        cases,
        targets,
    }
}

/// The states and cases of blocks that lie on a grid, and the replays of runs whose blocks do.
pub fn cases_on(grid: Grid, runs: impl Iterator<Item = Run>) -> (Vec<State>, Vec<Case>) {
    let mut states = vec![filled(grid), roomy(grid)];
    let mut cases = readings(&states[FILLED]);
    cases.extend(markings(&states[FILLED], &states[ROOMY]));
    cases.extend(places::cases(&states[ROOMY]));
    cases.extend(searches(&states[ROOMY]));
    cases.extend(wholes(&states[FILLED]));
    for (state, calls) in runs {
        cases.push(traces::replay(&state, states.len(), calls));
        states.push(state);
    }
    (states, cases)
}

/// One call for each of many blocks picked at random: the block, and an offset with room for n bytes below a limit.
fn queries(
    blocks: &[Block],
    n: u32,
    limit: impl Fn(&Block) -> u32,
    call: impl Fn(&Block, u32) -> Call,
) -> Vec<Call> {
    let mut random = Random::new(31);
    let fit: Vec<&Block> = blocks.iter().filter(|block| limit(block) >= n).collect();
    (0..QUERIES)
        .map(|_| {
            let block = random.pick(&fit);
            let offset = random.between(0, limit(block) - n);
            call(block, block.base + offset)
        })
        .collect()
}

fn whole(block: &Block) -> u32 {
    block.length
}

fn half(block: &Block) -> u32 {
    block.written_count()
}

/// The call for an address in a block.
type Within = fn(&Block, u32) -> Call;

/// The calls that take readings alone: a case's words, how many bytes, and the call.
#[rustfmt::skip]
const LOOKS: [(&str, u32, Within); 3] = [
    ("ask", 1, |_, address| Call::Ask { address }),
    ("valid of 4", 4, |block, address| Call::Valid { address, n: 4, from: block.base }),
    ("valid_read of 4", 4, |block, address| Call::ValidRead { address, n: 4, from: block.base }),
];

fn readings(state: &State) -> Vec<Case> {
    let heap = state.heap_blocks();
    let (short, long): (Vec<Block>, Vec<Block>) = state
        .stack_blocks()
        .into_iter()
        .partition(|block| block.length <= 8);
    let places = [
        ("heap", &heap),
        ("short stack block", &short),
        ("long stack block", &long),
    ];
    let mut cases = Vec::new();
    let mut add = |title: &str, timed| cases.push(Case::new(title, Group::Reading, FILLED, timed));
    for (words, n, call) in LOOKS {
        for (place, blocks) in places {
            add(
                &format!("{words}, {place}"),
                queries(blocks, n, whole, call),
            );
        }
    }
    for n in [1, 8] {
        let initialised = move |_: &Block, address| Call::Initialised { address, n };
        add(
            &format!("initialised of {n}, heap"),
            queries(&heap, n, half, initialised),
        );
        add(
            &format!("initialised of {n}, stack"),
            queries(&long, n, half, initialised),
        );
    }
    cases
}

fn markings(filled: &State, roomy: &State) -> Vec<Case> {
    let areas = [
        ("heap", filled.heap_blocks()),
        ("stack", filled.stack_blocks()),
    ];
    let mut cases = Vec::new();
    for n in [1, 8] {
        for (area, blocks) in &areas {
            let written = move |_: &Block, address| Call::Written { address, n };
            let timed = queries(blocks, n, half, written);
            let title = format!("written of {n}, {area}");
            cases.push(Case::new(title, Group::Marking, FILLED, timed));
        }
    }
    for room in Room::of(roomy) {
        let length = 1024;
        let base = room.bases(length)[0];
        let each = (0..length).map(|i| Call::Written {
            address: base + i,
            n: 1,
        });
        let title = format!("written of 1, byte by byte, {}", room.area);
        let mut case = Case::new(title, Group::Marking, ROOMY, each.collect());
        case.before = vec![Call::Record { base, length }];
        case.after = vec![roomy.to_end(base)];
        cases.push(case);
    }
    cases
}

/// A number below a million as documents write it.
pub fn thousands(number: u32) -> String {
    match number {
        0..=999 => number.to_string(),
        _ => format!("{},{:03}", number / 1000, number % 1000),
    }
}

fn searches(state: &State) -> Vec<Case> {
    Room::of(state)
        .map(|room| {
            let address = room.end - 1000;
            let title = format!("next over 1,000 free bytes, {}", room.area);
            Case::new(title, Group::Next, ROOMY, vec![Call::Next { address }; 16])
        })
        .into()
}

fn wholes(state: &State) -> Vec<Case> {
    let audit = Case::new("audit", Group::Whole, FILLED, vec![Call::Audit]);
    let mut clear = Case::new("clear", Group::Whole, FILLED, vec![Call::Clear]);
    clear.after = state.calls.clone();
    vec![audit, clear]
}
