//! The measuring: rounds, in each of which every side has its turn, and the median over the rounds.

use crate::case::{Case, Group, Plan};
use crate::side::Side;

pub struct Effort {
    pub rounds: usize,
    /// Nanoseconds of timed calls for each side in a round.
    pub turn: f64,
}

/// The rounds of one side: nanoseconds a call.
pub type Rounds = Vec<f64>;

/// One case: its rounds by side, none where a side lacks the calls.
pub type Row = Vec<Option<Rounds>>;

/// The server has room for no more.
const MOST_PASSES: f64 = 20_000.0;

pub fn measure(plan: &Plan, sides: &mut [Side], effort: &Effort) -> Vec<Row> {
    let mut rows: Vec<Row> = plan.cases.iter().map(|_| Vec::new()).collect();
    let empty = timer_cost();
    for (number, state) in plan.states.iter().enumerate() {
        for side in sides.iter_mut() {
            side.load(state, number);
        }
        for (index, case) in plan.cases.iter().enumerate() {
            if case.state == number {
                for side in sides.iter_mut().filter(|side| side.has(case)) {
                    side.prepare(state, case, index);
                }
                rows[index] = measure_case(case, sides, effort, empty);
            }
        }
    }
    rows
}

fn measure_case(case: &Case, sides: &mut [Side], effort: &Effort, empty: f64) -> Row {
    let passes: Vec<u64> = sides
        .iter_mut()
        .map(|side| passes(case, side, effort))
        .collect();
    check_sums(case, sides);
    let mut row: Row = sides
        .iter()
        .map(|side| side.has(case).then(Vec::new))
        .collect();
    for round in 0..effort.rounds {
        for turn in 0..sides.len() {
            // Each round begins with another side.
            let index = (round + turn) % sides.len();
            if let Some(rounds) = &mut row[index] {
                let (time, _) = sides[index].run(case, passes[index]);
                rounds.push((time - empty) / case.timed.len() as f64);
            }
        }
    }
    row
}

/// How many passes fill a side's turn, told by warm ones.
fn passes(case: &Case, side: &mut Side, effort: &Effort) -> u64 {
    if !side.has(case) {
        return 0;
    }
    let (time, _) = side.run(case, 3);
    (effort.turn / time.max(1.0)).clamp(1.0, MOST_PASSES) as u64
}

/// All sides answer the same; memset answers nothing, of a pointer the plain form answers something else, and so do two forms that place blocks.
fn check_sums(case: &Case, sides: &mut [Side]) {
    if matches!(case.group, Group::Pointer | Group::OwnGaps) {
        return;
    }
    let mut sums = Vec::new();
    for side in sides.iter_mut() {
        if side.has(case) && side.title() != "memset" {
            sums.push((side.title(), side.run(case, 1).1));
        }
    }
    if sums.iter().any(|&(_, sum)| sum != sums[0].1) {
        println!("{}: the sums of the answers differ: {sums:?}", case.title);
    }
}

/// What reading the clock twice takes.
fn timer_cost() -> f64 {
    let costs = (0..1001).map(|_| {
        let start = std::time::Instant::now();
        start.elapsed().as_nanos() as f64
    });
    median(costs.collect())
}

pub fn median(mut values: Vec<f64>) -> f64 {
    values.sort_by(f64::total_cmp);
    let middle = values.len() / 2;
    if values.len() % 2 == 1 {
        values[middle]
    } else {
        (values[middle - 1] + values[middle]) / 2.0
    }
}

/// The median over the rounds of one side's time in that of another.
pub fn ratio(one: &Rounds, other: &Rounds) -> f64 {
    let pairs = one.iter().zip(other);
    median(pairs.map(|(one, other)| one / other).collect())
}
