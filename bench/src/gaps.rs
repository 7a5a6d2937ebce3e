//! The cases of place: heaps with many gaps, with one, and with nothing but a gap.

use model::call::Call;
use model::random::Random;

use crate::case::{Case, Group, Plan};
use crate::state::{apart, empty, filled, Grid, State};
use crate::targets::gap_targets;

/// Calls of a case, each with a length of its own.
const CALLS: usize = 16;
const LONGEST: u32 = 200;
const ALL: u32 = u32::MAX;

pub fn plan(grid: Grid) -> Plan {
    let close = State {
        title: "close",
        ..filled(grid)
    };
    Plan {
        states: vec![apart(grid), close, empty(grid)],
        cases: vec![
            case("place, 500 blocks, 499 gaps", 0, ALL),
            case("place, 500 blocks, 499 gaps, budget 1", 0, 1),
            case("place, 500 blocks, 1 gap", 1, ALL),
            case("place, empty heap", 2, ALL),
        ],
        targets: gap_targets,
    }
}

fn case(title: &str, state: usize, budget: u32) -> Case {
    let mut random = Random::new(59);
    let calls = (0..CALLS).map(|_| Call::Place {
        length: random.between(1, LONGEST),
        budget,
    });
    Case::new(title, Group::Gaps, state, calls.collect())
}

#[cfg(test)]
mod tests {
    use super::*;
    use crate::state::{DESK, PLAYER};
    use model::plain::List;

    /// As many gaps are looked at as the titles say.
    #[test]
    fn gaps_of_titles() {
        for plan in [PLAYER, DESK].map(plan) {
            for (case, gaps) in plan.cases.iter().zip([499, 1, 1, 1]) {
                let mut list = plan.states[case.state].list();
                let answers = case.timed.iter().map(|&call| list.step(call));
                let accepted: Vec<_> = answers.filter(|answer| answer.number == 0).collect();
                assert!(accepted.iter().all(|answer| answer.fields[1] == gaps));
                assert!(!accepted.is_empty(), "{}", case.title);
            }
        }
    }
}
