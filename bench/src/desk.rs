//! The cases that set the desk form beside the player's, on blocks that lie as both want it.

use model::call::Call;

use crate::case::{cases_on, Case, Group, Plan};
use crate::gaps;
use crate::library::this::Library;
use crate::lists::Calls;
use crate::side::Here;
use crate::state::{State, DESK, PLAYER};
use crate::traces::{self, TRACES};

pub fn plan() -> Plan {
    let runs = TRACES.into_iter().map(traces::read).map(traces::spread);
    let (mut states, mut cases) = cases_on(DESK, runs);
    let gaps = gaps::plan(DESK);
    cases.extend(gaps.cases.into_iter().map(|case| Case {
        group: Group::OwnGaps,
        state: states.len() + case.state,
        ..case
    }));
    states.extend(gaps.states);
    Plan {
        states,
        cases,
        targets: |_, _| Vec::new(),
    }
}

/// The player's library. For place its blocks lie as in its own table: before blocks that leave a header of 16 bytes it would find gaps where the
/// desk form finds none.
pub struct Player {
    library: Library,
    own: Vec<State>,
}

impl Player {
    pub fn new() -> Self {
        Player {
            library: Library::new("player", Vec::new()),
            own: gaps::plan(PLAYER).states,
        }
    }
}

impl Here for Player {
    fn title(&self) -> &'static str {
        self.library.title
    }

    fn load(&mut self, state: &State) {
        let own = self.own.iter().find(|own| own.title == state.title);
        self.library.load(own.unwrap_or(state));
    }

    fn make(&mut self, calls: &[Call]) {
        self.library.make(calls);
    }

    fn measured(&mut self, calls: &Calls) -> u64 {
        self.library.measured(calls)
    }
}

#[cfg(test)]
mod tests {
    use super::*;
    use model::plain::List;

    /// All calls are accepted where the heap has segments of 16 bytes, but for places that are not there.
    #[test]
    fn accepted() {
        let plan = plan();
        for (number, state) in plan.states.iter().enumerate() {
            let mut list = state.list();
            for case in plan.cases.iter().filter(|case| case.state == number) {
                let lists = [&case.before, &case.timed, &case.after];
                for &call in lists.into_iter().flatten() {
                    let given = list.step(call).number;
                    let fits = given == 0 || case.group == Group::OwnGaps;
                    assert!(fits, "{}: {call:?} is refused by {given}", case.title);
                }
            }
        }
    }
}
