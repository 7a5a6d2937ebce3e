//! A side of the comparison: in this program, or E-ACSL's library in a program of its own.

use std::hint::black_box;
use std::time::Instant;

use model::call::Call;
use model::plain::List;

use crate::case::Case;
use crate::lists::{Calls, Maker, Weight};
use crate::measure::median;
use crate::server::Server;
use crate::state::State;

/// A side that lives in this program.
pub trait Here {
    fn title(&self) -> &'static str;
    /// Whether it has the case's calls at all.
    fn has(&self, _case: &Case) -> bool {
        true
    }
    fn load(&mut self, state: &State);
    /// Takes what it needs of a case before any of its passes.
    fn prepare(&mut self, _state: &State, _case: &Case) {}
    /// Makes calls, untimed.
    fn make(&mut self, calls: &[Call]);
    /// Makes the timed calls; answers the sum of the answers.
    fn measured(&mut self, calls: &Calls) -> u64;
}

/// The one function that is timed and, under callgrind, counted.
#[no_mangle]
#[inline(never)]
pub fn bench_measured(side: &mut dyn Here, calls: &Calls) -> u64 {
    side.measured(calls)
}

pub enum Side {
    Here(Box<dyn Here>),
    There(Server),
}

impl Side {
    pub fn title(&self) -> &'static str {
        match self {
            Side::Here(side) => side.title(),
            Side::There(server) => server.title(),
        }
    }

    pub fn has(&self, case: &Case) -> bool {
        match self {
            Side::Here(side) => side.has(case),
            Side::There(_) => case.known_to_eacsl(),
        }
    }

    pub fn load(&mut self, state: &State, number: usize) {
        match self {
            Side::Here(side) => side.load(state),
            Side::There(server) => server.load(number),
        }
    }

    pub fn prepare(&mut self, state: &State, case: &Case, number: usize) {
        match self {
            Side::Here(side) => side.prepare(state, case),
            Side::There(server) => server.prepare(number),
        }
    }

    /// Nanoseconds of the middle one of so many passes, and the sum of the answers of the last.
    pub fn run(&mut self, case: &Case, passes: u64) -> (f64, u64) {
        match self {
            Side::Here(side) => run_here(side.as_mut(), case, passes),
            Side::There(server) => server.run(passes),
        }
    }
}

fn run_here(side: &mut dyn Here, case: &Case, passes: u64) -> (f64, u64) {
    let mut sum = 0;
    let mut times = Vec::with_capacity(passes as usize);
    for _ in 0..passes {
        side.make(&case.before);
        let start = Instant::now();
        sum = black_box(bench_measured(side, &case.calls));
        times.push(start.elapsed().as_nanos() as f64);
        side.make(&case.after);
    }
    (median(times), sum)
}

/// A list model.
pub struct Model<L> {
    title: &'static str,
    list: Option<L>,
}

impl<L> Model<L> {
    pub fn new(title: &'static str) -> Self {
        Model { title, list: None }
    }
}

impl<L: List> Here for Model<L> {
    fn title(&self) -> &'static str {
        self.title
    }

    fn load(&mut self, state: &State) {
        self.list = Some(L::new(state.map));
        self.make(&state.calls);
    }

    fn make(&mut self, calls: &[Call]) {
        let list = self.list.as_mut().expect("a state is loaded");
        for &call in calls {
            black_box(list.step(call));
        }
    }

    fn measured(&mut self, calls: &Calls) -> u64 {
        let list = self.list.as_mut().expect("a state is loaded");
        let sum = Weight::default();
        let mut summed = Summed { list, sum };
        calls.each(&mut summed);
        summed.sum.total()
    }
}

struct Summed<'a, L> {
    list: &'a mut L,
    sum: Weight,
}

impl<L: List> Maker for Summed<'_, L> {
    #[inline(always)]
    fn one(&mut self, call: Call) {
        let answer = self.list.step(call);
        self.sum.add(call, answer.number, black_box(&answer.fields));
    }
}
