//! Times the calls of the linked library beside its peers, in one run. `./bench.sh` builds and calls it.

mod case;
mod count;
mod desk;
mod forms;
mod gaps;
mod library;
mod lists;
mod measure;
mod memset;
mod origins;
mod places;
mod plot;
mod report;
mod scan;
mod server;
mod side;
mod state;
mod targets;
mod traces;

use std::fs;
use std::path::{Path, PathBuf};

use model::plain::PlainList;
use model::plain_btree::PlainTree;

use case::Plan;
use desk::Player;
use measure::Effort;
use memset::Memset;
use origins::Origins;
use report::{Others, Report};
use scan::Scan;
use server::Server;
use side::{Model, Side};
use state::PLAYER;

const OUT: &str = "target/bench";

/// A comparison: its name, its plan, its sides that live in this program, the first of them in all ratios, and those of E-ACSL's that take part.
struct Comparison {
    name: &'static str,
    plan: fn() -> Plan,
    here: fn() -> Vec<Side>,
    there: &'static [&'static str],
}

const MAIN: Comparison = Comparison {
    name: "main",
    plan: case::plan,
    here,
    there: &["shadow", "trie"],
};

const FORMS: Comparison = Comparison {
    name: "forms",
    plan: forms::plan,
    here: forms,
    there: &[],
};

const GAPS: Comparison = Comparison {
    name: "gaps",
    plan: || gaps::plan(PLAYER),
    here: placers,
    there: &[],
};

const DESK: Comparison = Comparison {
    name: "desk",
    plan: desk::plan,
    here: desks,
    there: &["shadow"],
};

/// The library of this build, under a title.
fn library(title: &'static str) -> Side {
    Side::Here(Box::new(library::this::Library::new(title, Vec::new())))
}

/// The sides that live in this program; the library is the first.
fn here() -> Vec<Side> {
    vec![
        library("monitor"),
        #[cfg(before)]
        Side::Here(Box::new(library::before::Library::new("before", lacks()))),
        Side::Here(Box::new(Memset::new(false))),
        Side::Here(Box::new(Model::<PlainList>::new("list"))),
        Side::Here(Box::new(Model::<PlainTree>::new("tree"))),
    ]
}

/// The form with origins, beside the plain form.
fn forms() -> Vec<Side> {
    vec![
        Side::Here(Box::new(Origins::new())),
        library("plain"),
        Side::Here(Box::new(Memset::new(true))),
    ]
}

/// place, beside the same in C.
fn placers() -> Vec<Side> {
    vec![
        library("monitor"),
        Side::Here(Box::new(Scan::new())),
        Side::Here(Box::new(Memset::new(false))),
    ]
}

/// The desk form, beside the player's.
fn desks() -> Vec<Side> {
    vec![
        Side::Here(Box::new(library::desk::Library::new("desk", Vec::new()))),
        Side::Here(Box::new(Player::new())),
    ]
}

/// The symbols of this build that the earlier one lacks.
#[cfg(before)]
fn lacks() -> Vec<String> {
    let list = fs::read_to_string(Path::new(OUT).join("before-lacks"));
    list.expect("what the earlier build lacks")
        .lines()
        .map(String::from)
        .collect()
}

fn main() {
    let words: Vec<String> = std::env::args().skip(1).collect();
    if let [count::ONE_PASS, name] = words.iter().map(String::as_str).collect::<Vec<_>>()[..] {
        let all = [MAIN, FORMS, GAPS, DESK];
        let named = all.iter().find(|comparison| comparison.name == name);
        let Comparison { plan, here, .. } = named.expect("the name of a comparison");
        return count::one_pass(&plan(), &mut here());
    }
    let quick = words.iter().any(|word| word == "--quick");
    let effort = Effort {
        rounds: if quick { 5 } else { 15 },
        turn: if quick { 1e6 } else { 4e6 },
    };
    let report = MAIN.measured(&effort);
    let others = Others {
        forms: FORMS.measured(&effort),
        gaps: GAPS.measured(&effort),
        desk: DESK.measured(&effort),
    };
    print!("{}\n{}", report.text(), others.text());
    report.write(Path::new(OUT), &others);
    if words.iter().any(|word| word == "--docs") {
        report.write_docs(Path::new("docs"), &others);
    }
}

impl Comparison {
    /// E-ACSL's models that take part, where they were built.
    fn servers(&self) -> Vec<(&'static str, PathBuf)> {
        let programs = self
            .there
            .iter()
            .map(|&title| (title, Path::new(OUT).join(format!("eacsl-{title}"))));
        programs.filter(|(_, program)| program.exists()).collect()
    }

    fn measured(&self, effort: &Effort) -> Report {
        let out = Path::new(OUT);
        let (plan, servers) = ((self.plan)(), self.servers());
        let calls = out.join(format!("calls-{}", self.name));
        if !servers.is_empty() {
            server::write_files(&calls, &plan);
        }
        let mut sides = (self.here)();
        for (title, program) in &servers {
            sides.push(Side::There(Server::start(title, &[], program, &calls)));
        }
        let rows = measure::measure(&plan, &mut sides, effort);
        let titles = sides.iter().map(Side::title).collect();
        for side in sides {
            if let Side::There(server) = side {
                server.end();
            }
        }
        let counts = count::valgrind_there()
            .then(|| count::count(&plan, self.name, &(self.here)(), &servers, &calls, out));
        let versions = fs::read_to_string(out.join("versions")).unwrap_or_default();
        Report {
            plan,
            titles,
            rows,
            counts,
            rounds: effort.rounds,
            versions,
        }
    }
}

#[cfg(test)]
mod tests {
    use super::*;
    use crate::case::{Case, Group};
    use crate::lists::Calls;

    /// The sums of each case's answers, side by side, without memset.
    fn each_case(plan: &Plan, mut sides: Vec<Side>, check: impl Fn(&Case, &[u64])) {
        sides.retain(|side| side.title() != "memset");
        for (number, state) in plan.states.iter().enumerate() {
            for side in &mut sides {
                side.load(state, number);
            }
            for (index, case) in plan.cases.iter().enumerate() {
                if case.state == number {
                    let mut sum = |side: &mut Side| {
                        side.prepare(state, case, index);
                        side.run(case, 1).1
                    };
                    let sums: Vec<u64> = sides.iter_mut().map(&mut sum).collect();
                    check(case, &sums);
                }
            }
        }
    }

    fn same(case: &Case, sums: &[u64]) {
        let all = sums.iter().all(|&sum| sum == sums[0]);
        assert!(all, "{}: {sums:?}", case.title);
    }

    /// The library and both models answer each case's calls alike.
    #[test]
    fn sides_agree() {
        each_case(&(MAIN.plan)(), here(), same);
    }

    /// The library, the same in C and both models choose alike.
    #[test]
    fn placers_agree() {
        let mut sides = placers();
        sides.push(Side::Here(Box::new(Model::<PlainList>::new("list"))));
        sides.push(Side::Here(Box::new(Model::<PlainTree>::new("tree"))));
        each_case(&(GAPS.plan)(), sides, same);
    }

    /// The desk form and both models answer alike, and so does the player's form, but for the places that it chooses.
    #[test]
    fn desks_agree() {
        let mut sides = desks();
        sides.push(Side::Here(Box::new(Model::<PlainList>::new("list"))));
        sides.push(Side::Here(Box::new(Model::<PlainTree>::new("tree"))));
        each_case(&(DESK.plan)(), sides, |case, sums| match case.group {
            Group::OwnGaps => same(case, &[sums[0], sums[2], sums[3]]),
            _ => same(case, sums),
        });
    }

    /// Both forms record, free and remove alike; each pointer that is asked about is live, each other call of a pointer accepted without an answer.
    #[test]
    fn forms_agree() {
        each_case(&(FORMS.plan)(), forms(), |case, sums| match case.calls {
            Calls::Lives(_) => assert_eq!(sums[0], case.timed.len() as u64, "{}", case.title),
            Calls::Points(_) | Calls::Copies(_) => assert_eq!(sums[0], 0, "{}", case.title),
            _ => same(case, sums),
        });
    }
}
