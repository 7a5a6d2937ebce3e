//! Instructions a call, by callgrind: one pass of each case, in the same function that is timed.

use std::fs;
use std::path::{Path, PathBuf};
use std::process::{Command, Stdio};

use crate::case::Plan;
use crate::server::Server;
use crate::side::Side;

/// Instructions of a call, by case and side.
pub type Counts = Vec<Vec<Option<f64>>>;

/// The word on which this program makes one pass of the comparison that is named next, and ends.
pub const ONE_PASS: &str = "one-pass";

pub fn valgrind_there() -> bool {
    let asked = Command::new("valgrind")
        .arg("--version")
        .stdout(Stdio::null())
        .stderr(Stdio::null())
        .status();
    asked.is_ok_and(|status| status.success())
}

/// The words that run a program under callgrind: one dump each time the measured function returns.
fn callgrind(dumps: &Path) -> Vec<String> {
    [
        "valgrind",
        "--tool=callgrind",
        "--collect-atstart=no",
        "--toggle-collect=bench_measured",
        "--dump-after=bench_measured",
    ]
    .map(String::from)
    .into_iter()
    .chain([format!("--callgrind-out-file={}", dumps.display())])
    .collect()
}

/// Runs one pass of each case on each side that has it, in the order in which the dumps are read.
pub fn one_pass(plan: &Plan, sides: &mut [Side]) {
    for (number, state) in plan.states.iter().enumerate() {
        for side in sides.iter_mut() {
            side.load(state, number);
            for (index, case) in plan.cases.iter().enumerate() {
                if case.state == number && side.has(case) {
                    side.prepare(state, case, index);
                    side.run(case, 1);
                }
            }
        }
    }
}

/// The counts of the sides in this program, by running it again, and of the servers, whose calls lie in a folder.
pub fn count(
    plan: &Plan,
    name: &str,
    here: &[Side],
    servers: &[(&'static str, PathBuf)],
    calls: &Path,
    folder: &Path,
) -> Counts {
    let mut counts: Counts = plan.cases.iter().map(|_| Vec::new()).collect();
    let dumps = fresh(folder, name);
    let mut words = callgrind(&dumps);
    let own = std::env::current_exe().expect("this program's path");
    words.extend([own.display().to_string(), ONE_PASS.into(), name.into()]);
    let status = Command::new(&words[0])
        .args(&words[1..])
        .stdout(Stdio::null())
        .stderr(Stdio::null())
        .status();
    assert!(
        status.is_ok_and(|status| status.success()),
        "callgrind runs"
    );
    read(plan, here, &dumps, &mut counts);
    for (title, program) in servers {
        let dumps = fresh(folder, &format!("{name}-{title}"));
        let server = Server::start(title, &callgrind(&dumps), program, calls);
        let mut side = [Side::There(server)];
        one_pass(plan, &mut side);
        read(plan, &side, &dumps, &mut counts);
        let [Side::There(server)] = side else {
            unreachable!()
        };
        server.end();
    }
    counts
}

fn fresh(folder: &Path, name: &str) -> PathBuf {
    let folder = folder.join(format!("callgrind-{name}"));
    let _ = fs::remove_dir_all(&folder);
    fs::create_dir_all(&folder).expect("a folder for dumps");
    folder.join("dump")
}

/// Reads the dumps in the order of `one_pass`.
fn read(plan: &Plan, sides: &[Side], dumps: &Path, counts: &mut Counts) {
    let first = counts[0].len();
    for row in counts.iter_mut() {
        row.resize(first + sides.len(), None);
    }
    let mut part = 0;
    for number in 0..plan.states.len() {
        for (place, side) in sides.iter().enumerate() {
            for (index, case) in plan.cases.iter().enumerate() {
                if case.state == number && side.has(case) {
                    part += 1;
                    let total = total(&PathBuf::from(format!("{}.{part}", dumps.display())));
                    counts[index][first + place] = Some(total / case.timed.len() as f64);
                }
            }
        }
    }
}

fn total(dump: &Path) -> f64 {
    let text = fs::read_to_string(dump).expect("a dump of callgrind");
    let line = text.lines().find_map(|line| line.strip_prefix("totals: "));
    line.expect("a dump has its total")
        .trim()
        .parse()
        .expect("a number")
}
