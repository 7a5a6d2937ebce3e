//! E-ACSL's library in a program of its own (eacsl/server.c), asked by lines.
//!
//! It works on the addresses of its own process. Stack addresses become offsets in an arena on its stack. Its heap segments have 32
//! bytes: each heap base gets a place of its own in an arena of its heap, in base order and without gaps.

use std::collections::BTreeMap;
use std::fs;
use std::io::{BufRead, BufReader, Write};
use std::path::{Path, PathBuf};
use std::process::{Child, ChildStdin, ChildStdout, Command, Stdio};

use model::call::Call;
use model::map::{Area, Map};
use model::plain::List;
use model::plain_btree::PlainTree;

use crate::case::Plan;

const SEGMENT: u32 = 32;
const HEAP_ARENA: u32 = 1 << 20;
/// Where addresses in no heap block go: memory that no block takes.
const NOWHERE: u32 = HEAP_ARENA - 4096;

/// Writes each state and case in the server's form.
pub fn write_files(folder: &Path, plan: &Plan) {
    fs::create_dir_all(folder).expect("a folder for the calls");
    for (number, state) in plan.states.iter().enumerate() {
        let own = plan.cases.iter().filter(|case| case.state == number);
        let lists = own.flat_map(|case| [&case.before, &case.timed]);
        let places = heap_places(state.map, lists.chain([&state.calls]).flatten().copied());
        let mut list = PlainTree::new(state.map);
        let write = |list: &mut PlainTree, name: String, calls: &[Call]| {
            let bytes: Vec<u8> = calls
                .iter()
                .flat_map(|&call| moved(state.map, &places, list, call))
                .flat_map(u32::to_le_bytes)
                .collect();
            fs::write(folder.join(name), bytes).expect("the calls are written");
        };
        write(&mut list, format!("state{number}"), &state.calls);
        for (index, case) in plan.cases.iter().enumerate() {
            if case.state == number && case.known_to_eacsl() {
                let mut list = list.clone();
                write(&mut list, format!("case{index}.before"), &case.before);
                write(&mut list, format!("case{index}.timed"), &case.timed);
                write(&mut list, format!("case{index}.after"), &case.after);
            }
        }
    }
}

/// The offset of each heap base in the arena.
fn heap_places(map: Map, calls: impl Iterator<Item = Call>) -> BTreeMap<u32, u32> {
    let mut lengths = BTreeMap::new();
    for call in calls {
        if let Some((base, length, _)) = call.recording() {
            if map.area(base) == Some(Area::Heap) {
                let longest = lengths.entry(base).or_insert(0);
                *longest = length.max(*longest);
            }
        }
    }
    let mut at = 0;
    let mut places = BTreeMap::new();
    for (base, length) in lengths {
        places.insert(base, at);
        at += length.next_multiple_of(SEGMENT);
    }
    assert!(at <= NOWHERE, "the heap arena is large enough");
    places
}

/// One call in the server's form, and the list as it is afterwards: kind, whether in the heap, offset, n, offset of from.
fn moved(map: Map, places: &BTreeMap<u32, u32>, list: &mut PlainTree, call: Call) -> [u32; 5] {
    let (kind, fields) = call.record_fields().expect("a call that E-ACSL has");
    let address = fields[0];
    let offset_of = |list: &mut PlainTree, a: u32| match map.area(a) {
        Some(Area::Stack) => a - map.stack_start,
        _ => {
            let answer = list.step(Call::Ask { address: a });
            let [base, _, offset, _] = answer.fields;
            match answer.number {
                0 => places[&base] + offset,
                _ => NOWHERE + a % 2048,
            }
        }
    };
    let offset = match call.recording() {
        Some((base, ..)) if map.area(base) == Some(Area::Heap) => places[&base],
        _ => offset_of(list, address),
    };
    let from = match call {
        Call::Valid { from, .. } | Call::ValidRead { from, .. } => offset_of(list, from),
        _ => 0,
    };
    let n = fields.get(1).copied().unwrap_or(0);
    let heap = u32::from(map.area(address) != Some(Area::Stack));
    list.step(call);
    [u32::from(kind), heap, offset, n, from]
}

/// A running server.
pub struct Server {
    title: &'static str,
    folder: PathBuf,
    child: Child,
    input: ChildStdin,
    output: BufReader<ChildStdout>,
}

impl Server {
    /// Starts a server, under the words of another program where there are any.
    pub fn start(title: &'static str, under: &[String], program: &Path, folder: &Path) -> Self {
        let mut words = under.to_vec();
        words.push(program.display().to_string());
        // The library records its environment too: a short one.
        let mut child = Command::new(&words[0])
            .args(&words[1..])
            .env_clear()
            .env("PATH", "/usr/bin:/bin")
            .stdin(Stdio::piped())
            .stdout(Stdio::piped())
            .stderr(if under.is_empty() {
                Stdio::inherit()
            } else {
                Stdio::null()
            })
            .spawn()
            .expect("the server starts");
        let input = child.stdin.take().expect("its input");
        let output = BufReader::new(child.stdout.take().expect("its output"));
        Server {
            title,
            folder: folder.to_path_buf(),
            child,
            input,
            output,
        }
    }

    pub fn title(&self) -> &'static str {
        self.title
    }

    pub fn load(&mut self, number: usize) {
        let state = self.folder.join(format!("state{number}"));
        self.ask(&format!("load {}", state.display()));
    }

    pub fn prepare(&mut self, number: usize) {
        let part = |name: &str| self.folder.join(format!("case{number}.{name}"));
        let (before, timed, after) = (part("before"), part("timed"), part("after"));
        self.ask(&format!(
            "case {} {} {}",
            before.display(),
            timed.display(),
            after.display()
        ));
    }

    pub fn run(&mut self, passes: u64) -> (f64, u64) {
        self.ask(&format!("run {passes}"))
    }

    fn ask(&mut self, line: &str) -> (f64, u64) {
        writeln!(self.input, "{line}").expect("the server takes a line");
        let mut answer = String::new();
        self.output
            .read_line(&mut answer)
            .expect("the server answers");
        let words: Vec<&str> = answer.split_whitespace().collect();
        let [time, sum] = words[..] else {
            panic!("{}: the server ended at: {line}", self.title);
        };
        (
            time.parse().expect("a time"),
            sum.parse().expect("a sum of answers"),
        )
    }

    /// Ends the server's run and waits for it.
    pub fn end(mut self) {
        drop(self.input);
        let _ = self.child.wait();
    }
}
