//! The recorded runs, and others in a folder that MODEL_TRACES names. Two of them
//! were recorded before S-7, and free stack blocks, which is refused since.

mod common;

use std::path::PathBuf;

use common::program::run_on_bytes;
use common::{data, ending};
use model::block::{footprint, meet, Block};
use model::call::Call;
use model::form::PLAYER;
use model::map::Area;
use model::plain::{totals, List, PlainList};
use model::plain_btree::PlainTree;
use model::program::{decode, encode, run, run_on, Record};
use model::recorded::{lines_with_removals, with_removals, RUNS};

/// What the list prints, and with it the tree and the bytes.
fn on_each_model(name: &str, calls: &[u8]) -> Vec<u8> {
    let lines = run(calls);
    let tree = run_on::<PlainTree>(calls);
    assert!(tree == lines, "{name}: lines differ on the tree");
    assert!(run_on_bytes(calls) == lines, "{name}: on the bytes");
    lines
}

/// With a remove for each free of a stack address the lines are the recorded
/// ones, but for the kind of those.
fn check(name: &str, calls: &[u8], recorded: &[u8]) {
    let lines = on_each_model(name, &with_removals(calls));
    let expected = lines_with_removals(calls, recorded);
    assert!(lines == expected, "{name}: lines differ");
}

fn own_copy(name: &str) -> (Vec<u8>, Vec<u8>) {
    let file = |end: &str| data(&format!("{name}.{end}"));
    (file("calls"), file("expected"))
}

#[test]
fn own_copies() {
    for name in RUNS {
        let (calls, recorded) = own_copy(name);
        check(name, &calls, &recorded);
    }
}

#[test]
fn named_folder() {
    let Some(folder) = std::env::var_os("MODEL_TRACES").map(PathBuf::from) else {
        return;
    };
    for entry in std::fs::read_dir(&folder).expect("MODEL_TRACES is a folder") {
        let path = entry.expect("a folder's entry").path();
        if path
            .extension()
            .is_some_and(|extension| extension == "calls")
        {
            let calls = std::fs::read(&path).expect("a calls file");
            let expected = std::fs::read(path.with_extension("expected")).expect("its lines");
            check(&path.display().to_string(), &calls, &expected);
        }
    }
}

/// Kinds 3 and 16 alone are exchanged, at stack addresses alone.
#[test]
fn the_rule_changes_frees_of_stack_addresses_alone() {
    for (name, removals) in RUNS.into_iter().zip([2450, 2241, 0]) {
        let (calls, recorded) = own_copy(name);
        let converted = with_removals(&calls);
        assert_eq!(converted.len(), calls.len());
        let differ = calls.iter().zip(&converted).filter(|(was, now)| was != now);
        let differ: Vec<(u8, u8)> = differ.map(|(&was, &now)| (was, now)).collect();
        assert_eq!(differ, vec![(3, 16); removals], "{name}");
        let frees = |lines: &[u8]| {
            lines
                .split(|&b| b == b'\n')
                .filter(|l| *l == b"3 0")
                .count()
        };
        let lines = lines_with_removals(&calls, &recorded);
        assert_eq!(frees(&recorded) - frees(&lines), removals, "{name}");
        assert!(with_removals(&converted) == converted, "{name}");
    }
}

/// The map in force says which area an address is in; a refused one does not count,
/// and what does not decode stays.
#[test]
fn the_rule_goes_by_the_map_in_force() {
    let (first, second) = ([4096, 64, 8192, 32], [8192, 32, 4096, 64]);
    let file = |in_stack: u16| {
        let free = |base: u32| encode(3, &[base]);
        let ended = |base: u32| encode(in_stack, &[base]);
        let before = [free(8192), encode(1, &first)];
        let under_first = [free(0), free(4104), ended(8192), ended(8223), free(8224)];
        let refused = [
            encode(1, &[0, 64, 8192, 32]),
            ended(8192),
            encode(1, &second),
        ];
        let under_second = [free(8192), ended(4096), ended(4159), encode(11, &[4096, 0])];
        let parts = [&before[..], &under_first, &refused, &under_second];
        [parts.concat(), vec![free(4096)]].concat().concat()
    };
    assert_eq!(with_removals(&file(3)), file(16));
    let lines = b"3 1\n1 0\n3 0\n3 7\n3 0\n3 7\n3 4\n1 1\n3 7\n1 0\n3 7\n3 7\n3 7\n9\n";
    let converted = b"3 1\n1 0\n3 0\n3 7\n16 0\n16 7\n3 4\n1 1\n16 7\n1 0\n3 7\n16 7\n16 7\n9\n";
    assert_eq!(lines_with_removals(&file(3), lines), converted);
}

/// Why a line is no longer the recorded one.
#[derive(Clone, Copy, Debug)]
enum Because {
    /// Free is refused at a stack address.
    Refused,
    /// The place is still that of a block that was freed then.
    Stayed,
    /// The block there then could not be recorded, its place being taken.
    Missing,
    /// Audit counts those that stayed, and not those that are missing.
    Counted,
}

/// The reason for a line that differs, by the list of now and that of then.
fn because(call: Call, now: &PlainList, then: &PlainList, lines: [&str; 2]) -> Because {
    let in_list = |list: &PlainList, block: &Block| {
        let same = |one: &Block| (one.base, one.length) == (block.base, block.length);
        list.blocks().iter().any(same)
    };
    let stayed = |base, length| {
        let place = footprint(PLAYER, Area::Stack, base, length);
        let meets = |b: &Block| meet(&footprint(PLAYER, Area::Stack, b.base, b.length), &place);
        let mut blocks = now.blocks().iter().filter(|b| !in_list(then, b));
        now.map().area(base) == Some(Area::Stack) && blocks.any(meets)
    };
    let missing = |address, n| {
        let holder = then.blocks().iter().find(|b| b.holds(address, n));
        holder.is_some_and(|block| !in_list(now, block))
    };
    let counted = |list: &PlainList| {
        let [heap, stack, live, written] = totals(list.map(), list.blocks());
        format!("9 0 {heap} {stack} {live} {written}")
    };
    match (call, lines) {
        (Call::Free { base }, ["3 15", "3 0"]) if ending(now.map(), base) != call => {
            Because::Refused
        }
        (Call::Record { base, length }, ["2 6", "2 0"]) if stayed(base, length) => Because::Stayed,
        (Call::Written { address, n }, ["4 7", "4 0"]) if missing(address, n) => Because::Missing,
        (Call::Initialised { address, n }, ["7 0 0", "7 0 1"]) if missing(address, n) => {
            Because::Missing
        }
        (Call::Audit, told) if told == [now, then].map(counted) => Because::Counted,
        _ => panic!("{call:?}: {lines:?}"),
    }
}

/// As they were recorded: every free of a stack address is refused now, its block
/// stays, and each other line that differs follows from that.
#[test]
fn as_recorded() {
    let met = [[2450, 2397, 0, 1], [2241, 2067, 50, 1], [0; 4]];
    for (name, expected) in RUNS.into_iter().zip(met) {
        let (calls, recorded) = own_copy(name);
        let lines = String::from_utf8(on_each_model(name, &calls)).expect("lines are text");
        let recorded = String::from_utf8(recorded).expect("lines are text");
        assert_eq!(lines.lines().count(), recorded.lines().count());
        assert_eq!(reasons(&calls, &lines, &recorded), expected, "{name}");
    }
}

/// How many lines differ for each reason.
fn reasons(mut calls: &[u8], lines: &str, recorded: &str) -> [u32; 4] {
    let mut met = [0; 4];
    let mut lists: Option<(PlainList, PlainList)> = None;
    for (line, then) in lines.lines().zip(recorded.lines()) {
        let (record, rest) = decode(calls).expect("a record for each line");
        calls = rest;
        match (record, &mut lists) {
            (Record::Map(map), _) => lists = Some((PlainList::new(map), PlainList::new(map))),
            (Record::Call(_, call), Some((now, was))) => {
                if line != then {
                    met[because(call, now, was, [line, then]) as usize] += 1;
                }
                let converted = match call {
                    Call::Free { base } => ending(now.map(), base),
                    _ => call,
                };
                now.step(call);
                was.step(converted);
            }
            (Record::Call(..), None) => panic!("a call before the map"),
        }
    }
    met
}
