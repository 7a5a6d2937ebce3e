//! The targets, as ratios of one run.

use crate::case::{Case, Group};
use crate::lists::Calls;

/// Stands for a peer in a target: at most so many instructions a call.
pub const INSTRUCTIONS: &str = "instructions";

/// At most so many times a peer's time, or so many instructions.
pub struct Target {
    pub case: usize,
    pub peer: &'static str,
    pub most: f64,
}

const AUDIT: &str = "audit";

/// The targets of a case of the plain form.
pub fn targets(index: usize, case: &Case) -> Vec<Target> {
    let target = |peer, most| Target {
        case: index,
        peer,
        most,
    };
    match case.group {
        Group::Reading => vec![target("list", 0.2), target("trie", 0.2)],
        Group::Next => vec![target("list", 0.2)],
        Group::Placing if case.title.contains("1,024") => vec![target("memset", 4.0)],
        Group::Whole if case.title == AUDIT => vec![target("memset", 8.0)],
        Group::Replay => vec![target("shadow", 1.0), target(INSTRUCTIONS, 125.0)],
        _ => Vec::new(),
    }
}

/// The targets of a case of place: the whole heap shadow looked through, with all of its blocks.
pub fn gap_targets(index: usize, case: &Case) -> Vec<Target> {
    let whole = case.title.contains("500 blocks") && !case.title.contains("budget");
    let most = Target {
        case: index,
        peer: "memset",
        most: 6.0,
    };
    whole.then_some(most).into_iter().collect()
}

/// The targets of a case of the form with origins. Beside a call of a pointer the plain form's is `ask`, which looks at one area: a pointer from
/// one area into the other has no target.
pub fn form_targets(index: usize, case: &Case) -> Vec<Target> {
    let target = |peer, most| Target {
        case: index,
        peer,
        most,
    };
    match case.calls {
        Calls::Lives(_) if case.title == "live, heap" || case.title == "live, stack" => {
            vec![target("plain", 2.0)]
        }
        Calls::Records(_) if case.title.contains("of 8,") => vec![target("plain", 1.3)],
        Calls::Frees(_) | Calls::Removes(_) if case.title.contains("1,024") => {
            vec![target("memset", 4.0)]
        }
        _ => Vec::new(),
    }
}
