//! The cases that set the form with origins beside the plain form.

use std::collections::BTreeSet;

use model::block::Block;
use model::call::Call;
use model::random::Random;

use crate::case::{Case, Group, Plan, FILLED, QUERIES, ROOMY};
use crate::lists::Calls;
use crate::places;
use crate::state::{filled, roomy, State, ORIGINS};
use crate::targets::form_targets;

pub fn plan() -> Plan {
    let states = vec![filled(ORIGINS), roomy(ORIGINS)];
    let mut cases = pointers(&states[FILLED]);
    let placed = places::cases(&states[ROOMY]).into_iter();
    cases.extend(placed.filter(|case| {
        matches!(
            case.calls,
            Calls::Records(_) | Calls::RecordsLiteral(_) | Calls::Frees(_) | Calls::Removes(_)
        )
    }));
    Plan {
        states,
        cases,
        targets: form_targets,
    }
}

/// Pairs of a cell and an address, in no order; no cell comes twice.
fn pairs(cells_in: &[Block], addresses_in: &[Block]) -> Vec<(u32, u32)> {
    let mut random = Random::new(47);
    let fit: Vec<&Block> = cells_in.iter().filter(|block| block.length >= 4).collect();
    let all: Vec<&Block> = addresses_in.iter().collect();
    let mut cells = BTreeSet::new();
    let mut pairs = Vec::new();
    while pairs.len() < QUERIES {
        let holder = random.pick(&fit);
        let cell = holder.base + 4 * random.between(0, holder.length / 4 - 1);
        if cells.insert(cell) {
            let block = random.pick(&all);
            pairs.push((cell, block.base + random.between(0, block.length - 1)));
        }
    }
    pairs
}

/// The calls of pointers, by where the cell and the address lie. In their place the plain form asks for the address: for `copy`, for the cell
/// that is copied from.
fn pointers(state: &State) -> Vec<Case> {
    let (heap, stack) = (state.heap_blocks(), state.stack_blocks());
    let places = [
        ("heap", pairs(&heap, &heap)),
        ("stack", pairs(&stack, &stack)),
        ("stack cell, heap address", pairs(&stack, &heap)),
    ];
    let mut cases = Vec::new();
    let mut add = |title: String, pairs: Vec<(u32, u32)>, calls: fn(Vec<(u32, u32)>) -> Calls| {
        let asks = pairs.iter().map(|&(_, address)| Call::Ask { address });
        let mut case = Case::new(title, Group::Pointer, FILLED, asks.collect());
        case.calls = calls(pairs);
        cases.push(case);
    };
    for (words, pairs) in &places {
        add(format!("point, {words}"), pairs.clone(), Calls::Points);
    }
    for (words, pairs) in &places[..2] {
        add(format!("copy, {words}"), chained(pairs), Calls::Copies);
    }
    for (words, pairs) in &places {
        add(format!("live, {words}"), pairs.clone(), Calls::Lives);
    }
    cases
}

/// Each cell is copied from the next one.
fn chained(pairs: &[(u32, u32)]) -> Vec<(u32, u32)> {
    let cells: Vec<u32> = pairs.iter().map(|&(cell, _)| cell).collect();
    let next = cells.iter().cycle().skip(1);
    cells.iter().copied().zip(next.copied()).collect()
}
