//! Shadows, cells and counters that no run of calls need have left.

use crate::generate::{ending_anywhere, inside, shadows};
use crate::image::image;
use crate::map::Map;
use crate::origins::call::OriginsCall;
use crate::origins::cells::State;
use crate::origins::generate::Calls;
use crate::origins::list::OriginsList;
use crate::random::Random;

/// A state that random calls left, with changes made to it, none of which need
/// show; and a call that is drawn for it.
pub fn damaged(random: &mut Random, map: Map) -> (State, OriginsCall) {
    // Most counters of `counter` give no origin, and then there would be no block.
    let from = match random.once_in(4) {
        true => 4_294_967_295 - random.below(8),
        false => 1,
    };
    let mut list = OriginsList::new(map, from);
    let mut made = Calls::default();
    for _ in 0..random.below(60) {
        let call = made.next(random, map, list.blocks());
        list.step(call);
    }
    let mut state = list.state();
    for _ in 0..random.below(4) {
        shadows::change(random, map.form, &mut state.shadows);
    }
    for _ in 0..random.below(8) {
        change_cell(random, &mut state);
    }
    if random.once_in(2) {
        state.counter = counter(random);
    }
    (state, made.next(random, map, list.blocks()))
}

/// Blocks of the plain form, whose bases are any, under cells of no list.
pub fn unaligned(random: &mut Random, map: Map) -> (State, OriginsCall) {
    let calls = random.below(60);
    let list = shadows::list(random, map, calls);
    let mut state = State::cleared(map);
    state.shadows = image(map, list.blocks());
    any_cells(random, map, &mut state);
    (state, Calls::default().next(random, map, list.blocks()))
}

/// A state of no list at all, and a call.
pub fn noise(random: &mut Random, map: Map) -> (State, OriginsCall) {
    let mut state = State::cleared(map);
    state.shadows = shadows::noise(random, map);
    any_cells(random, map, &mut state);
    let blocks = shadows::read_blocks(map, &state.shadows);
    (state, Calls::default().next(random, map, &blocks))
}

/// Any of these, at times with a plain call inside some block, or with one that
/// ends a block anywhere.
pub fn any(random: &mut Random, map: Map) -> (State, OriginsCall) {
    let (state, call) = match random.below(6) {
        0 => noise(random, map),
        1 | 2 => unaligned(random, map),
        _ => damaged(random, map),
    };
    let blocks = shadows::read_blocks(map, &state.shadows);
    let call = match random.below(15) {
        0 => OriginsCall::Plain(ending_anywhere(random, map)),
        1..=3 if !blocks.is_empty() => OriginsCall::Plain(inside(random, &blocks)),
        _ => call,
    };
    (state, call)
}

fn any_cells(random: &mut Random, map: Map, state: &mut State) {
    for _ in 0..random.below(2 * u64::from(map.heap_size)) {
        change_cell(random, state);
    }
    state.counter = counter(random);
}

/// A counter at the ends of its range, beyond them, or inside.
pub fn counter(random: &mut Random) -> u64 {
    let inside = random.number() >> 32;
    let high_only = random.below(1 << 31) << 32;
    random.pick(&[
        0,
        1,
        1,
        1,
        2,
        256,
        65_535,
        4_294_967_290,
        4_294_967_294,
        4_294_967_295,
        4_294_967_296,
        4_294_967_297,
        1 << 63,
        u64::MAX - 1,
        u64::MAX,
        inside,
        high_only,
    ])
}

/// One of the five lengths made wrong.
pub fn wrong_length(random: &mut Random, state: &mut State) {
    let lent = match random.below(5) {
        0 => &mut state.shadows.heap,
        1 => &mut state.shadows.primary,
        2 => &mut state.shadows.secondary,
        3 => &mut state.cells.heap,
        _ => &mut state.cells.stack,
    };
    let length = lent.len();
    let other = random.below(2 * length as u64) as usize;
    let wrong = random.pick(&[0, 8, length / 2, length - 1, length + 1, 2 * length, other]);
    lent.resize(if wrong == length { 0 } else { wrong }, 9);
}

/// A byte, or a whole origin or referent, often one that stands elsewhere.
fn change_cell(random: &mut Random, state: &mut State) {
    let (counter, lent) = match random.below(2) {
        0 => (state.counter, &mut state.cells.heap),
        _ => (state.counter, &mut state.cells.stack),
    };
    let position = random.below(lent.len() as u64) as usize;
    if random.once_in(4) {
        lent[position] = random.number() as u8;
        return;
    }
    let other = random.below(lent.len() as u64) as usize;
    let mut number = [0; 4];
    number.copy_from_slice(&lent[other - other % 4..][..4]);
    let word = random.word();
    let near = random.between(0, 3);
    let number = random.pick(&[
        u32::from_le_bytes(number),
        u32::from_le_bytes(number),
        counter as u32,
        near,
        0,
        u32::MAX,
        word,
    ]);
    lent[position - position % 4..][..4].copy_from_slice(&number.to_le_bytes());
}
