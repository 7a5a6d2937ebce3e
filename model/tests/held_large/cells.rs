//! Libraries of the form with origins that get something wrong in large areas alone:
//! in the block shadows as one without origins does, or in the cells.

use crate::answers::{limit, shows, shows_at};
use model::call::{refusal, Answer, Call};
use model::held::{stand_in, Library};
use model::map::{Area, Map};
use model::origins::bytes;
use model::origins::call::OriginsCall;
use model::origins::cells::{containing, origin_place, referent_place, State};
use std::ops::Range;

/// The mistake of a library without origins, in its answers and in the block shadows.
pub fn on_state(wrong: Library, map: Map, state: &mut State, call: OriginsCall) -> Answer {
    let OriginsCall::Plain(one) = call else {
        return bytes::call(map, state, call);
    };
    let (mut wrongly, mut rightly) = (state.shadows.clone(), state.shadows.clone());
    let said = wrong(map, &mut wrongly, one);
    let right = stand_in(map, &mut rightly, one);
    let model = bytes::call(map, state, call);
    if said != right || wrongly != rightly {
        state.shadows = wrongly;
        return said;
    }
    model
}

/// The cell of an address, if its area shows the mistake.
fn cell_that_shows<const FULL: bool>(map: Map, address: u32) -> Option<(Area, u32)> {
    let area = map.area(address)?;
    shows_at::<FULL>(map, address).then_some((area, containing(address)))
}

/// The same, where its position is too high for too few bits, with the cell that it is
/// taken for.
fn wrapped<const FULL: bool>(map: Map, address: u32) -> Option<(Area, u32, u32)> {
    let (area, cell) = cell_that_shows::<FULL>(map, address)?;
    let position = map.position(area, cell) as u32;
    let other = cell - position + position % limit::<FULL>();
    (other != cell).then_some((area, cell, other))
}

/// What was stored in one place is put into the other.
fn moved(state: &mut State, before: &State, area: Area, from: Range<usize>, to: Range<usize>) {
    let stored = state.cells.of_mut(area)[from.clone()].to_vec();
    let own = before.clone().cells.of_mut(area)[from.clone()].to_vec();
    let cells = state.cells.of_mut(area);
    cells[from].copy_from_slice(&own);
    cells[to].copy_from_slice(&stored);
}

/// Kind 11 stores the referent in a cell of too few bits.
pub fn referents_elsewhere<const FULL: bool>(
    map: Map,
    state: &mut State,
    call: OriginsCall,
) -> Answer {
    let before = state.clone();
    let said = bytes::call(map, state, call);
    if let (OriginsCall::Point { cell, .. }, 0) = (call, said.number) {
        if let Some((area, cell, other)) = wrapped::<FULL>(map, cell) {
            let from = referent_place(map, area, cell);
            moved(state, &before, area, from, referent_place(map, area, other));
        }
    }
    said
}

/// A recording stores the origin in a cell of too few bits.
pub fn origins_elsewhere<const FULL: bool>(
    map: Map,
    state: &mut State,
    call: OriginsCall,
) -> Answer {
    let before = state.clone();
    let said = bytes::call(map, state, call);
    let OriginsCall::Plain(one) = call else {
        return said;
    };
    if let (Some((base, ..)), 0) = (one.recording(), said.number) {
        if let Some((area, cell, other)) = wrapped::<FULL>(map, base) {
            let from = origin_place(map, area, cell);
            moved(state, &before, area, from, origin_place(map, area, other));
        }
    }
    said
}

/// Kind 13 compares two bytes of an origin and a referent.
pub fn two_bytes_of_origins<const FULL: bool>(
    map: Map,
    state: &mut State,
    call: OriginsCall,
) -> Answer {
    let OriginsCall::Live { cell, .. } = call else {
        return bytes::call(map, state, call);
    };
    if cell_that_shows::<FULL>(map, cell).is_none() {
        return bytes::call(map, state, call);
    }
    let mut low = state.clone();
    for cells in [&mut low.cells.heap, &mut low.cells.stack] {
        for number in cells.chunks_exact_mut(4) {
            number[2..].fill(0);
        }
    }
    bytes::call(map, &mut low, call)
}

/// Free and remove leave the cells that lie too far above the base.
pub fn cells_that_stay<const FULL: bool>(map: Map, state: &mut State, call: OriginsCall) -> Answer {
    let before = state.clone();
    let said = bytes::call(map, state, call);
    if let (OriginsCall::Plain(Call::Free { base } | Call::Remove { base }), 0) =
        (call, said.number)
    {
        if let Some((area, cell)) = cell_that_shows::<FULL>(map, base) {
            let own = before.clone().cells.of_mut(area).to_vec();
            let far = origin_place(map, area, cell).start + limit::<FULL>() as usize;
            let far = far.min(own.len());
            state.cells.of_mut(area)[far..].copy_from_slice(&own[far..]);
        }
    }
    said
}

/// Clear leaves the upper half of the cells.
pub fn cells_not_cleared<const FULL: bool>(
    map: Map,
    state: &mut State,
    call: OriginsCall,
) -> Answer {
    let before = state.clone();
    let said = bytes::call(map, state, call);
    if call == OriginsCall::Plain(Call::Clear) && shows::<FULL>(map.heap_size) {
        let half = before.cells.heap.len() / 2;
        state.cells.heap[half..].copy_from_slice(&before.cells.heap[half..]);
    }
    said
}

/// Kinds 11 to 13 read damage as no block.
pub fn no_damage_for_pointers<const FULL: bool>(
    map: Map,
    state: &mut State,
    call: OriginsCall,
) -> Answer {
    let said = bytes::call(map, state, call);
    let (OriginsCall::Point { cell, .. }
    | OriginsCall::Live { cell, .. }
    | OriginsCall::Copy { to: cell, .. }) = call
    else {
        return said;
    };
    match said.number == refusal::DAMAGED && cell_that_shows::<FULL>(map, cell).is_some() {
        true => Err(refusal::NO_CELL).into(),
        false => said,
    }
}

/// The lengths of cells are compared in too few bits.
pub fn cells_of_few_bits<const FULL: bool>(
    map: Map,
    state: &mut State,
    call: OriginsCall,
) -> Answer {
    let said = bytes::call(map, state, call);
    let sizes = [map.heap_size, map.stack_size].map(|size| 2 * size as usize);
    let lengths = [state.cells.heap.len(), state.cells.stack.len()];
    let bits = 2 * limit::<FULL>() as usize;
    let alike = |(size, length): (usize, usize)| length.abs_diff(size).is_multiple_of(bits);
    let right = sizes.into_iter().zip(lengths).all(alike);
    match said.number == refusal::SHADOW_LENGTH && right && shows::<FULL>(map.heap_size) {
        true => bytes::call(map, &mut State::cleared(map), call),
        false => said,
    }
}
