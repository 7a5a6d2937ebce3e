//! The same: what they leave in the shadows, and what lengths and maps they take.

use crate::answers::{limit, shows, shows_at};
use model::block::footprint;
use model::call::{refusal, Answer, Call};
use model::held::stand_in;
use model::image::Shadows;
use model::map::{Area, Map};

/// Free and remove leave what lies too far above the base.
pub fn ends_too_soon<const FULL: bool>(map: Map, lent: &mut Shadows, call: Call) -> Answer {
    let before = lent.clone();
    let said = stand_in(map, lent, call);
    let (Call::Free { base } | Call::Remove { base }, 0) = (call, said.number) else {
        return said;
    };
    if !shows_at::<FULL>(map, base) {
        return said;
    }
    let area = map.area(base).unwrap_or(Area::Heap);
    let from = map.position(area, base) + limit::<FULL>() as usize;
    let stay = |shadow: &mut Vec<u8>, before: &Vec<u8>| {
        let from = from.min(shadow.len());
        shadow[from..].copy_from_slice(&before[from..]);
    };
    match area {
        Area::Heap => stay(&mut lent.heap, &before.heap),
        Area::Stack => stay(&mut lent.primary, &before.primary),
    }
    said
}

/// A range is marked, or looked at, as far as a loop of too few bits goes.
pub fn marks_too_few<const FULL: bool>(map: Map, lent: &mut Shadows, call: Call) -> Answer {
    match call {
        Call::Written { address, n } if shows_at::<FULL>(map, address) => {
            let mut whole = lent.clone();
            let said = stand_in(map, &mut whole, call);
            if said.number == 0 {
                let n = n.min(limit::<FULL>());
                stand_in(map, lent, Call::Written { address, n });
            }
            said
        }
        _ => stand_in(map, lent, call),
    }
}

pub fn looks_at_too_few<const FULL: bool>(map: Map, lent: &mut Shadows, call: Call) -> Answer {
    match call {
        Call::Initialised { address, n } if shows_at::<FULL>(map, address) => {
            let from = address;
            let valid = stand_in(map, lent, Call::ValidRead { address, n, from });
            let n = match valid.fields[0] {
                1 => n.min(limit::<FULL>()),
                _ => n,
            };
            stand_in(map, lent, Call::Initialised { address, n })
        }
        _ => stand_in(map, lent, call),
    }
}

/// A recording looks for zeros in too few bytes of its place.
pub fn zeros_of_too_few<const FULL: bool>(map: Map, lent: &mut Shadows, call: Call) -> Answer {
    let said = stand_in(map, lent, call);
    let (Some((base, length, _)), refusal::TAKEN) = (call.recording(), said.number) else {
        return said;
    };
    let Some(area) = map.area(base).filter(|_| shows_at::<FULL>(map, base)) else {
        return said;
    };
    let place = footprint(map.form, area, base, length);
    let start = map.bounds(area).start;
    let first = (place.start - start) as usize + limit::<FULL>() as usize;
    let end = (place.end - start) as usize;
    let place = first.min(end)..end;
    let kept = lent.clone();
    match area {
        Area::Heap => lent.heap[place].fill(0),
        Area::Stack => {
            lent.primary[place.clone()].fill(0);
            lent.secondary[place].fill(0);
        }
    }
    let said = stand_in(map, lent, call);
    if said.number != 0 {
        *lent = kept;
    }
    said
}

/// A recording leaves out the number of the last segment of a long block.
pub fn a_number_left_out<const FULL: bool>(map: Map, lent: &mut Shadows, call: Call) -> Answer {
    let said = stand_in(map, lent, call);
    if let (Some((base, length, _)), 0) = (call.recording(), said.number) {
        let long = length > limit::<FULL>() && map.area(base) == Some(Area::Heap);
        if long && shows::<FULL>(map.heap_size) {
            let last = map.position(Area::Heap, base + length - 1);
            let segment = last - last % map.form.bytes();
            lent.heap[segment..segment + map.form.width].fill(0);
        }
    }
    said
}

/// Lengths of shadows are compared in too few bits.
pub fn lengths_of_few_bits<const FULL: bool>(map: Map, lent: &mut Shadows, call: Call) -> Answer {
    let said = stand_in(map, lent, call);
    let [heap, stack] = [map.heap_size, map.stack_size].map(|size| size as usize);
    let alike = |length: usize, size: usize| {
        length
            .abs_diff(size)
            .is_multiple_of(2 * limit::<FULL>() as usize)
    };
    let right = alike(lent.heap.len(), heap)
        && alike(lent.primary.len(), stack)
        && alike(lent.secondary.len(), stack);
    match said.number == refusal::SHADOW_LENGTH && right && shows::<FULL>(map.heap_size) {
        true => stand_in(map, &mut Shadows::cleared(map), call),
        false => said,
    }
}

/// Areas that share a few bytes are taken for apart.
pub fn areas_that_meet<const FULL: bool>(map: Map, lent: &mut Shadows, call: Call) -> Answer {
    let said = stand_in(map, lent, call);
    let (heap, stack) = (map.bounds(Area::Heap), map.bounds(Area::Stack));
    let shared = heap
        .end
        .min(stack.end)
        .saturating_sub(heap.start.max(stack.start));
    match (1..=16).contains(&shared) && said.number == 1 && shows::<FULL>(map.heap_size) {
        true => Err(refusal::SHADOW_LENGTH).into(),
        false => said,
    }
}
