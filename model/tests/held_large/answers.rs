//! Libraries without origins that get something wrong in large areas alone, in those
//! of a few thousand bytes or in those of the largest sizes: their answers.

use model::call::{refusal, Answer, Call};
use model::held::stand_in;
use model::image::Shadows;
use model::map::{Area, Map};

/// Whether an area of so many bytes shows the mistake.
pub fn shows<const FULL: bool>(size: u32) -> bool {
    match FULL {
        false => (1025..=16_384).contains(&size),
        true => size > 16_384,
    }
}

/// The same for the area of an address, if there is one.
pub fn shows_at<const FULL: bool>(map: Map, address: u32) -> bool {
    map.area(address).is_some_and(|area| {
        let bounds = map.bounds(area);
        shows::<FULL>((bounds.end - bounds.start) as u32)
    })
}

/// Where too few bits, or too short a loop, begin to show in the heap.
pub const fn limit<const FULL: bool>() -> u32 {
    match FULL {
        false => 1 << 10,
        true => 1 << 15,
    }
}

/// The address of a call's first reading.
fn read_first(call: Call) -> Option<u32> {
    match call {
        Call::Free { base } | Call::Remove { base } => Some(base),
        Call::Written { address, .. }
        | Call::Ask { address }
        | Call::Valid { address, .. }
        | Call::ValidRead { address, .. }
        | Call::Initialised { address, .. }
        | Call::Next { address } => Some(address),
        _ => None,
    }
}

/// What a call says where there is no block.
fn without_block(call: Call) -> Answer {
    match call {
        Call::Valid { .. } | Call::ValidRead { .. } | Call::Initialised { .. } => Ok([0; 4]).into(),
        _ => Err(refusal::NO_BLOCK).into(),
    }
}

/// Damage of this area reads as no block.
fn no_damage<const FULL: bool>(area: Area, map: Map, lent: &mut Shadows, call: Call) -> Answer {
    let said = stand_in(map, lent, call);
    match read_first(call) {
        Some(address) if said.number == refusal::DAMAGED && map.area(address) == Some(area) => {
            match shows_at::<FULL>(map, address) {
                true => without_block(call),
                false => said,
            }
        }
        _ => said,
    }
}

pub fn no_heap_damage<const FULL: bool>(map: Map, lent: &mut Shadows, call: Call) -> Answer {
    no_damage::<FULL>(Area::Heap, map, lent, call)
}

pub fn no_stack_damage<const FULL: bool>(map: Map, lent: &mut Shadows, call: Call) -> Answer {
    no_damage::<FULL>(Area::Stack, map, lent, call)
}

/// The same in free and remove alone.
pub fn no_damage_at_ends<const FULL: bool>(map: Map, lent: &mut Shadows, call: Call) -> Answer {
    match call {
        Call::Free { .. } => no_heap_damage::<FULL>(map, lent, call),
        Call::Remove { .. } => no_stack_damage::<FULL>(map, lent, call),
        _ => stand_in(map, lent, call),
    }
}

/// Audit passes over the upper half of an area if that alone is damaged.
pub fn half_an_audit<const FULL: bool>(map: Map, lent: &mut Shadows, call: Call) -> Answer {
    let said = stand_in(map, lent, call);
    if said.number != refusal::DAMAGED || call != Call::Audit {
        return said;
    }
    let mut lower = lent.clone();
    let half = |shadow: &mut Vec<u8>| {
        let middle = shadow.len() / 2;
        shadow[middle - middle % 16..].fill(0);
    };
    match shows::<FULL>(map.heap_size) {
        true => half(&mut lower.heap),
        false => return said,
    }
    half(&mut lower.primary);
    half(&mut lower.secondary);
    stand_in(map, &mut lower, call)
}

/// Audit passes over one segment in many, where those beside it are as they are in a
/// long block.
pub fn segments_passed_over<const FULL: bool>(map: Map, lent: &mut Shadows, call: Call) -> Answer {
    let said = stand_in(map, lent, call);
    if said.number != refusal::DAMAGED || call != Call::Audit || !shows::<FULL>(map.heap_size) {
        return said;
    }
    let (width, size) = (map.form.width, map.form.bytes());
    let mut passed = lent.clone();
    let mut segments: Vec<&mut [u8]> = passed.heap.chunks_mut(size).collect();
    for three in segments.chunks_mut(3) {
        if let [before, middle, after] = three {
            let number =
                |bytes: &[u8]| u32::from_le_bytes([bytes[0], bytes[1], bytes[2], bytes[3]]);
            let step = size as u32;
            if number(before) > 0 && number(before).wrapping_add(2 * step) == number(after) {
                let right = number(before) + step;
                middle[..4].copy_from_slice(&right.to_le_bytes());
                middle[4..width].fill(0);
                middle[width + size / 8..].fill(0);
            }
        }
    }
    stand_in(map, &mut passed, call)
}

/// A reading goes by too few bits of the position.
pub fn wrapped_positions<const FULL: bool>(map: Map, lent: &mut Shadows, call: Call) -> Answer {
    let (Call::Ask { address }, Some(area)) = (call, read_first(call).and_then(|a| map.area(a)))
    else {
        return stand_in(map, lent, call);
    };
    let off = map.position(area, address) as u32;
    if off < 2 * limit::<FULL>() || !shows_at::<FULL>(map, address) {
        return stand_in(map, lent, call);
    }
    let below = off - off % (2 * limit::<FULL>());
    let address = address - below;
    let mut said = stand_in(map, lent, Call::Ask { address });
    if said.number == 0 {
        said.fields[0] += below;
    }
    said
}

/// Lengths are told with too few bits.
pub fn short_lengths<const FULL: bool>(map: Map, lent: &mut Shadows, call: Call) -> Answer {
    let mut said = stand_in(map, lent, call);
    let asked = matches!(call, Call::Ask { .. } | Call::Next { .. });
    if asked && shows_at::<FULL>(map, said.fields[0]) {
        said.fields[1] %= limit::<FULL>();
    }
    said
}

/// A byte of every number in these segments counts for nothing in a reading.
fn byte_unseen(at: usize, map: Map, lent: &mut Shadows, call: Call) -> Answer {
    let kept = lent.heap.clone();
    let size = map.form.bytes();
    let places = (at..kept.len()).step_by(size);
    places.clone().for_each(|place| lent.heap[place] = 0);
    let said = stand_in(map, lent, call);
    for place in places {
        lent.heap[place] |= kept[place];
    }
    said
}

/// The uppermost byte of four of a segment's number.
pub fn upper_byte_unseen<const FULL: bool>(map: Map, lent: &mut Shadows, call: Call) -> Answer {
    match call {
        Call::Ask { .. } if map.good() && shows::<FULL>(map.heap_size) => {
            byte_unseen(3, map, lent, call)
        }
        _ => stand_in(map, lent, call),
    }
}

/// The lowest of the upper four bytes of a number, where there are eight.
pub fn four_of_eight<const FULL: bool>(map: Map, lent: &mut Shadows, call: Call) -> Answer {
    match call {
        Call::Ask { .. } if map.good() && shows::<FULL>(map.heap_size) => {
            byte_unseen(4, map, lent, call)
        }
        _ => stand_in(map, lent, call),
    }
}

/// Codes that are none read as no block.
pub fn codes_that_are_none<const FULL: bool>(map: Map, lent: &mut Shadows, call: Call) -> Answer {
    let said = stand_in(map, lent, call);
    match call {
        Call::Ask { address }
            if said.number == refusal::DAMAGED
                && map.area(address) == Some(Area::Stack)
                && shows_at::<FULL>(map, address) =>
        {
            match lent.primary[map.position(Area::Stack, address)] >> 2 {
                37..=47 => without_block(call),
                _ => said,
            }
        }
        _ => said,
    }
}

/// The climb of next ends too soon.
pub fn climbs_too_short<const FULL: bool>(map: Map, lent: &mut Shadows, call: Call) -> Answer {
    let said = stand_in(map, lent, call);
    match call {
        Call::Next { address } if said.number == 0 && shows_at::<FULL>(map, said.fields[0]) => {
            match said.fields[0] - address > limit::<FULL>() {
                true => without_block(call),
                false => said,
            }
        }
        _ => said,
    }
}

/// Two blocks of the same length are the same if their bases are in too few bits.
pub fn bases_of_few_bits<const FULL: bool>(map: Map, lent: &mut Shadows, call: Call) -> Answer {
    let said = stand_in(map, lent, call);
    let (Call::Valid { address, n, from } | Call::ValidRead { address, n, from }) = call else {
        return said;
    };
    let Some(n) = n.checked_sub(1) else {
        return said;
    };
    let asked = [address, from].map(|address| stand_in(map, lent, Call::Ask { address }));
    let [one, other] = asked.map(|said| said.fields);
    let found = asked.iter().all(|said| said.number == 0) && shows_at::<FULL>(map, address);
    let alike = (one[0].abs_diff(other[0])).is_multiple_of(2 * limit::<FULL>());
    let holds = u64::from(one[2]) + u64::from(n) < u64::from(one[1]);
    match found && alike && one[1] == other[1] && holds && one[0] != other[0] {
        true => Ok([1, 0, 0, 0]).into(),
        false => said,
    }
}

/// Counts of blocks have too few bits.
pub fn counts_of_few_bits<const FULL: bool>(map: Map, lent: &mut Shadows, call: Call) -> Answer {
    let mut said = stand_in(map, lent, call);
    if call == Call::Audit && shows::<FULL>(map.heap_size) {
        said.fields[1] %= 2 * limit::<FULL>();
    }
    said
}

/// Gaps have too few bits, and so do their sizes.
pub fn gaps_of_few_bits<const FULL: bool>(map: Map, lent: &mut Shadows, call: Call) -> Answer {
    let mut said = stand_in(map, lent, call);
    if matches!(call, Call::Place { .. }) && shows::<FULL>(map.heap_size) {
        said.fields[1] %= 1 << 5;
    }
    said
}

pub fn long_gaps_unseen<const FULL: bool>(map: Map, lent: &mut Shadows, call: Call) -> Answer {
    let said = stand_in(map, lent, call);
    match call {
        Call::Place { length, .. }
            if said.number == 0 && shows::<FULL>(map.heap_size) && length > limit::<FULL>() =>
        {
            Err(refusal::NO_GAP).into()
        }
        _ => said,
    }
}
