//! Questions for a place, and heap bytes with gaps of several sizes and of the
//! same size.

use std::iter::once;

use crate::block::{footprint, Block};
use crate::call::Call;
use crate::form::Form;
use crate::generate::shadows;
use crate::image::Shadows;
use crate::map::{Area, Map};
use crate::random::Random;

/// A place asked for, with lengths around what the room between blocks holds.
pub fn place(random: &mut Random, map: Map, blocks: &[Block]) -> Call {
    let heap = map.bounds(Area::Heap);
    let in_heap = |block: &&Block| map.area(block.base) == Some(Area::Heap);
    let blocks = blocks.iter().filter(in_heap);
    let footprint = |block: &Block| footprint(map.form, Area::Heap, block.base, block.length);
    let taken = blocks.map(footprint);
    let mut from = heap.start;
    let mut rooms = Vec::new();
    for next in taken.chain(once(heap.end..heap.end)) {
        // On bytes that are no image the blocks read may lie over each other.
        rooms.push(next.start.saturating_sub(from) as u32);
        from = next.end;
    }
    rooms.retain(|&room| room > 0);
    asked(random, map.form, &rooms)
}

/// The same on any bytes, around what their zero segments hold.
pub fn place_on(random: &mut Random, form: Form, heap: &[u8]) -> Call {
    let zero: Vec<bool> = heap
        .chunks(form.bytes())
        .map(|segment| segment.iter().all(|&byte| byte == 0))
        .collect();
    let runs = zero.chunk_by(bool::eq).filter(|run| run[0]);
    let rooms: Vec<u32> = runs.map(|run| form.segment * run.len() as u32).collect();
    asked(random, form, &rooms)
}

/// Length and budget at the edges of what gaps with so many bytes allow.
fn asked(random: &mut Random, form: Form, gaps: &[u32]) -> Call {
    let segment = form.segment;
    let gap = match gaps.is_empty() {
        true => 2 * segment,
        false => random.pick(gaps),
    };
    let room = gap.saturating_sub(segment);
    let length = match random.below(16) {
        0 => 0,
        1 => near_the_end(random, segment, gap),
        2..=4 => room,
        5 => gap - segment + 1,
        6 => room.saturating_sub(random.between(1, segment)),
        7..=11 => random.between(1, segment),
        12 | 13 => random.between(segment + 1, 3 * segment + 1),
        _ => random.between(1, gap),
    };
    let all = gaps.len() as u32;
    let budget = match random.below(12) {
        0 => 0,
        1 | 2 => 1,
        3 => 2,
        4 => random.pick(&[u32::MAX, u32::MAX - 1, 1 << 31, 1 << 16]),
        5 => u32::MAX,
        6 => all,
        7 => all + 1,
        8 => all.saturating_sub(1),
        _ => random.between(1, all + 2),
    };
    Call::Place { length, budget }
}

/// Lengths that fit nowhere, and would fit somewhere if a sum wrapped.
fn near_the_end(random: &mut Random, segment: u32, gap: u32) -> u32 {
    let past = random.between(0, 3 * segment);
    random.pick(&[
        u32::MAX,
        u32::MAX - past,
        u32::MAX - gap,
        gap.wrapping_neg(),
        (1 << 31) + gap - segment,
        1 << 31,
    ])
}

/// Shadows of no list: between gaps of at most a few segments stands a segment
/// of which one byte, any of them, is not zero.
pub fn gapped(random: &mut Random, map: Map) -> Shadows {
    let mut shadows = shadows::noise(random, map);
    shadows.heap.fill(0);
    let largest = random.pick(&[1, 2, 2, 3, 4, 6, 12]);
    let mut zeros = random.between(0, largest);
    for segment in shadows.heap.chunks_mut(map.form.bytes()) {
        if zeros > 0 {
            zeros -= 1;
            continue;
        }
        let any = 1 + random.below(255) as u8;
        let bit = 1 << random.below(8);
        segment[random.below(map.form.whole()) as usize] = random.pick(&[1, bit, any]);
        zeros = random.between(0, largest);
    }
    shadows
}
