//! Seeded maps and calls that crowd the areas and keep to their edges.
//!
//! The submodules make shadow bytes and input files of the same kind, and ask
//! for places; they fill large areas, and tell the bytes that count there.

pub mod file;
pub mod layouts;
mod maps;
pub mod places;
pub mod shadows;
pub mod telling;

pub use maps::{edge_map, edge_map_of, map, map_of, Scale};

use crate::block::{Beginning, Block};
use crate::call::Call;
use crate::map::{Area, Map, NULL};
use crate::random::Random;

/// Any of the calls, refused ones included; blocks are the live ones.
pub fn call(random: &mut Random, map: Map, blocks: &[Block]) -> Call {
    match random.once_in(20) {
        true => places::place(random, map, blocks),
        false => call_but_place(random, map, blocks),
    }
}

/// The same without place, which the form with origins does not offer.
pub(crate) fn call_but_place(random: &mut Random, map: Map, blocks: &[Block]) -> Call {
    match random.below(100) {
        0 => Call::Clear,
        1..=34 => record(random, map, blocks),
        35..=46 => {
            let base = first_byte(random, map, blocks);
            ending(random, map, base)
        }
        47..=60 => {
            let address = used(random, map, blocks);
            let n = count(random, address, blocks);
            Call::Written { address, n }
        }
        61..=69 => Call::Ask {
            address: address(random, map, blocks),
        },
        70..=79 => valid(random, map, blocks),
        80..=87 => {
            let address = address(random, map, blocks);
            let n = count(random, address, blocks);
            Call::Initialised { address, n }
        }
        88..=94 => Call::Next {
            address: address(random, map, blocks),
        },
        _ => Call::Audit,
    }
}

/// A call on a range inside one of the blocks, of which there is one at least.
pub fn inside(random: &mut Random, blocks: &[Block]) -> Call {
    let block = &blocks[random.below(blocks.len() as u64) as usize];
    let offset = random.between(0, block.length - 1);
    let address = block.base + offset;
    let n = random.between(1, block.length - offset);
    let from = block.base + random.between(0, block.length - 1);
    match random.below(4) {
        0 => Call::Valid { address, n, from },
        1 => Call::ValidRead { address, n, from },
        2 => Call::Initialised { address, n },
        _ => Call::Written { address, n },
    }
}

/// Any way to record, mostly where a block could stand, with lengths around
/// every step.
pub fn record(random: &mut Random, map: Map, blocks: &[Block]) -> Call {
    let segment = map.form.segment;
    let base = match random.below(10) {
        0..=3 => map.heap_start + segment * random.between(0, map.heap_size / segment - 1),
        4..=7 => map.stack_start + random.between(0, map.stack_size - 1),
        8 => after_a_block(random, map, blocks),
        _ => address(random, map, blocks),
    };
    let to_end = map
        .area(base)
        .map_or(0, |area| (map.bounds(area).end - u64::from(base)) as u32);
    let length = match random.below(20) {
        0 => 0,
        1 => random.pick(&[
            u32::MAX,
            u32::MAX - segment + 1,
            base.wrapping_neg(),
            1 << 31,
        ]),
        2 => to_end,
        3 => to_end + 1,
        4 => to_end.saturating_sub(1),
        5..=11 => random.between(1, segment),
        12..=17 => random.between(segment + 1, 3 * segment + 1),
        _ => random.between(1, map.heap_size),
    };
    recording(random, base, length)
}

/// The same in a large area: in the heap, with a length at the places where a number
/// needs one bit more.
pub(crate) fn record_near_a_step(random: &mut Random, map: Map) -> Call {
    let segment = map.form.segment;
    let base = map.heap_start + segment * random.between(0, map.heap_size / segment - 1);
    let step = random.pick(&[1 << 8, 1 << 12, 1 << 15, 1 << 16]);
    let length = step - 1 + random.between(0, 2);
    recording(random, base, length)
}

/// A block of this base and length in any of the three ways.
pub(crate) fn recording(random: &mut Random, base: u32, length: u32) -> Call {
    let beginning = match random.below(9) {
        0..=2 => Beginning::Written,
        3 | 4 => Beginning::Literal,
        _ => Beginning::Unwritten,
    };
    Call::to_begin(beginning, base, length)
}

/// Free or remove: mostly the one for the area of the base, else the other, which
/// is refused there.
pub(crate) fn ending(random: &mut Random, map: Map, base: u32) -> Call {
    let in_stack = map.area(base) == Some(Area::Stack);
    match in_stack != random.once_in(6) {
        true => Call::Remove { base },
        false => Call::Free { base },
    }
}

/// The same at any address of the areas, where the bytes may say anything.
pub(crate) fn ending_anywhere(random: &mut Random, map: Map) -> Call {
    let base = match random.once_in(2) {
        true => map.heap_start + random.between(0, map.heap_size - 1),
        false => map.stack_start + random.between(0, map.stack_size - 1),
    };
    ending(random, map, base)
}

/// Either of the two that ask for one block.
fn valid(random: &mut Random, map: Map, blocks: &[Block]) -> Call {
    let address = used(random, map, blocks);
    let n = count(random, address, blocks);
    let holder = blocks.iter().find(|block| block.holds(address, 1));
    let from = match holder {
        Some(block) if !random.once_in(3) => block.base + random.between(0, block.length),
        _ => self::address(random, map, blocks),
    };
    match random.once_in(2) {
        true => Call::Valid { address, n, from },
        false => Call::ValidRead { address, n, from },
    }
}

/// An address: ends of the address space, of areas and of blocks, and between.
pub fn address(random: &mut Random, map: Map, blocks: &[Block]) -> u32 {
    match random.below(10) {
        0 => random.pick(&[0, 1, 7, 8, u32::MAX, u32::MAX - 1, 4_294_967_288, 1 << 31]),
        1 | 2 => area_edge(random, map),
        3 => map.heap_start + random.between(0, map.heap_size - 1),
        4 => map.stack_start + random.between(0, map.stack_size - 1),
        5 if random.once_in(4) => random.word(),
        _ => block_edge(random, map, blocks),
    }
}

/// An address to be read or written: at times one of a literal, or just past it.
fn used(random: &mut Random, map: Map, blocks: &[Block]) -> u32 {
    let literals: Vec<&Block> = blocks.iter().filter(|block| block.literal).collect();
    if literals.is_empty() || !random.once_in(4) {
        return address(random, map, blocks);
    }
    let block = random.pick(&literals);
    block.base + random.between(0, block.length)
}

fn area_edge(random: &mut Random, map: Map) -> u32 {
    let bounds = map.bounds(random.pick(&[Area::Heap, Area::Stack]));
    let edges = [bounds.start, bounds.start + map.form.whole(), bounds.end];
    let edge = random.pick(&edges) as u32;
    let below = map.form.segment.wrapping_neg();
    edge.wrapping_add(random.pick(&[0, 0, 1, u32::MAX, below]))
}

fn block_edge(random: &mut Random, map: Map, blocks: &[Block]) -> u32 {
    if blocks.is_empty() {
        return area_edge(random, map);
    }
    let block = &blocks[random.below(blocks.len() as u64) as usize];
    match random.below(7) {
        0 => block.base - 1,
        1 | 2 => block.base,
        3 => (block.end() - 1) as u32,
        4 => block.end() as u32,
        5 => block.end() as u32 + 1,
        _ => block.base + random.between(0, block.length - 1),
    }
}

/// A block's base mostly, or the null pointer, or an address beside it, which
/// is refused like any other.
fn first_byte(random: &mut Random, map: Map, blocks: &[Block]) -> u32 {
    match random.below(15) {
        0 | 1 => NULL,
        2 => random.between(1, 7),
        3..=6 => address(random, map, blocks),
        _ if blocks.is_empty() => address(random, map, blocks),
        _ => blocks[random.below(blocks.len() as u64) as usize].base,
    }
}

/// The first places after a block where another may or may not stand.
fn after_a_block(random: &mut Random, map: Map, blocks: &[Block]) -> u32 {
    if blocks.is_empty() {
        return area_edge(random, map);
    }
    let block = &blocks[random.below(blocks.len() as u64) as usize];
    let next_segment = block.end().next_multiple_of(map.form.whole()) as u32;
    // At the top of the address space the last one wraps, and is refused.
    random.pick(&[
        block.end() as u32,
        next_segment,
        next_segment.wrapping_add(map.form.segment),
    ])
}

/// A count of bytes from an address on, around what its block still has.
fn count(random: &mut Random, address: u32, blocks: &[Block]) -> u32 {
    let holder = blocks.iter().find(|block| block.holds(address, 1));
    let rest = holder.map_or(1, |block| (block.end() - u64::from(address)) as u32);
    match random.below(12) {
        0 => 0,
        1 => random.pick(&[u32::MAX, address.wrapping_neg(), u32::MAX - 1]),
        2 | 3 => rest,
        4 => rest + 1,
        5 => rest - 1,
        6..=8 => random.between(1, rest),
        9 => 1,
        _ => random.between(1, 20),
    }
}
