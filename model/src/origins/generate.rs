//! Seeded calls of this form: pointers kept across the ends of blocks and new recordings in
//! the same place, copies of them, cells in short blocks, unaligned bases.
//!
//! The submodules make states and input files of the same kind.

pub mod file;
pub mod states;

use crate::block::Block;
use crate::call::Call;
use crate::generate;
use crate::map::Map;
use crate::origins::call::OriginsCall;
use crate::origins::cells::{containing, CELL};
use crate::random::Random;

/// How many places and cells are remembered.
const REMEMBERED: usize = 12;

/// The calls of one run, with what stale pointers are made of: the places of
/// blocks that have ended, and the cells that were named.
#[derive(Clone, Debug, Default)]
pub struct Calls {
    ended: Vec<(u32, u32)>,
    cells: Vec<u32>,
}

impl Calls {
    /// The next call, refused ones included; blocks are the live ones.
    pub fn next(&mut self, random: &mut Random, map: Map, blocks: &[Block]) -> OriginsCall {
        let call = self.draw(random, map, blocks);
        self.remember(call, map, blocks);
        call
    }

    fn draw(&self, random: &mut Random, map: Map, blocks: &[Block]) -> OriginsCall {
        match random.below(100) {
            0..=39 => {
                let call = generate::call_but_place(random, map, blocks);
                OriginsCall::Plain(aligned(random, call))
            }
            40..=49 => OriginsCall::Plain(self.again(random, map, blocks)),
            50..=55 => OriginsCall::Plain(ending(random, map, blocks)),
            56..=69 => OriginsCall::Point {
                cell: self.cell(random, map, blocks),
                address: self.target(random, map, blocks),
            },
            70..=81 => OriginsCall::Copy {
                to: self.cell(random, map, blocks),
                from: self.cell(random, map, blocks),
            },
            _ => OriginsCall::Live {
                cell: self.cell(random, map, blocks),
                address: self.target(random, map, blocks),
            },
        }
    }

    fn remember(&mut self, call: OriginsCall, map: Map, blocks: &[Block]) {
        match call {
            OriginsCall::Plain(one @ (Call::Free { base } | Call::Remove { base })) => {
                // Free of a stack block ends none, and neither does remove of a heap block.
                let ends = |area| Call::to_end(area, base) == one;
                let gone = blocks.iter().find(|block| block.base == base);
                let gone = gone.filter(|_| map.area(base).is_some_and(ends));
                self.ended.extend(gone.map(|block| (base, block.length)));
            }
            // They stay when their block goes, and are no cells then.
            OriginsCall::Point { cell, .. } | OriginsCall::Copy { to: cell, .. }
                if blocks.iter().any(|block| block.holds(cell, CELL)) =>
            {
                self.cells.push(cell);
            }
            _ => {}
        }
        let surplus = self.ended.len().saturating_sub(REMEMBERED);
        self.ended.drain(..surplus);
        let surplus = self.cells.len().saturating_sub(REMEMBERED);
        self.cells.drain(..surplus);
    }

    /// A recording where a block was, as long as that one or not quite.
    fn again(&self, random: &mut Random, map: Map, blocks: &[Block]) -> Call {
        if self.ended.is_empty() {
            let call = generate::record(random, map, blocks);
            return aligned(random, call);
        }
        let (base, was) = random.pick(&self.ended);
        let length = random.pick(&[was, was, was + 1, was.saturating_sub(1), 4, 8]);
        generate::recording(random, base, length)
    }

    /// A pointer's cell: mostly one that a live block holds, or nearly holds.
    fn cell(&self, random: &mut Random, map: Map, blocks: &[Block]) -> u32 {
        match random.below(12) {
            0 => generate::address(random, map, blocks),
            1 => containing(generate::address(random, map, blocks)),
            2..=5 if !self.cells.is_empty() => random.pick(&self.cells),
            _ if blocks.is_empty() => generate::address(random, map, blocks),
            _ => {
                let block = &blocks[random.below(blocks.len() as u64) as usize];
                // One step too far at times: past the block, or its last bytes.
                let cells = block.length / CELL;
                let first = block.base.next_multiple_of(CELL);
                first.wrapping_add(CELL * random.between(0, cells))
            }
        }
    }

    /// What a pointer is set to or compared with: live blocks, places of ended
    /// ones, and anything else.
    fn target(&self, random: &mut Random, map: Map, blocks: &[Block]) -> u32 {
        match random.below(8) {
            0 => generate::address(random, map, blocks),
            1 | 2 if !self.ended.is_empty() => {
                let (base, length) = random.pick(&self.ended);
                base + random.between(0, length)
            }
            _ if blocks.is_empty() => generate::address(random, map, blocks),
            _ => {
                let block = &blocks[random.below(blocks.len() as u64) as usize];
                block.base + random.between(0, block.length - 1)
            }
        }
    }
}

/// A recording's base at a multiple of four, most of the time; lengths that
/// leave room for others.
fn aligned(random: &mut Random, call: Call) -> Call {
    if random.once_in(4) {
        return call;
    }
    let short = random.between(1, 20);
    let bounded = |length: u32| if length > 40 { short } else { length };
    match call.recording() {
        Some((base, length, beginning)) => {
            Call::to_begin(beginning, containing(base), bounded(length))
        }
        None => call,
    }
}

/// Free or remove, at the base of a live block if there is one.
fn ending(random: &mut Random, map: Map, blocks: &[Block]) -> Call {
    let base = match blocks.is_empty() {
        true => generate::address(random, map, blocks),
        false => blocks[random.below(blocks.len() as u64) as usize].base,
    };
    generate::ending(random, map, base)
}
