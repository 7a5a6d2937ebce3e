//! The states that cases begin in: which blocks are live.

use model::block::Block;
use model::call::Call;
use model::form::{self, Form};
use model::map::Map;
use model::plain::List;
use model::plain_btree::PlainTree;
use model::random::Random;

pub const HEAP_SIZE: u32 = 131_072;
pub const STACK_SIZE: u32 = 65_536;
const HEAP_START: u32 = 0x1_0000;
const STACK_START: u32 = 0x10_0000;
const HEAP_END: u32 = HEAP_START + HEAP_SIZE;
const STACK_END: u32 = STACK_START + STACK_SIZE;

/// Live blocks of each area.
const BLOCKS: u32 = 500;
/// Stack blocks of 1 to 8 bytes, of every so many.
const SHORT_OF: u64 = 5;
const SHORTS: u64 = 2;

/// Where bases lie: in the heap as a form wants it, in the stack at multiples of a number.
#[derive(Clone, Copy)]
pub struct Grid {
    form: Form,
    stack: u32,
}

#[rustfmt::skip]
pub const PLAYER: Grid = Grid { form: form::PLAYER, stack: 1 };
#[rustfmt::skip]
pub const ORIGINS: Grid = Grid { form: form::PLAYER, stack: 4 };
#[rustfmt::skip]
pub const DESK: Grid = Grid { form: form::DESK, stack: 1 };

impl Grid {
    /// Heap bases are multiples of it, and each header takes one.
    fn segment(self) -> u32 {
        self.form.segment
    }

    /// The longest heap block. Header and rest of the last segment take 12 bytes more where segments have 16: lengths are up to 24 less there, so
    /// that as many blocks fit.
    fn longest(self, length: u32) -> u32 {
        length - 3 * (self.segment() - PLAYER.segment())
    }

    /// The bytes that a heap block takes with its header.
    fn taken(self, length: u32) -> u32 {
        self.segment() + length.next_multiple_of(self.segment())
    }
}

pub struct State {
    pub title: &'static str,
    pub map: Map,
    /// From nothing to the state.
    pub calls: Vec<Call>,
}

/// A state of full size.
fn full(title: &'static str, grid: Grid, calls: Vec<Call>) -> State {
    State {
        title,
        map: Map::new(HEAP_START, HEAP_SIZE, STACK_START, STACK_SIZE).of(grid.form),
        calls,
    }
}

fn add(calls: &mut Vec<Call>, base: u32, length: u32) {
    calls.push(Call::Record { base, length });
    // The first half is written.
    calls.push(Call::Written {
        address: base,
        n: length.div_ceil(2),
    });
}

/// Blocks one after the other, up to a longest length; the last one ends the area.
fn blocks(longest_heap: u32, longest_stack: u32, grid: Grid) -> Vec<Call> {
    let mut random = Random::new(20);
    let mut calls = Vec::new();
    let mut at = HEAP_START;
    for _ in 1..BLOCKS {
        let length = random.between(1, grid.longest(longest_heap));
        add(&mut calls, at + grid.segment(), length);
        at += grid.taken(length);
    }
    last(&mut calls, at + grid.segment(), HEAP_END);
    let mut at = STACK_START;
    for _ in 1..BLOCKS {
        let short = random.below(SHORT_OF) < SHORTS;
        let length = if short {
            random.between(1, 8)
        } else {
            random.between(9, longest_stack)
        };
        add(&mut calls, at, length);
        at = (at + length).next_multiple_of(grid.stack);
    }
    last(&mut calls, at, STACK_END);
    calls
}

/// The last block of an area takes the rest of it, 64 bytes at most.
fn last(calls: &mut Vec<Call>, lowest: u32, end: u32) {
    assert!(lowest < end, "the blocks leave room for the last one");
    let length = (end - lowest).min(64);
    add(calls, end - length, length);
}

/// 1,000 live blocks all over the two areas.
pub fn filled(grid: Grid) -> State {
    full("filled", grid, blocks(486, 400, grid))
}

/// 1,000 live blocks and much room between the last two of each area.
pub fn roomy(grid: Grid) -> State {
    full("roomy", grid, blocks(100, 80, grid))
}

/// 500 live blocks in the heap alone, each but the last with a gap behind it.
pub fn apart(grid: Grid) -> State {
    let mut random = Random::new(53);
    let mut calls = Vec::new();
    let mut at = HEAP_START;
    for _ in 1..BLOCKS {
        let length = random.between(1, grid.longest(230));
        add(&mut calls, at + grid.segment(), length);
        let gap = grid.segment() * random.between(1, 232 / grid.segment());
        at += grid.taken(length) + gap;
    }
    last(&mut calls, at + grid.segment(), HEAP_END);
    full("apart", grid, calls)
}

pub fn empty(grid: Grid) -> State {
    full("empty", grid, Vec::new())
}

impl State {
    /// The list of the state's live blocks.
    pub fn list(&self) -> PlainTree {
        let mut list = PlainTree::new(self.map);
        for &call in &self.calls {
            assert_eq!(list.step(call).number, 0, "{call:?} is refused");
        }
        list
    }

    /// The call that ends a block: heap blocks are freed, stack blocks removed.
    pub fn to_end(&self, base: u32) -> Call {
        let area = self.map.area(base);
        Call::to_end(area.expect("a block lies in an area"), base)
    }

    pub fn heap_blocks(&self) -> Vec<Block> {
        self.within(HEAP_START, HEAP_END)
    }

    pub fn stack_blocks(&self) -> Vec<Block> {
        self.within(STACK_START, STACK_END)
    }

    fn within(&self, start: u32, end: u32) -> Vec<Block> {
        let mut blocks = self.list().listed();
        blocks.retain(|block| (start..end).contains(&block.base));
        blocks
    }
}
