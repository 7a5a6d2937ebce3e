//! The base of the ratios: a memset of the shadow bytes that a case's calls touch.

use std::hint::black_box;

use model::call::Call;
use model::map::{Area, Map};
use model::plain::List;
use model::plain_btree::PlainTree;

use crate::case::Case;
use crate::lists::Calls;
use crate::side::Here;
use crate::state::{State, HEAP_SIZE, STACK_SIZE};

/// The bytes of a reading.
const READING: usize = 9;
const HEAP: usize = HEAP_SIZE as usize;
const STACK: usize = STACK_SIZE as usize;
/// Where the cells begin, the heap's before the stack's.
const CELLS: usize = HEAP + STACK + STACK;

/// A part of one of the three shadows.
#[derive(Clone, Copy)]
struct Part {
    start: usize,
    length: usize,
}

/// The three shadows one after the other, those of the cells, and room for a part that begins at the very end.
pub struct Memset {
    shadows: Vec<u8>,
    parts: Vec<Part>,
    /// Whether free and remove zero cells too.
    cells: bool,
}

impl Memset {
    pub fn new(cells: bool) -> Self {
        Memset {
            shadows: vec![0; CELLS + 2 * (HEAP + STACK) + 64],
            parts: Vec::new(),
            cells,
        }
    }
}

impl Here for Memset {
    fn title(&self) -> &'static str {
        "memset"
    }

    fn load(&mut self, _state: &State) {}

    fn prepare(&mut self, state: &State, case: &Case) {
        let mut list = state.list();
        for &call in &case.before {
            list.step(call);
        }
        self.parts.clear();
        for &call in &case.timed {
            touched(state.map, &mut list, call, &mut self.parts);
            if self.cells {
                self.parts.extend(cells(state.map, &mut list, call));
            }
            list.step(call);
        }
    }

    fn make(&mut self, _calls: &[Call]) {}

    fn measured(&mut self, _calls: &Calls) -> u64 {
        for part in &self.parts {
            let bytes = &mut self.shadows[part.start..part.start + part.length];
            black_box(bytes).fill(black_box(0));
        }
        0
    }
}

/// Where the shadow of an address begins in the heap shadow or the primary one.
fn place(map: Map, address: u32) -> Option<(Area, usize)> {
    let area = map.area(address)?;
    let position = map.position(area, address);
    Some(match area {
        Area::Heap => (area, position),
        Area::Stack => (area, HEAP + position),
    })
}

/// The parts that a call touches, in number and length as the layouts have it.
fn touched(map: Map, list: &mut PlainTree, call: Call, parts: &mut Vec<Part>) {
    let mut add = |start, length| parts.push(Part { start, length });
    // In the heap the bits of a segment are one byte.
    let marks = |area, start: usize, n: u32| match area {
        Area::Heap => (start % 8 + n as usize).div_ceil(8),
        Area::Stack => n as usize,
    };
    match call {
        Call::Audit | Call::Clear => {
            add(0, HEAP);
            add(HEAP, STACK);
            add(HEAP + STACK, STACK);
        }
        Call::Next { address } => {
            let found = list.step(call).fields[0];
            let (_, start) = place(map, address).expect("a search begins in an area");
            add(start, (found - address) as usize);
        }
        Call::Place { budget, .. } => add(0, passed(map, list, budget)),
        Call::Record { base, length }
        | Call::RecordWritten { base, length }
        | Call::RecordLiteral { base, length } => placed(map, base, length, add),
        Call::Free { base } | Call::Remove { base } => placed(
            map,
            base,
            list.step(Call::Ask { address: base }).fields[1],
            add,
        ),
        Call::Ask { address } => {
            if let Some((_, start)) = place(map, address) {
                add(start, READING);
            }
        }
        Call::Valid { address, from, .. } | Call::ValidRead { address, from, .. } => {
            if let Some((_, start)) = place(map, address) {
                add(
                    start,
                    if from == address {
                        READING
                    } else {
                        2 * READING
                    },
                );
            }
        }
        Call::Initialised { address, n } | Call::Written { address, n } => {
            if let Some((area, start)) = place(map, address) {
                add(start, READING + marks(area, start, n));
            }
        }
    }
}

/// The bytes of the heap shadow from its start to the segment that ends the last gap of a budget; all, where there are fewer gaps.
fn passed(map: Map, list: &PlainTree, budget: u32) -> usize {
    let mut gaps = 0;
    let mut free = 0;
    for block in list.listed() {
        let Some((Area::Heap, start)) = place(map, block.base) else {
            continue;
        };
        if start - 8 > free {
            gaps += 1;
            if gaps == budget {
                return start;
            }
        }
        free = start + block.length.next_multiple_of(8) as usize;
    }
    HEAP
}

fn placed(map: Map, base: u32, length: u32, mut add: impl FnMut(usize, usize)) {
    let length = length as usize;
    match place(map, base) {
        Some((Area::Heap, start)) => add(start - 8, 8 + length.next_multiple_of(8)),
        Some((Area::Stack, start)) => {
            add(start, length);
            add(start + STACK, length);
        }
        None => {}
    }
}

/// The cells that free and remove zero: eight bytes for each four of the block.
fn cells(map: Map, list: &mut PlainTree, call: Call) -> Option<Part> {
    let (Call::Free { base } | Call::Remove { base }) = call else {
        return None;
    };
    let length = list.step(Call::Ask { address: base }).fields[1] as usize;
    let (_, start) = place(map, base)?;
    Some(Part {
        start: CELLS + 2 * start,
        length: 2 * length.next_multiple_of(4),
    })
}

#[cfg(test)]
mod tests {
    use super::*;
    use crate::state::{apart, empty, roomy, ORIGINS, PLAYER};

    /// Where a part begins, and its length.
    fn parts(call: Call) -> Vec<(usize, usize)> {
        let state = roomy(PLAYER);
        let mut parts = Vec::new();
        touched(state.map, &mut state.list(), call, &mut parts);
        parts.iter().map(|part| (part.start, part.length)).collect()
    }

    /// Nine bytes of a reading, and one for each segment of the heap or each byte of the stack.
    #[test]
    fn marks() {
        let heap = roomy(PLAYER).map.heap_start;
        let stack = roomy(PLAYER).map.stack_start;
        for (n, segments) in [(8, 1), (64, 8), (1024, 128)] {
            let address = heap + 80;
            let whole = vec![(80, 9 + segments)];
            assert_eq!(parts(Call::Written { address, n }), whole);
            assert_eq!(parts(Call::Initialised { address, n }), whole);
            let address = stack + 80;
            let whole = vec![(131_072 + 80, 9 + n as usize)];
            assert_eq!(parts(Call::Written { address, n }), whole);
            assert_eq!(parts(Call::Initialised { address, n }), whole);
        }
        let across = Call::Written {
            address: heap + 87,
            n: 2,
        };
        assert_eq!(parts(across), [(87, 9 + 2)]);
    }

    /// The first of the state's gaps lies behind its first block, the header of the second one ends it; there are 499.
    #[test]
    fn gaps() {
        let state = apart(PLAYER);
        let second = state.heap_blocks()[1].base - state.map.heap_start;
        let whole = |budget| passed(state.map, &state.list(), budget);
        assert_eq!(whole(1), second as usize);
        assert!(whole(498) < whole(499) && whole(499) < HEAP);
        assert_eq!(whole(500), HEAP);
        let empty = empty(PLAYER);
        assert_eq!(passed(empty.map, &empty.list(), 1), HEAP);
    }

    /// Two bytes for each byte of whole cells.
    #[test]
    fn ended_cells() {
        let state = roomy(ORIGINS);
        for (area, block) in [(0, &state.heap_blocks()[3]), (1, &state.stack_blocks()[3])] {
            let end = state.to_end(block.base);
            let part = cells(state.map, &mut state.list(), end);
            let start = [state.map.heap_start, state.map.stack_start][area];
            let first = [262_144, 262_144 + 262_144][area];
            let part = part.expect("what ends a block zeroes cells");
            assert_eq!(part.start, first + 2 * (block.base - start) as usize);
            assert_eq!(part.length, 8 * block.length.div_ceil(4) as usize);
        }
        assert!(cells(state.map, &mut state.list(), Call::Audit).is_none());
    }
}
