//! The map: four 32-bit numbers, the rules a good map keeps, and its two areas.

use std::ops::Range;

use crate::form::{Form, PLAYER};

/// The null pointer's address; no start is this low, so no area holds it.
pub const NULL: u32 = 0;

/// The stack's start and size are multiples of this in every form.
const STACK_MULTIPLE: u64 = 8;
const LOWEST_START: u64 = 8;
const HIGHEST_HEAP_SIZE: u64 = 131_072;
const HIGHEST_STACK_SIZE: u64 = 65_536;
const HIGHEST_END: u64 = 4_294_967_295;

/// Where the two areas lie, under a form: what is good and what a block takes
/// there depends on it.
#[derive(Clone, Copy, Debug, Default, PartialEq, Eq)]
pub struct Map {
    pub heap_start: u32,
    pub heap_size: u32,
    pub stack_start: u32,
    pub stack_size: u32,
    pub form: Form,
}

/// One of the two areas; the stack area also carries static objects.
#[derive(Clone, Copy, Debug, PartialEq, Eq)]
pub enum Area {
    Heap,
    Stack,
}

impl Map {
    /// A map of the player, from its fields in the paper's order.
    pub const fn new(heap_start: u32, heap_size: u32, stack_start: u32, stack_size: u32) -> Self {
        Map {
            heap_start,
            heap_size,
            stack_start,
            stack_size,
            form: PLAYER,
        }
    }

    /// The same four numbers under a form.
    pub const fn of(self, form: Form) -> Self {
        Map { form, ..self }
    }

    /// Whether the map keeps every rule.
    pub fn good(self) -> bool {
        let heap = self.bounds(Area::Heap);
        let stack = self.bounds(Area::Stack);
        good_area(&heap, self.form.whole(), HIGHEST_HEAP_SIZE)
            && good_area(&stack, STACK_MULTIPLE, HIGHEST_STACK_SIZE)
            && (heap.end <= stack.start || stack.end <= heap.start)
    }

    /// The addresses of an area; 64 bits, so that the end never wraps.
    pub fn bounds(self, area: Area) -> Range<u64> {
        let (start, size) = match area {
            Area::Heap => (self.heap_start, self.heap_size),
            Area::Stack => (self.stack_start, self.stack_size),
        };
        let start = u64::from(start);
        start..start + u64::from(size)
    }

    /// The area that holds an address, if one does.
    pub fn area(self, address: u32) -> Option<Area> {
        [Area::Heap, Area::Stack]
            .into_iter()
            .find(|&area| self.bounds(area).contains(&u64::from(address)))
    }

    /// Both areas, the lower one first.
    pub fn climbing(self) -> [Area; 2] {
        if self.heap_start <= self.stack_start {
            [Area::Heap, Area::Stack]
        } else {
            [Area::Stack, Area::Heap]
        }
    }

    /// The shadow position of an address of the area.
    pub fn position(self, area: Area, address: u32) -> usize {
        let start = match area {
            Area::Heap => self.heap_start,
            Area::Stack => self.stack_start,
        };
        (address - start) as usize
    }
}

/// Each area has room for two of what its start and size are multiples of.
fn good_area(bounds: &Range<u64>, multiple: u64, highest_size: u64) -> bool {
    let size = bounds.end - bounds.start;
    bounds.start.is_multiple_of(multiple)
        && size.is_multiple_of(multiple)
        && bounds.start >= LOWEST_START
        && (2 * multiple..=highest_size).contains(&size)
        && bounds.end <= HIGHEST_END
}
