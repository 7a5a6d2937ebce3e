//! Blocks that fill large areas, by rule and not by chance: every kind of segment
//! and piece, a block at each end of an area, and lengths and offsets on both sides
//! of 2 to the 8 and to the 16.

use std::ops::Range;

use crate::block::{Beginning, Block};
use crate::form::Form;
use crate::generate::Scale;
use crate::map::{Area, Map};

/// How an area is filled.
#[derive(Clone, Copy, Debug, PartialEq, Eq)]
pub enum Filling {
    /// Short and long blocks, touching and apart.
    Mixed,
    /// The same, with every base at a multiple of 4.
    Aligned,
    /// One block over all of it.
    Whole,
    /// As many blocks as there is room for.
    Smallest,
}

/// So many variants there are of each map and of each filling.
pub const VARIANTS: u32 = 3;

/// A map of this scale: lowest, highest, or across 2 to the 16, with areas that
/// touch or stand apart, either one first.
pub fn map_at(form: Form, scale: Scale, variant: u32) -> Map {
    let segment = form.segment;
    let (heap, stack) = match scale {
        Scale::Crowded => (16 * segment, 72),
        Scale::Middle => (6000, 3000),
        Scale::Full => (131_072, 65_536),
    };
    // The highest multiple of a segment at which an area can end.
    let top = u32::MAX - u32::MAX % segment;
    let map = match variant % VARIANTS {
        0 => Map::new(segment, heap, segment + heap, stack),
        1 => Map::new(top - heap, heap, top - heap - stack, stack),
        _ => Map::new(65_536 - 64, heap, 65_536 + heap + 8, stack),
    };
    map.of(form)
}

/// The blocks of this filling, in address order in each area, some bytes marked.
pub fn blocks(map: Map, filling: Filling, variant: u32) -> Vec<Block> {
    let variant = variant % VARIANTS;
    let mut blocks = Vec::new();
    for area in map.climbing() {
        let mut row = Row::new(map, area);
        match (filling, area) {
            (Filling::Mixed | Filling::Aligned, Area::Heap) => row.mixed_heap(variant),
            (Filling::Mixed, Area::Stack) => row.mixed_stack(variant),
            (Filling::Aligned, Area::Stack) => {
                row.unit = 4;
                row.mixed_stack(variant);
            }
            (Filling::Whole, _) => row.whole(variant),
            (Filling::Smallest, _) => row.smallest(variant),
        }
        blocks.extend(row.blocks);
    }
    for (index, block) in blocks.iter_mut().enumerate() {
        mark(block, index);
    }
    blocks
}

/// Every fourth block is written all over, the others here and there.
fn mark(block: &mut Block, index: usize) {
    for (at, written) in block.written.iter_mut().enumerate() {
        let left_out = (at + at / 8 + index).is_multiple_of(3);
        *written = block.literal || index.is_multiple_of(4) || !left_out;
    }
}

/// The blocks of one area, put one after the other as long as they fit.
struct Row {
    /// What the footprints are multiples of, and what stands before each.
    unit: u32,
    header: u32,
    bounds: Range<u64>,
    at: u64,
    blocks: Vec<Block>,
}

impl Row {
    fn new(map: Map, area: Area) -> Self {
        let (unit, header) = match area {
            Area::Heap => (map.form.segment, map.form.segment),
            Area::Stack => (1, 0),
        };
        let bounds = map.bounds(area);
        let at = bounds.start;
        let blocks = Vec::new();
        Row {
            unit,
            header,
            bounds,
            at,
            blocks,
        }
    }

    /// Whether there was room for a block of this length after so many free units.
    fn put_as(&mut self, beginning: Beginning, free: u32, length: u32) -> bool {
        let base = self.at + u64::from(free * self.unit + self.header);
        let end = base + u64::from(length.next_multiple_of(self.unit));
        let fits = length > 0 && end <= self.bounds.end;
        if fits {
            let block = Block::begun(base as u32, length, beginning);
            self.blocks.push(block);
            self.at = end;
        }
        fits
    }

    fn put(&mut self, free: u32, length: u32) -> bool {
        self.put_as(Beginning::Unwritten, free, length)
    }

    /// The bytes that are left, and those of the whole area.
    fn left(&self) -> u32 {
        (self.bounds.end - self.at) as u32
    }

    fn size(&self) -> u32 {
        (self.bounds.end - self.bounds.start) as u32
    }

    /// A block over what is left but so many bytes, and one that ends the area.
    fn close(&mut self, free: u32, kept: u32, last: u32) {
        let taken = free * self.unit + 2 * self.header + last + self.unit + kept;
        self.put(free, self.left().saturating_sub(taken));
        let room = self.left().saturating_sub(self.header + last);
        self.put(room / self.unit, last);
    }

    fn mixed_heap(&mut self, variant: u32) {
        let segment = self.unit;
        for (free, length) in [
            (0, segment - 3),
            (0, 1),
            (0, 2 * segment),
            (1, 3 * segment + 1),
            (0, 254 + variant),
            (2, self.size() / 2 + variant - 1),
        ] {
            self.put(free, length);
        }
        self.close(3, variant + 2, 2 * segment);
    }

    fn mixed_stack(&mut self, variant: u32) {
        self.at += u64::from(variant * self.unit);
        for length in 1..=8 {
            self.put(0, length);
        }
        for (free, length) in [(1, 9), (0, 15), (0, 16), (0, 17), (0, 23)] {
            self.put(free, length);
        }
        for length in [5, 20] {
            self.put_as(Beginning::Literal, 0, length);
        }
        self.put(2, 254 + variant);
        let longest = match variant {
            2 => Beginning::Literal,
            _ => Beginning::Unwritten,
        };
        self.put_as(longest, 0, self.size() / 2 + variant - 1);
        self.close(3, variant, 8 + variant);
    }

    fn whole(&mut self, variant: u32) {
        let length = self.size() - self.header - variant;
        self.put(0, length);
    }

    fn smallest(&mut self, variant: u32) {
        let lengths = match self.header {
            0 => [1, 8, 9],
            _ => [1, self.unit, self.unit + 1],
        };
        while self.put(0, lengths[variant as usize]) {}
    }
}
