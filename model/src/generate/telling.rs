//! The bytes of large areas where a layout changes its kind: those to damage, to
//! read and to end at, where all of them would take too long.

use std::collections::BTreeSet;

use crate::block::{footprint, Block};
use crate::image::{Shadows, LONGEST_SHORT};
use crate::map::{Area, Map};

/// A byte of the shadows.
#[derive(Clone, Copy, Debug, PartialEq, Eq)]
pub enum Place {
    Heap(usize),
    Primary(usize),
    Secondary(usize),
}

impl Place {
    /// The byte itself.
    pub fn of(self, shadows: &mut Shadows) -> &mut u8 {
        match self {
            Place::Heap(at) => &mut shadows.heap[at],
            Place::Primary(at) => &mut shadows.primary[at],
            Place::Secondary(at) => &mut shadows.secondary[at],
        }
    }

    /// The area that it tells of, and the address of this position there.
    pub fn address(self, map: Map) -> (Area, u32) {
        match self {
            Place::Heap(at) => (Area::Heap, map.heap_start + at as u32),
            Place::Primary(at) | Place::Secondary(at) => (Area::Stack, map.stack_start + at as u32),
        }
    }
}

/// Where positions, lengths and numbers need one bit more; the last is the end of
/// the largest heap.
pub const STEPS: [i64; 5] = [1 << 8, 1 << 12, 1 << 15, 1 << 16, 1 << 17];

/// So many blocks of an area are looked at one by one.
const FEW: usize = 32;

/// The blocks of an area, or of many the first, the last and those in the middle.
pub fn some(map: Map, area: Area, blocks: &[Block]) -> Vec<&Block> {
    let of_area = |block: &&Block| map.area(block.base) == Some(area);
    let all: Vec<&Block> = blocks.iter().filter(of_area).collect();
    if all.len() <= FEW {
        return all;
    }
    let (middle, last) = (all.len() / 2, all.len() - 2);
    [&all[..2], &all[middle..middle + 2], &all[last..]].concat()
}

/// Positions below a size; others are left out.
struct Positions {
    size: i64,
    found: BTreeSet<usize>,
}

impl Positions {
    fn new(map: Map, area: Area) -> Self {
        let bounds = map.bounds(area);
        Positions {
            size: (bounds.end - bounds.start) as i64,
            found: BTreeSet::new(),
        }
    }

    fn add(&mut self, all: impl IntoIterator<Item = i64>) {
        let inside = all.into_iter().filter(|at| (0..self.size).contains(at));
        self.found.extend(inside.map(|at| at as usize));
    }

    /// Both ends, the middle, and both sides of every step.
    fn add_ends(&mut self, unit: i64) {
        let size = self.size;
        self.add([0, unit, size / 2, size - 2 * unit, size - unit, size - 1]);
        self.add(STEPS.iter().flat_map(|step| [step - 1, *step]));
    }
}

/// The offsets in units of a block where its layout may change, and those beside it.
fn offsets(block: &Block, unit: i64) -> Vec<i64> {
    let length = i64::from(block.length);
    let last = length - 1;
    let steps = STEPS.iter().flat_map(|step| [step - 1, *step]);
    let mut offsets: Vec<i64> = steps.filter(|&offset| offset < length).collect();
    let within = [0, unit, length / 2, last - unit, last];
    offsets.extend(within.iter().filter(|offset| (0..length).contains(*offset)));
    offsets.extend([-1, last + unit]);
    offsets
}

/// Where these segments begin: the first, last and middle ones of the area and of
/// its blocks, their headers, what follows them, and both sides of each step.
pub fn segments(map: Map, blocks: &[Block]) -> Vec<usize> {
    let segment = i64::from(map.form.segment);
    let mut positions = Positions::new(map, Area::Heap);
    positions.add_ends(segment);
    for block in some(map, Area::Heap, blocks) {
        let first = map.position(Area::Heap, block.base) as i64;
        positions.add(offsets(block, segment).iter().map(|offset| first + offset));
    }
    let found = positions.found.iter().map(|at| at - at % map.form.bytes());
    let found: BTreeSet<usize> = found.collect();
    found.into_iter().collect()
}

/// The same of the stack, in bytes: all of a short block and of the first and last
/// piece of a long one, and of others the first, the fifth and the last byte.
pub fn stack_positions(map: Map, blocks: &[Block]) -> Vec<usize> {
    let mut positions = Positions::new(map, Area::Stack);
    positions.add_ends(1);
    for block in some(map, Area::Stack, blocks) {
        let first = map.position(Area::Stack, block.base) as i64;
        let length = i64::from(block.length);
        let last = match block.length {
            ..=LONGEST_SHORT => 0,
            _ => length - length % 8 - 8,
        };
        positions.add(first..first + length.min(8));
        positions.add(first + last..first + length);
        for offset in offsets(block, 8) {
            let piece = first + offset - offset.rem_euclid(8);
            positions.add([first + offset, piece, piece + 4, piece + 7]);
        }
    }
    positions.found.into_iter().collect()
}

/// Every byte of these segments, and of these positions in both shadows of the stack.
pub fn places(map: Map, blocks: &[Block]) -> Vec<Place> {
    let segments = segments(map, blocks).into_iter();
    let heap = segments.flat_map(|at| at..at + map.form.bytes());
    let stack = stack_positions(map, blocks).into_iter();
    let stack = stack.flat_map(|at| [Place::Primary(at), Place::Secondary(at)]);
    heap.map(Place::Heap).chain(stack).collect()
}

/// Those of a block's own footprint.
pub fn own_places(map: Map, area: Area, block: &Block) -> Vec<Place> {
    let own = footprint(map.form, area, block.base, block.length);
    let mut found = places(map, std::slice::from_ref(block));
    found.retain(|place| {
        let (of, address) = place.address(map);
        of == area && own.contains(&u64::from(address))
    });
    found
}

/// Addresses, those that are none left out.
fn distinct(all: impl IntoIterator<Item = i64>) -> Vec<u32> {
    let real = all.into_iter().filter_map(|at| u32::try_from(at).ok());
    let real: BTreeSet<u32> = real.collect();
    real.into_iter().collect()
}

/// Where readings change their kind: at the same places, beside the areas, and at
/// the ends of the address space.
pub fn addresses(map: Map, blocks: &[Block]) -> Vec<u32> {
    let segment = i64::from(map.form.segment);
    let start = i64::from(map.heap_start);
    let heap = segments(map, blocks).into_iter();
    let heap =
        heap.flat_map(|at| [0, segment / 2, segment - 1].map(|part| start + at as i64 + part));
    let start = i64::from(map.stack_start);
    let stack = stack_positions(map, blocks).into_iter();
    let stack = stack.map(|at| start + at as i64);
    let areas = [Area::Heap, Area::Stack].map(|area| map.bounds(area));
    let beside = areas
        .into_iter()
        .flat_map(|area| [area.start as i64 - 1, area.end as i64]);
    let steps = STEPS.iter().flat_map(|step| [step - 1, *step]);
    let far = [1 << 31, i64::from(u32::MAX)];
    distinct(
        heap.chain(stack)
            .chain(beside)
            .chain(steps)
            .chain(0..9)
            .chain(far),
    )
}

/// The block whose footprint has this address.
pub fn holder(map: Map, blocks: &[Block], address: u32) -> Option<&Block> {
    let area = map.area(address)?;
    let place = |block: &Block| footprint(map.form, area, block.base, block.length);
    blocks.iter().find(|block| {
        map.area(block.base) == Some(area) && place(block).contains(&u64::from(address))
    })
}

/// Addresses whose readings may go by this byte: those of its segment or piece and
/// beside it, and the first, middle and last of its block and the one past that.
pub fn told(map: Map, blocks: &[Block], place: Place) -> Vec<u32> {
    let (area, address) = place.address(map);
    let at = i64::from(address);
    let mut told = match area {
        Area::Heap => {
            let segment = i64::from(map.form.segment);
            let first = at - at % segment;
            vec![first - 1, first, first + segment - 1, first + segment]
        }
        Area::Stack => vec![at - 7, at - 1, at, at + 7],
    };
    if let Some(block) = holder(map, blocks, address) {
        let (base, length) = (i64::from(block.base), i64::from(block.length));
        told.extend([base, base + length / 2, base + length - 1, base + length]);
    }
    distinct(told)
}
