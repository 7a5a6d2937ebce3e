//! The two shadows of cells: an origin and a referent for every four bytes.

use std::ops::Range;

use crate::image::Shadows;
use crate::map::{Area, Map};

/// The bytes of a cell, and of each of the two numbers in its shadow.
pub const CELL: u32 = 4;

/// The shadow of the heap's cells and that of the stack's.
#[derive(Clone, Debug, PartialEq, Eq)]
pub struct Cells {
    pub heap: Vec<u8>,
    pub stack: Vec<u8>,
}

impl Cells {
    /// Cells of the map's sizes, all zeros.
    pub fn cleared(map: Map) -> Self {
        Cells {
            heap: vec![0; 2 * map.heap_size as usize],
            stack: vec![0; 2 * map.stack_size as usize],
        }
    }

    /// The cells of an area.
    pub fn of_mut(&mut self, area: Area) -> &mut [u8] {
        match area {
            Area::Heap => &mut self.heap,
            Area::Stack => &mut self.stack,
        }
    }
}

/// All that travels with the calls of this form.
#[derive(Clone, Debug, PartialEq, Eq)]
pub struct State {
    pub shadows: Shadows,
    pub cells: Cells,
    pub counter: u64,
}

impl State {
    /// Everything zero, and the counter at the first origin.
    pub fn cleared(map: Map) -> Self {
        State {
            shadows: Shadows::cleared(map),
            cells: Cells::cleared(map),
            counter: crate::origins::call::FIRST_ORIGIN,
        }
    }
}

/// The address of the cell that contains an address.
pub fn containing(address: u32) -> u32 {
    address - address % CELL
}

/// Where the origin of a cell stands in the shadow of its area's cells.
pub fn origin_place(map: Map, area: Area, cell: u32) -> Range<usize> {
    let position = 2 * map.position(area, cell);
    position..position + CELL as usize
}

/// Where its referent stands: just behind.
pub fn referent_place(map: Map, area: Area, cell: u32) -> Range<usize> {
    let origin = origin_place(map, area, cell);
    origin.end..origin.end + CELL as usize
}

/// Cells that hold these origins, each at its base, and these referents, each
/// at its pointer's cell, and zero elsewhere.
pub fn image(
    map: Map,
    origins: impl Iterator<Item = (u32, u32)>,
    referents: impl Iterator<Item = (u32, u32)>,
) -> Cells {
    let mut cells = Cells::cleared(map);
    for (base, origin) in origins {
        let area = map.area(base).expect("a live block lies in an area");
        let place = origin_place(map, area, base);
        cells.of_mut(area)[place].copy_from_slice(&origin.to_le_bytes());
    }
    for (cell, referent) in referents {
        let area = map.area(cell).expect("a set pointer lies in an area");
        let place = referent_place(map, area, cell);
        cells.of_mut(area)[place].copy_from_slice(&referent.to_le_bytes());
    }
    cells
}
