//! The cells of the form with origins: pointers set, copied and judged where cells
//! tell, kept past the end of what they were set to, and cells that were changed.

use super::beside::{Beside, Met};
use super::lengths::{calls, differences};
use super::Large;
use crate::block::Block;
use crate::call::Call;
use crate::generate::layouts::{map_at, Filling};
use crate::generate::telling::STEPS;
use crate::held::origins::StatePlace;
use crate::image::{image, Shadows};
use crate::map::{Area, Map};
use crate::origins::call::OriginsCall;
use crate::origins::cells::{self, containing, origin_place, referent_place, State, CELL};

/// Origins of which two differ in one byte, now in a high one, now in a low one.
fn origin(nth: usize) -> u32 {
    let number = nth as u32 / 2 + 1;
    match nth % 2 {
        0 => 5 | number << 16,
        _ => 5 | number << 8,
    }
}

/// The cells of a block where a number needs one bit more, those at both ends, and the
/// one behind, which is none of its.
fn own_cells(block: &Block) -> Vec<u32> {
    let steps = STEPS.iter().map(|&step| step as u32);
    let steps = steps.flat_map(|step| [step - CELL, step]);
    let last = (block.length / CELL).saturating_sub(1) * CELL;
    let ends = [0, CELL, block.length / 2, last, last + CELL];
    let offsets = steps.chain(ends).filter(|&offset| offset <= last + CELL);
    let mut cells: Vec<u32> = offsets.map(|at| containing(block.base + at)).collect();
    cells.sort_unstable();
    cells.dedup();
    cells
}

/// A block's first, middle and last address, and the one past it.
fn targets(block: &Block) -> [u32; 4] {
    let (base, length) = (block.base, block.length);
    [base, base + length / 2, base + length - 1, base + length]
}

/// The call that ends this block, and the one that records it.
fn end(map: Map, block: &Block) -> Call {
    let area = map.area(block.base).expect("a block lies in an area");
    Call::to_end(area, block.base)
}

fn begin(block: &Block) -> Call {
    let (base, length) = (block.base, block.length);
    match block.literal {
        true => Call::RecordLiteral { base, length },
        false => Call::Record { base, length },
    }
}

impl Large<State> {
    /// Blocks with an origin each, and no pointer set.
    fn with_origins(&self, variant: u32) -> (Vec<Block>, Beside<State>) {
        let (map, blocks) = self.filled(Filling::Aligned, variant);
        let origins = blocks.iter().enumerate();
        let origins = origins.map(|(nth, block)| (block.base, origin(nth)));
        let state = State {
            shadows: image(map, &blocks),
            cells: cells::image(map, origins, [].into_iter()),
            counter: 1 << 31,
        };
        (blocks, Beside::new(self.library, map, state))
    }

    /// Each cell that tells set to blocks near and far, and then judged and copied.
    pub fn pointers(&self) {
        let mut met = Met::default();
        let mut answers = [0; 2];
        for variant in self.variants() {
            let (blocks, mut beside) = self.with_origins(variant);
            let cells: Vec<u32> = blocks.iter().flat_map(own_cells).collect();
            let targets: Vec<u32> = blocks.iter().flat_map(targets).collect();
            for (nth, &cell) in cells.iter().enumerate() {
                for index in 0..4 {
                    let target = |by| targets[(5 * nth + 29 * index + by) % targets.len()];
                    let address = target(0);
                    let to = cells[(nth + 7 * index) % cells.len()];
                    beside.after(OriginsCall::Point { cell, address }, |beside| {
                        // Of the same block or the next, and two blocks further on.
                        for address in [address, target(1), target(8)] {
                            let said = beside.call(OriginsCall::Live { cell, address });
                            met.add(said);
                            answers[said.fields[0] as usize] += 1;
                        }
                        let copied = OriginsCall::Copy { to, from: cell };
                        beside.after(copied, |beside| {
                            met.add(beside.call(OriginsCall::Live { cell: to, address }));
                        });
                    });
                }
            }
        }
        met.at_least(50, &[0, 11]);
        assert!(answers.iter().all(|&count| count > 100), "{answers:?}");
    }

    /// A block that ends while a pointer is set to it, or kept in it, and another one
    /// in the same place.
    pub fn stale_pointers(&self) {
        let (mut judged, mut again) = (Met::default(), Met::default());
        let (blocks, mut beside) = self.with_origins(1);
        let map = beside.map;
        let holders = blocks.iter().filter(|block| block.length >= CELL);
        for holder in holders.rev().step_by(2) {
            for cell in own_cells(holder).into_iter().step_by(2) {
                for block in &blocks {
                    let address = block.base + block.length - 1;
                    let live = OriginsCall::Live { cell, address };
                    beside.after(OriginsCall::Point { cell, address }, |beside| {
                        beside.after(OriginsCall::Plain(end(map, block)), |beside| {
                            judged.add(beside.call(live));
                            beside.after(OriginsCall::Plain(begin(block)), |beside| {
                                again.add(beside.call(live));
                            });
                        });
                    });
                }
            }
        }
        judged.at_least(100, &[0]);
        // A cell whose own block went is one again once a block is there.
        judged.at_least(10, &[11]);
        again.at_least(100, &[0]);
    }

    /// Every byte of the two cells that a pointer goes by, and of those beside them,
    /// changed.
    pub fn changes_of_a_cell(&self) {
        let mut answers = [0; 2];
        let (blocks, mut beside) = self.with_origins(2);
        let map = beside.map;
        let holders = blocks.iter().filter(|block| block.length > 4 * CELL);
        let cells: Vec<u32> = holders.flat_map(own_cells).collect();
        for (nth, &cell) in cells.iter().enumerate() {
            let block = &blocks[(11 * nth) % blocks.len()];
            let address = block.base + block.length / 2;
            beside.after(OriginsCall::Point { cell, address }, |beside| {
                for (area, at) in near_cells(map, cell).chain(near_cells(map, block.base)) {
                    let place = StatePlace::Cell(area, at);
                    let value = beside.byte(place) ^ (1 << (at % 8));
                    beside.with(place, value, |beside| {
                        let said = beside.call(OriginsCall::Live { cell, address });
                        answers[said.fields[0] as usize] += 1;
                        let cell = cells[(nth + at) % cells.len()];
                        beside.call(OriginsCall::Point { cell, address });
                    });
                }
                beside.plain(Call::Audit);
            });
        }
        assert!(answers.iter().all(|&count| count > 100), "{answers:?}");
    }

    /// Cells of other lengths than the map's: 2 for every call.
    pub fn wrong_lengths_of_cells(&self) {
        let mut met = Met::default();
        for by in differences() {
            let map = map_at(self.form, self.scale, 0);
            for area in [Area::Heap, Area::Stack] {
                let mut state = State::cleared(map);
                state.shadows = Shadows::cleared(map);
                let cells = match area {
                    Area::Heap => &mut state.cells.heap,
                    Area::Stack => &mut state.cells.stack,
                };
                cells.resize((cells.len() as i64 + by).max(0) as usize, 0);
                let mut beside = Beside::new(self.library, map, state);
                let (cell, address) = (map.heap_start + 8, map.heap_start + 8);
                for one in calls(cell).into_iter().map(OriginsCall::Plain).chain([
                    OriginsCall::Point { cell, address },
                    OriginsCall::Copy {
                        to: cell,
                        from: cell,
                    },
                    OriginsCall::Live { cell, address },
                ]) {
                    met.add(beside.call(one));
                }
            }
        }
        met.at_least(500, &[2]);
    }
}

/// The bytes of the cell at an address and of those before and behind it.
fn near_cells(map: Map, cell: u32) -> impl Iterator<Item = (Area, usize)> {
    let area = map.area(cell).expect("a cell lies in an area");
    let own = origin_place(map, area, cell).start..referent_place(map, area, cell).end;
    let bounds = map.bounds(area);
    let end = 2 * (bounds.end - bounds.start) as usize;
    let near = own.start.saturating_sub(8)..(own.end + 8).min(end);
    near.map(move |at| (area, at))
}
