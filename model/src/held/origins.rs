//! A library of the form with origins held against the models in large areas: runs
//! from cleared shadows and cells, the tests of the plain form, and those of cells.

mod runs;

use super::large::lent::plain_readers;
use super::large::{AnyLibrary, Large, Lent};
use crate::block::Block;
use crate::call::{Answer, Call};
use crate::form::PLAYER;
use crate::generate::record_near_a_step;
use crate::generate::telling::Place;
use crate::generate::Scale;
use crate::image::Shadows;
use crate::map::{Area, Map};
use crate::origins::bytes;
use crate::origins::call::OriginsCall;
use crate::origins::cells::{containing, Cells, State};
use crate::origins::generate::Calls;
use crate::random::Random;

/// A library of this form, whose heap is the player's.
#[derive(Clone, Copy, Debug)]
pub struct HeldOrigins {
    pub library: AnyLibrary<State>,
}

impl HeldOrigins {
    /// One call on any state, held against the byte-level model.
    pub fn agreed(&self, map: Map, lent: &mut State, one: OriginsCall) -> Answer {
        let before = lent.clone();
        let mut other = lent.clone();
        let said = (self.library)(map, lent, one);
        let model = bytes::call(map, &mut other, one);
        assert_eq!(said, model, "{map:?} {one:?} {before:?}");
        assert!(*lent == other, "state differs: {map:?} {one:?} {before:?}");
        said
    }

    /// The tests of areas of this scale.
    pub fn at(&self, scale: Scale) -> Large<State> {
        Large {
            form: PLAYER,
            library: self.library,
            scale,
        }
    }
}

/// A byte of the block shadows, or of an area's cells.
#[derive(Clone, Copy, Debug, PartialEq, Eq)]
pub enum StatePlace {
    Shadow(Place),
    Cell(Area, usize),
}

impl From<Place> for StatePlace {
    fn from(place: Place) -> Self {
        StatePlace::Shadow(place)
    }
}

/// Bytes of which none is zero, and hardly two numbers in them the same.
fn any_bytes(size: u32) -> Vec<u8> {
    let mut random = Random::new(size.into());
    let bytes = (0..size).map(|_| 1 + random.below(255) as u8);
    bytes.collect()
}

/// In the middle of its range, so that recordings are accepted.
const COUNTER: u64 = 0x7060_5040;

impl Lent for State {
    type Call = OriginsCall;
    type Place = StatePlace;

    fn plain(call: Call) -> OriginsCall {
        OriginsCall::Plain(call)
    }

    fn alters_nothing(call: OriginsCall) -> bool {
        call.alters_nothing()
    }

    fn draw(random: &mut Random, map: Map, blocks: &[Block]) -> OriginsCall {
        match random.once_in(50) {
            true => OriginsCall::Plain(record_near_a_step(random, map)),
            false => Calls::default().next(random, map, blocks),
        }
    }

    fn readers(address: u32, n: u32, from: u32) -> Vec<OriginsCall> {
        let cell = containing(address);
        let plain = plain_readers(address, n, from).into_iter();
        let mut readers: Vec<OriginsCall> = plain.map(OriginsCall::Plain).collect();
        for cell in [cell, address] {
            let (to, address) = (cell, from);
            readers.push(OriginsCall::Point { cell, address });
            readers.push(OriginsCall::Live { cell, address });
            let from = containing(from);
            readers.push(OriginsCall::Copy { to, from });
        }
        readers
    }

    fn model(map: Map, lent: &mut Self, call: OriginsCall) -> Answer {
        bytes::call(map, lent, call)
    }

    /// Cells of no list, so that each one that goes with a block, or stays, shows.
    fn around(map: Map, shadows: Shadows) -> Self {
        State {
            shadows,
            cells: Cells {
                heap: any_bytes(2 * map.heap_size),
                stack: any_bytes(2 * map.stack_size),
            },
            counter: COUNTER,
        }
    }

    fn byte(&mut self, place: StatePlace) -> &mut u8 {
        match place {
            StatePlace::Shadow(place) => place.of(&mut self.shadows),
            StatePlace::Cell(area, at) => &mut self.cells.of_mut(area)[at],
        }
    }

    fn restore(&mut self, from: &Self) {
        self.shadows.restore(&from.shadows);
        self.cells.heap.copy_from_slice(&from.cells.heap);
        self.cells.stack.copy_from_slice(&from.cells.stack);
        self.counter = from.counter;
    }
}
