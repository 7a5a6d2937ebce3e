//! What the libraries of both kinds are lent and asked, as far as the tests of large
//! areas differ by it.

use std::fmt::Debug;

use crate::block::Block;
use crate::call::{Answer, Call};
use crate::generate;
use crate::generate::telling::Place;
use crate::held::stand_in;
use crate::image::Shadows;
use crate::map::Map;
use crate::random::Random;

/// What a library is lent for a call, by its form.
pub trait Lent: Clone + PartialEq {
    type Call: Copy + Debug;
    type Place: Copy + Debug + From<Place>;
    /// A call of the plain form, as one of this form.
    fn plain(call: Call) -> Self::Call;
    fn alters_nothing(call: Self::Call) -> bool;
    /// Any of the calls, refused ones included; blocks are the live ones.
    fn draw(random: &mut Random, map: Map, blocks: &[Block]) -> Self::Call;
    /// The calls that read at an address, some of which alter bytes.
    fn readers(address: u32, n: u32, from: u32) -> Vec<Self::Call>;
    /// The byte-level model in the place of a library.
    fn model(map: Map, lent: &mut Self, call: Self::Call) -> Answer;
    /// These shadows, and whatever this form has beside them.
    fn around(map: Map, shadows: Shadows) -> Self;
    /// One of all the bytes.
    fn byte(&mut self, place: Self::Place) -> &mut u8;
    /// The bytes of another one of the same lengths.
    fn restore(&mut self, from: &Self);
}

impl Lent for Shadows {
    type Call = Call;
    type Place = Place;

    fn plain(call: Call) -> Call {
        call
    }

    fn alters_nothing(call: Call) -> bool {
        call.alters_nothing()
    }

    fn draw(random: &mut Random, map: Map, blocks: &[Block]) -> Call {
        match random.once_in(50) {
            true => generate::record_near_a_step(random, map),
            false => generate::call(random, map, blocks),
        }
    }

    fn readers(address: u32, n: u32, from: u32) -> Vec<Call> {
        plain_readers(address, n, from)
    }

    fn model(map: Map, lent: &mut Self, call: Call) -> Answer {
        stand_in(map, lent, call)
    }

    fn around(_: Map, shadows: Shadows) -> Self {
        shadows
    }

    fn byte(&mut self, place: Place) -> &mut u8 {
        place.of(self)
    }

    fn restore(&mut self, from: &Self) {
        self.heap.copy_from_slice(&from.heap);
        self.primary.copy_from_slice(&from.primary);
        self.secondary.copy_from_slice(&from.secondary);
    }
}

/// The calls of the plain form that read at an address, but for next.
pub(crate) fn plain_readers(address: u32, n: u32, from: u32) -> Vec<Call> {
    let base = address;
    let mut readers = ranged(address, n, from).to_vec();
    readers.extend([
        Call::Ask { address },
        Call::Free { base },
        Call::Remove { base },
    ]);
    readers
}

/// Those of them that go by n bytes.
pub(crate) fn ranged(address: u32, n: u32, from: u32) -> [Call; 4] {
    [
        Call::Written { address, n },
        Call::Valid { address, n, from },
        Call::ValidRead { address, n, from },
        Call::Initialised { address, n },
    ]
}
