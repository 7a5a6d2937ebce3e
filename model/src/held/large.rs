//! Large areas, of a few thousand bytes and of the largest sizes: damage, changes of
//! a byte, addresses, endings, recordings and ranges, at the bytes where a layout
//! changes its kind.
//!
//! The form with origins has the same tests, on the same shadows with cells and a
//! counter beside them.
//!
//! - [`lent`]: what the forms are lent and asked, as far as the tests differ by it.
//! - [`beside`]: a library and the model beside it.
//! - [`changes`]: bytes of an image changed, one at a time, and several at random.
//! - [`addresses`]: every call at the addresses that tell.
//! - [`endings`]: free and remove.
//! - [`records`]: recordings in cleared, filled and nearly cleared areas.
//! - [`ranges`]: marks and tests of ranges of long blocks.
//! - [`lengths`]: wrong maps, and shadows of other lengths.
//! - [`places`]: a place for the next block.
//! - [`numbers`]: other numbers in the place of right ones.
//! - [`cells`]: the cells of the form with origins.

pub mod addresses;
pub mod beside;
pub mod cells;
pub mod changes;
pub mod endings;
pub mod lengths;
pub mod lent;
pub mod numbers;
pub mod places;
pub mod ranges;
pub mod records;

use super::Held;
use crate::block::Block;
use crate::call::Answer;
use crate::form::Form;
use crate::generate::layouts::{blocks, map_at, Filling, VARIANTS};
use crate::generate::Scale;
use crate::image::{image, Shadows};
use crate::map::Map;
use beside::{Beside, Met};
pub use lent::Lent;

/// One call of a library of any form.
pub type AnyLibrary<L> = fn(Map, &mut L, <L as Lent>::Call) -> Answer;

/// A library that is tried in areas of this scale.
pub struct Large<L: Lent> {
    pub form: Form,
    pub library: AnyLibrary<L>,
    pub scale: Scale,
}

impl Held {
    /// The tests of areas of this scale.
    pub fn at(&self, scale: Scale) -> Large<Shadows> {
        Large {
            form: self.form,
            library: self.library,
            scale,
        }
    }
}

/// Blocks under a map.
pub type Listed = (Map, Vec<Block>);

impl<L: Lent> Large<L> {
    /// One of the fillings, under the map of the same variant.
    fn filled(&self, filling: Filling, variant: u32) -> Listed {
        let map = map_at(self.form, self.scale, variant);
        (map, blocks(map, filling, variant))
    }

    /// Every filling once, each in another place. At full size one block has 2 to
    /// the 16 and a byte, and one over the whole stack has that length.
    fn fillings(&self) -> [Listed; 3] {
        [
            self.filled(Filling::Smallest, 1),
            self.filled(Filling::Whole, 0),
            self.filled(Filling::Mixed, 2),
        ]
    }

    /// The variants that are tried: of the largest areas the highest map, and the one
    /// across 2 to the 16.
    fn variants(&self) -> std::ops::Range<u32> {
        self.count(0, 1) as u32..VARIANTS
    }

    /// Every variant of the mixed filling.
    fn mixed(&self) -> [Listed; VARIANTS as usize] {
        std::array::from_fn(|variant| self.filled(Filling::Mixed, variant as u32))
    }

    /// So many in a few thousand bytes, so many in the largest areas.
    fn count(&self, middle: u64, full: u64) -> u64 {
        match self.scale {
            Scale::Full => full,
            _ => middle,
        }
    }

    fn beside(&self, map: Map, shadows: Shadows) -> Beside<L> {
        Beside::new(self.library, map, L::around(map, shadows))
    }

    fn on_image(&self, (map, blocks): &Listed) -> Beside<L> {
        self.beside(*map, image(*map, blocks))
    }
}
