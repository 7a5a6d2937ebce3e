//! A live block, its footprint, and where a block may be placed.

use std::ops::Range;

use crate::call::refusal;
use crate::form::Form;
use crate::map::{Area, Map};

/// A block with one written mark for each of its bytes. A literal lies in the
/// stack area and may only be read, so all of its bytes stay written.
#[derive(Clone, Debug, PartialEq, Eq)]
pub struct Block {
    pub base: u32,
    pub length: u32,
    pub written: Vec<bool>,
    pub literal: bool,
}

/// The three ways a block begins, one for each call that records.
#[derive(Clone, Copy, Debug, PartialEq, Eq)]
pub enum Beginning {
    Unwritten,
    Written,
    Literal,
}

impl Block {
    /// A block as it begins: all of its bytes are written, or none is.
    pub fn begun(base: u32, length: u32, beginning: Beginning) -> Self {
        Block {
            base,
            length,
            written: vec![beginning != Beginning::Unwritten; length as usize],
            literal: beginning == Beginning::Literal,
        }
    }

    /// The first address past the block, in whole numbers.
    pub fn end(&self) -> u64 {
        u64::from(self.base) + u64::from(self.length)
    }

    /// Whether all n bytes from the address on lie in the block.
    pub fn holds(&self, address: u32, n: u32) -> bool {
        self.base <= address && u64::from(address) + u64::from(n) <= self.end() && n > 0
    }

    /// The written marks of n bytes that the block holds.
    pub fn marks(&mut self, address: u32, n: u32) -> &mut [bool] {
        let offset = (address - self.base) as usize;
        &mut self.written[offset..offset + n as usize]
    }

    /// How many bytes are written.
    pub fn written_count(&self) -> u32 {
        self.written.iter().filter(|&&mark| mark).count() as u32
    }
}

/// The application bytes whose shadow a block takes: a heap block's header and
/// whole segments, a stack block's own bytes.
pub fn footprint(form: Form, area: Area, base: u32, length: u32) -> Range<u64> {
    let (base, length) = (u64::from(base), u64::from(length));
    match area {
        Area::Heap => base - form.whole()..base + length.next_multiple_of(form.whole()),
        Area::Stack => base..base + length,
    }
}

/// The area a block is placed in, or the refusal that arguments and map decide.
pub fn placement(map: Map, base: u32, length: u32) -> Result<Area, u32> {
    if length == 0 {
        return Err(refusal::ZERO);
    }
    let area = map.area(base).ok_or(refusal::OUTSIDE)?;
    let bounds = map.bounds(area);
    let first = match area {
        Area::Heap => bounds.start + map.form.whole(),
        Area::Stack => bounds.start,
    };
    // Bytes, not segments, decide the fit: an unaligned base gets 5, not 4.
    if u64::from(base) < first || u64::from(base) + u64::from(length) > bounds.end {
        return Err(refusal::OUTSIDE);
    }
    if area == Area::Heap && !base.is_multiple_of(map.form.segment) {
        return Err(refusal::UNALIGNED);
    }
    Ok(area)
}

/// The same for a block that begins in this way: a literal has its place in the
/// stack area alone, so that no heap base gets 5 (S5.4).
pub fn placement_as(beginning: Beginning, map: Map, base: u32, length: u32) -> Result<Area, u32> {
    match placement(map, base, length) {
        Err(refusal::ZERO) => Err(refusal::ZERO),
        _ if beginning == Beginning::Literal && map.area(base) != Some(Area::Stack) => {
            Err(refusal::OUTSIDE)
        }
        placed => placed,
    }
}

/// Whether two footprints share a byte.
pub fn meet(one: &Range<u64>, other: &Range<u64>) -> bool {
    one.start < other.end && other.start < one.end
}
