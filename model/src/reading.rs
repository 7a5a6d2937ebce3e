//! Readings: what one address says on any shadow bytes of the right lengths.

use crate::call::refusal;
use crate::image::{PIECE, PIECE_CODE};
use crate::map::{Area, Map};

/// The shadows under their map, to look at only.
#[derive(Clone, Copy, Debug)]
pub struct View<'a> {
    pub map: Map,
    pub heap: &'a [u8],
    pub primary: &'a [u8],
    pub secondary: &'a [u8],
}

/// What an address reads as.
#[derive(Clone, Copy, Debug, PartialEq, Eq)]
pub enum Reading {
    NoBlock,
    Damaged,
    Block(Found),
}

/// The block a reading gives, and the address's place in it.
#[derive(Clone, Copy, Debug, PartialEq, Eq)]
pub struct Found {
    pub base: u32,
    pub length: u32,
    pub offset: u32,
    pub written: bool,
    /// Whether the block may only be read.
    pub literal: bool,
}

impl Found {
    /// Whether n bytes from the address read lie in the block.
    pub fn holds(&self, n: u32) -> bool {
        u64::from(self.offset) + u64::from(n) <= u64::from(self.length)
    }

    /// Whether two readings give the same block; their marks are not compared.
    pub fn same_block(&self, other: &Found) -> bool {
        self.base == other.base && self.length == other.length
    }
}

impl Reading {
    /// The block if there is one; number 8 if the reading is damaged.
    pub fn block(self) -> Result<Option<Found>, u32> {
        match self {
            Reading::NoBlock => Ok(None),
            Reading::Damaged => Err(refusal::DAMAGED),
            Reading::Block(found) => Ok(Some(found)),
        }
    }
}

impl View<'_> {
    /// The reading of any address; outside both areas there is no block.
    pub fn read(&self, address: u32) -> Reading {
        match self.map.area(address) {
            None => Reading::NoBlock,
            Some(Area::Heap) => self.read_heap(address),
            Some(Area::Stack) => self.read_stack(address),
        }
    }

    fn read_heap(&self, address: u32) -> Reading {
        let (width, size) = (self.map.form.width, self.map.form.bytes());
        let bounds = self.map.bounds(Area::Heap);
        let place = self.map.position(Area::Heap, address) % size;
        let position = self.map.position(Area::Heap, address) - place;
        let w = wide_number(&self.heap[position..position + width]);
        if w == 0 {
            return Reading::NoBlock;
        }
        let distance = i128::from(w) - 1;
        let base = i128::from(address) - place as i128 - distance;
        let lowest = i128::from(bounds.start) + size as i128;
        // The header lies inside the shadow only once these are settled.
        if w >= TOO_HIGH || distance % size as i128 != 0 || base < lowest {
            return Reading::Damaged;
        }
        let header = position - distance as usize - size;
        let length = wide_number(&self.heap[header + width..header + 2 * width]);
        if length >= TOO_HIGH {
            return Reading::Damaged;
        }
        let length = i128::from(length);
        if length == 0 || base + length > i128::from(bounds.end) || distance >= length {
            return Reading::Damaged;
        }
        let offset = i128::from(address) - base;
        if offset >= length {
            return Reading::NoBlock;
        }
        Reading::Block(Found {
            base: base as u32,
            length: length as u32,
            offset: offset as u32,
            written: self.heap[position + width + place / 8] >> (place % 8) & 1 == 1,
            literal: false,
        })
    }

    fn read_stack(&self, address: u32) -> Reading {
        let position = self.map.position(Area::Stack, address);
        let byte = self.primary[position];
        match byte >> 2 {
            // A written bit or bit 1 that stands with no block.
            0 if byte != 0 => Reading::Damaged,
            0 => Reading::NoBlock,
            code @ 1..=36 => {
                let (length, offset) = short_block(code);
                self.fitting(address, length.into(), offset.into(), byte)
            }
            code @ 48..=62 => {
                let j = usize::from(code - PIECE_CODE);
                match self.piece(position, j) {
                    Some((length, offset)) => self.fitting(address, length, offset, byte),
                    None => Reading::Damaged,
                }
            }
            _ => Reading::Damaged,
        }
    }

    /// Length and offset that a byte j places into a piece tells, if undamaged.
    fn piece(&self, position: usize, j: usize) -> Option<(i128, i128)> {
        let at = position.checked_sub(j)?;
        let bytes = self.secondary.get(at..at + PIECE)?;
        let length = i128::from(number(bytes, 0));
        let o = i128::from(number(bytes, 4));
        let j = j as i128;
        if length < 9 || o % 8 != 0 || o + 8 > length {
            return None;
        }
        let last = o == 8 * (length / 8 - 1);
        if (j > 7 && !last) || o + j >= length {
            return None;
        }
        Some((length, o + j))
    }

    /// The block found, with the two bits of its primary byte, unless it does
    /// not fit the stack area.
    fn fitting(&self, address: u32, length: i128, offset: i128, byte: u8) -> Reading {
        let bounds = self.map.bounds(Area::Stack);
        let base = i128::from(address) - offset;
        if base < i128::from(bounds.start) || base + length > i128::from(bounds.end) {
            return Reading::Damaged;
        }
        Reading::Block(Found {
            base: base as u32,
            length: length as u32,
            offset: offset as u32,
            written: byte & 1 == 1,
            literal: byte & 2 == 2,
        })
    }
}

/// Length and offset of a short code, 1 to 36, by going through Table 1.
pub fn short_block(code: u8) -> (u32, u32) {
    let mut first = 1;
    for length in 1..=8 {
        if code < first + length {
            return (u32::from(length), u32::from(code - first));
        }
        first += length;
    }
    unreachable!("code {code} is not short")
}

/// Numbers from here on are damage, however wide (S-8).
const TOO_HIGH: u64 = 1 << 32;

/// The little-endian number in so many bytes, eight at most.
pub(crate) fn wide_number(bytes: &[u8]) -> u64 {
    let bytes = bytes.iter().rev();
    bytes.fold(0, |above, &byte| above << 8 | u64::from(byte))
}

/// The little-endian number in four bytes from a position on.
pub(crate) fn number(bytes: &[u8], position: usize) -> u32 {
    let mut four = [0; 4];
    four.copy_from_slice(&bytes[position..position + 4]);
    u32::from_le_bytes(four)
}
