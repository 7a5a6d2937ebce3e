//! The image of a list: what the two layouts give for its blocks, zero elsewhere.

use crate::block::Block;
use crate::form::Form;
use crate::map::{Area, Map};

/// Bytes in a long stack block's piece, but for its last.
pub(crate) const PIECE: usize = 8;

/// The longest stack block that its primary bytes tell alone.
pub const LONGEST_SHORT: u32 = 8;

/// The code of the first byte of a long stack block's piece.
pub const PIECE_CODE: u8 = 48;

/// The three shadows.
#[derive(Clone, Debug, PartialEq, Eq)]
pub struct Shadows {
    pub heap: Vec<u8>,
    pub primary: Vec<u8>,
    pub secondary: Vec<u8>,
}

impl Shadows {
    /// Shadows of the map's sizes, all zeros.
    pub fn cleared(map: Map) -> Self {
        Shadows {
            heap: vec![0; map.heap_size as usize],
            primary: vec![0; map.stack_size as usize],
            secondary: vec![0; map.stack_size as usize],
        }
    }
}

/// The image of placed blocks whose footprints do not meet.
pub fn image(map: Map, blocks: &[Block]) -> Shadows {
    let mut shadows = Shadows::cleared(map);
    for block in blocks {
        let area = map
            .area(block.base)
            .expect("a placed block lies in an area");
        let position = map.position(area, block.base);
        match area {
            Area::Heap => heap_block(map.form, &mut shadows.heap, position, block),
            Area::Stack => stack_block(&mut shadows, position, block),
        }
    }
    shadows
}

fn heap_block(form: Form, shadow: &mut [u8], position: usize, block: &Block) {
    let (width, size) = (form.width, form.bytes());
    let number = |number: u64| number.to_le_bytes()[..width].to_vec();
    let (before, from_base) = shadow.split_at_mut(position);
    let header = &mut before[position - size..];
    header[width..2 * width].copy_from_slice(&number(block.length.into()));
    let segments = from_base.chunks_mut(size);
    for (index, (segment, marks)) in segments.zip(block.written.chunks(size)).enumerate() {
        let offset = (index * size) as u64;
        segment[..width].copy_from_slice(&number(offset + 1));
        // A byte of written bits for each eight bytes of the segment.
        for (byte, eight) in segment[width..].iter_mut().zip(marks.chunks(8)) {
            *byte = written_bits(eight);
        }
    }
}

/// Bit j is the mark of byte j.
fn written_bits(marks: &[bool]) -> u8 {
    let marks = marks.iter().enumerate();
    marks.map(|(j, &mark)| u8::from(mark) << j).sum()
}

fn stack_block(shadows: &mut Shadows, position: usize, block: &Block) {
    for (offset, &mark) in block.written.iter().enumerate() {
        let code = stack_code(block.length, offset as u32);
        shadows.primary[position + offset] =
            4 * code + 2 * u8::from(block.literal) + u8::from(mark);
    }
    if block.length <= LONGEST_SHORT {
        return;
    }
    for piece in 0..block.length / 8 {
        let at = position + piece as usize * PIECE;
        let bytes = &mut shadows.secondary[at..at + PIECE];
        bytes[..4].copy_from_slice(&block.length.to_le_bytes());
        bytes[4..].copy_from_slice(&(8 * piece).to_le_bytes());
    }
}

/// The code of the byte at an offset of a stack block.
pub fn stack_code(length: u32, offset: u32) -> u8 {
    if length <= LONGEST_SHORT {
        return (length * (length - 1) / 2 + offset + 1) as u8;
    }
    // The remainder joins the last whole piece instead of making a short one.
    let last_piece = length / 8 - 1;
    let piece = (offset / 8).min(last_piece);
    PIECE_CODE + (offset - 8 * piece) as u8
}
