//! The candidate list of shadow bytes: the only one they can be the image of.
//!
//! In an image, number 1 stands in first segments only, and an offset of 0 in
//! first stack bytes only; so those name every block. Whether the bytes are the
//! image of what they name is then simply compared.

use crate::block::{footprint, meet, placement, Block};
use crate::form::Form;
use crate::image::{image, LONGEST_SHORT, PIECE, PIECE_CODE};
use crate::map::Area;
use crate::reading::{number, short_block, wide_number, View};

/// The placed list whose image the bytes are, if there is one.
pub fn decode(view: View) -> Option<Vec<Block>> {
    let mut blocks = Vec::new();
    for area in view.map.climbing() {
        let found = match area {
            Area::Heap => heap_candidates(view)?,
            Area::Stack => stack_candidates(view)?,
        };
        if footprints_meet(view.map.form, area, &found) {
            return None;
        }
        blocks.extend(found);
    }
    let shadows = image(view.map, &blocks);
    let same = shadows.heap == view.heap
        && shadows.primary == view.primary
        && shadows.secondary == view.secondary;
    same.then_some(blocks)
}

fn heap_candidates(view: View) -> Option<Vec<Block>> {
    let form = view.map.form;
    let number = |position| wide_number(&view.heap[position..position + form.width]);
    let mut blocks = Vec::new();
    for position in (0..view.heap.len()).step_by(form.bytes()) {
        if number(position) != 1 {
            continue;
        }
        let header = position.checked_sub(form.bytes())?;
        // No block is as long as a number that is damage.
        let length = u32::try_from(number(header + form.width)).ok()?;
        let base = view.map.heap_start + position as u32;
        placement(view.map, base, length).ok()?;
        let written = (0..length as usize)
            .map(|offset| heap_mark(form, view.heap, position + offset))
            .collect();
        blocks.push(Block {
            base,
            length,
            written,
            literal: false,
        });
    }
    Some(blocks)
}

fn stack_candidates(view: View) -> Option<Vec<Block>> {
    let mut blocks = Vec::new();
    for position in 0..view.primary.len() {
        let Some(length) = first_byte_length(view, position) else {
            continue;
        };
        let base = view.map.stack_start + position as u32;
        placement(view.map, base, length).ok()?;
        let bytes = &view.primary[position..][..length as usize];
        let written: Vec<bool> = bytes.iter().map(|byte| byte & 1 == 1).collect();
        // The image has the first byte's mark in all of them.
        let literal = bytes[0] & 2 == 2;
        if literal && written.contains(&false) {
            return None;
        }
        blocks.push(Block {
            base,
            length,
            written,
            literal,
        });
    }
    Some(blocks)
}

/// The length of the block whose first byte this would be.
fn first_byte_length(view: View, position: usize) -> Option<u32> {
    match view.primary[position] >> 2 {
        code @ 1..=36 => {
            let (length, offset) = short_block(code);
            (offset == 0).then_some(length)
        }
        PIECE_CODE => {
            let bytes = view.secondary.get(position..position + PIECE)?;
            let (length, offset) = (number(bytes, 0), number(bytes, 4));
            (offset == 0 && length > LONGEST_SHORT).then_some(length)
        }
        _ => None,
    }
}

fn heap_mark(form: Form, shadow: &[u8], position: usize) -> bool {
    let place = position % form.bytes();
    let bits = &shadow[position - place + form.width..];
    bits[place / 8] >> (place % 8) & 1 == 1
}

/// In address order, footprints that meet at all include two next to each other.
fn footprints_meet(form: Form, area: Area, blocks: &[Block]) -> bool {
    let places = blocks
        .iter()
        .map(|block| footprint(form, area, block.base, block.length));
    places
        .clone()
        .zip(places.skip(1))
        .any(|(one, next)| meet(&one, &next))
}
