//! Shadow bytes: images of random lists, the same with damage, gaps, and noise.

use crate::block::{Beginning, Block};
use crate::call::Call;
use crate::form::Form;
use crate::generate::telling::Place;
use crate::generate::{call, ending_anywhere, inside, places};
use crate::image::{image, Shadows};
use crate::map::Map;
use crate::plain::{List, PlainList};
use crate::random::Random;
use crate::reading::{Reading, View};

/// A list that some random calls leave behind.
pub fn list(random: &mut Random, map: Map, calls: u64) -> PlainList {
    let mut list = PlainList::new(map);
    for _ in 0..calls {
        let call = call(random, map, list.blocks());
        list.step(call);
    }
    list
}

/// An image with so many changes made to it; none of them need show.
pub fn damaged(random: &mut Random, map: Map, changes: u64) -> Shadows {
    let calls = random.below(60);
    let mut shadows = image(map, list(random, map, calls).blocks());
    let marks_alone = random.once_in(5);
    for _ in 0..changes {
        match marks_alone {
            true => change_low_bits(random, &mut shadows.primary),
            false => change(random, map.form, &mut shadows),
        }
    }
    shadows
}

/// Bytes of any kind, an image, a damaged one, gaps or noise, and a call that is
/// drawn for what they read as, or for their gaps.
pub fn any(random: &mut Random, map: Map) -> (Shadows, Call) {
    let changes = random.below(4);
    let shadows = match random.below(7) {
        0 => noise(random, map),
        1 => places::gapped(random, map),
        _ => damaged(random, map, changes),
    };
    let blocks = read_blocks(map, &shadows);
    let call = match random.below(13) {
        0 => places::place_on(random, map.form, &shadows.heap),
        1 => ending_anywhere(random, map),
        2..=7 if !blocks.is_empty() => inside(random, &blocks),
        _ => call(random, map, &blocks),
    };
    (shadows, call)
}

/// The blocks that some address reads as the first byte of, on any bytes.
pub fn read_blocks(map: Map, shadows: &Shadows) -> Vec<Block> {
    let view = View {
        map,
        heap: &shadows.heap,
        primary: &shadows.primary,
        secondary: &shadows.secondary,
    };
    let areas = map.climbing().map(|area| map.bounds(area));
    let addresses = areas.into_iter().flatten().map(|address| address as u32);
    let begun = addresses.filter_map(|address| match view.read(address) {
        Reading::Block(found) if found.offset == 0 => {
            let beginning = match (found.literal, found.written) {
                (true, _) => Beginning::Literal,
                (false, true) => Beginning::Written,
                (false, false) => Beginning::Unwritten,
            };
            Some(Block::begun(found.base, found.length, beginning))
        }
        _ => None,
    });
    begun.collect()
}

/// Bytes of no list: mostly zero, else what could stand in some image.
pub fn noise(random: &mut Random, map: Map) -> Shadows {
    let mut shadows = Shadows::cleared(map);
    let one_in = random.pick(&[2, 4, 8, 16]);
    for byte in bytes(&mut shadows) {
        if random.once_in(one_in) {
            *byte = telling_byte(random);
        }
    }
    lower_numbers(random, map.form, &mut shadows.heap);
    shadows
}

/// A number of more than four noisy bytes would hardly ever be low enough for a
/// block, so that most lose the bytes above.
fn lower_numbers(random: &mut Random, form: Form, heap: &mut [u8]) {
    for number in wide_numbers(form, heap) {
        if !random.once_in(8) {
            number[4..].fill(0);
        }
    }
}

/// What stands in the place of a number, where numbers have more than four bytes.
fn wide_numbers(form: Form, heap: &mut [u8]) -> impl Iterator<Item = &mut [u8]> {
    let segments = heap.chunks_mut(form.bytes());
    let places = segments.flat_map(move |segment| segment.chunks_exact_mut(form.width));
    places.filter(|number| number.len() > 4)
}

fn bytes(shadows: &mut Shadows) -> impl Iterator<Item = &mut u8> {
    let stack = shadows.primary.iter_mut().chain(&mut shadows.secondary);
    shadows.heap.iter_mut().chain(stack)
}

fn telling_byte(random: &mut Random) -> u8 {
    match random.below(6) {
        0 => random.pick(&[1, 2, 3, 8, 9, 16, 17, 24, 25]),
        1 => 4 * random.between(1, 37) as u8 + random.below(4) as u8,
        2 => 192 + 4 * random.between(0, 15) as u8 + random.below(4) as u8,
        3 => random.pick(&[255, 248, 249, 128]),
        _ => random.number() as u8,
    }
}

/// One change: a bit, a byte, a four-byte number, which may be the upper half of
/// a wider one, or the low bits of some primary bytes.
pub(crate) fn change(random: &mut Random, form: Form, shadows: &mut Shadows) {
    if form.width > 4 && random.once_in(6) {
        return raise_number(random, form, &mut shadows.heap);
    }
    if random.once_in(5) {
        return change_low_bits(random, &mut shadows.primary);
    }
    let (unit, shadow) = match random.below(3) {
        0 => (form.segment, &mut shadows.heap),
        1 => (8, &mut shadows.primary),
        _ => (8, &mut shadows.secondary),
    };
    let position = random.below(shadow.len() as u64) as usize;
    change_at(random, unit, shadow, position);
}

/// A change of the byte at this position, or of the number around it.
fn change_at(random: &mut Random, unit: u32, shadow: &mut [u8], position: usize) {
    match random.below(4) {
        0 => shadow[position] ^= 1 << random.below(8),
        1 => {
            shadow[position] = if random.once_in(2) {
                0
            } else {
                telling_byte(random)
            }
        }
        2 => {
            let unit = unit as u8;
            let step = random.pick(&[1, 4, unit, 252, unit.wrapping_neg()]);
            shadow[position] = shadow[position].wrapping_add(step);
        }
        _ => {
            let number = telling_number(random, unit, shadow.len() as u32);
            let at = position - position % 4;
            shadow[at..at + 4].copy_from_slice(&number.to_le_bytes());
        }
    }
}

/// One change at a place that tells.
pub fn change_there(random: &mut Random, form: Form, shadows: &mut Shadows, place: Place) {
    match place {
        Place::Heap(at) => change_at(random, form.segment, &mut shadows.heap, at),
        Place::Primary(at) => change_at(random, 8, &mut shadows.primary, at),
        Place::Secondary(at) => change_at(random, 8, &mut shadows.secondary, at),
    }
}

/// A wide number that was right, made higher by a multiple of 2 to the 32.
fn raise_number(random: &mut Random, form: Form, heap: &mut [u8]) {
    let not_zero = |number: &&mut [u8]| number.iter().any(|&byte| byte != 0);
    let mut numbers: Vec<&mut [u8]> = wide_numbers(form, heap).filter(not_zero).collect();
    if numbers.is_empty() {
        return;
    }
    let chosen = random.below(numbers.len() as u64) as usize;
    let any = 1 + random.below(255) as u8;
    let upper = &mut numbers[chosen][4..];
    upper[random.below(upper.len() as u64) as usize] = random.pick(&[1, 1, 128, any]);
}

/// Bit 1 or the written bit of a byte or of a few in a row: marks that are mixed
/// over a block, bytes of a literal that are unwritten, whole blocks that become
/// literals or end to be some, and at times bit 1 with no block.
fn change_low_bits(random: &mut Random, primary: &mut [u8]) {
    let with_no_block = random.once_in(6);
    let count = random.pick(&[1, 1, 1, 2, 4, 8, 9, 16]);
    let bits = random.pick(&[0b01, 0b10, 0b10, 0b11]);
    let low = random.pick(&[0, bits, bits]);
    let flip = random.once_in(2);
    let bytes = primary.iter_mut();
    let mut bytes: Vec<&mut u8> = bytes.filter(|byte| with_no_block || **byte >= 4).collect();
    if bytes.is_empty() {
        return;
    }
    let from = random.below(bytes.len() as u64) as usize;
    for byte in bytes[from..].iter_mut().take(count) {
        **byte = match flip {
            true => **byte ^ bits,
            false => **byte & !bits | low,
        };
    }
}

/// A number that a segment or piece of so many bytes could hold, or nearly.
fn telling_number(random: &mut Random, unit: u32, size: u32) -> u32 {
    let below = unit.wrapping_neg();
    match random.below(4) {
        0 => random.between(0, 33),
        1 => unit * random.between(0, size / unit) + random.between(0, 1),
        2 => random.pick(&[size, size - unit, size + 1, size - unit + 1]),
        _ => random.pick(&[0, u32::MAX, below, below + 1, 1 << 31]),
    }
}
