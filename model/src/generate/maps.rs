//! Maps, good ones and others, of any form.

use crate::form::{Form, PLAYER};
use crate::map::Map;
use crate::random::Random;

/// How large the areas of a generated map are.
#[derive(Clone, Copy, Debug, PartialEq, Eq)]
pub enum Scale {
    /// A few segments and a few dozen stack bytes, soon full.
    Crowded,
    /// A few thousand bytes in each area.
    Middle,
    /// The largest areas of a good map.
    Full,
}

/// The highest end of an area of a good map.
const TOP: u64 = 4_294_967_288;

/// A good map of the player: bottom, top or middle of the address space, areas
/// that touch or stand apart, either one first.
pub fn map(random: &mut Random, scale: Scale) -> Map {
    map_of(PLAYER, random, scale)
}

/// The same of any form whose segment is a multiple of 8.
pub fn map_of(form: Form, random: &mut Random, scale: Scale) -> Map {
    let segment = form.segment;
    let (heap_size, stack_size) = match scale {
        Scale::Crowded => (segment * random.between(2, 16), 8 * random.between(2, 9)),
        Scale::Middle => (16 * random.between(260, 500), 8 * random.between(260, 500)),
        Scale::Full => (131_072 - 131_072 % segment, 65_536),
    };
    let apart = 8 * random.below(40);
    let gap = random.pick(&[0, 0, 8, apart]);
    let total = u64::from(heap_size) + gap + u64::from(stack_size);
    let low = match random.below(4) {
        0 => 8,
        1 => TOP - total,
        2 => 4096,
        _ => 8 * (1 + random.below((TOP - total) / 8)),
    };
    let heap_first = random.once_in(2);
    let lower_size = if heap_first { heap_size } else { stack_size };
    let high = (low + u64::from(lower_size) + gap) as u32;
    let (heap_start, stack_start) = if heap_first {
        (low as u32, high)
    } else {
        (high, low as u32)
    };
    // Both areas move, so that those that touch still do.
    let past = heap_start % segment;
    let moved = |start: u32| match low >= u64::from(past) + 8 {
        true => start - past,
        false => start + segment - past,
    };
    Map::new(moved(heap_start), heap_size, moved(stack_start), stack_size).of(form)
}

/// A map of the player at the edge of some rule, most often on the wrong side of it.
pub fn edge_map(random: &mut Random) -> Map {
    edge_map_of(PLAYER, random)
}

/// The same of any form.
pub fn edge_map_of(form: Form, random: &mut Random) -> Map {
    let mut edge = map_of(form, random, Scale::Crowded);
    let g = form.segment;
    let starts = [0, g / 2, g - 1, g + 1, g + g / 2];
    let sizes = [0, g, 2 * g - 1, 2 * g + 1, 2 * g + g / 2];
    let highest = [131_072, 131_072 + g, u32::MAX - 7];
    match random.below(10) {
        0 => edge.heap_start = random.pick(&starts),
        1 => edge.stack_start = random.pick(&[0, 4, 7, 9, 12]),
        2 => edge.heap_size = random.pick(&[&sizes[..], &highest].concat()),
        3 => edge.stack_size = random.pick(&[0, 8, 15, 17, 20, 65_536, 65_544, u32::MAX - 7]),
        4 => edge.heap_start = random.pick(&[3 * g, 2 * g, g]).wrapping_neg(),
        5 => edge.stack_start = random.pick(&[4_294_967_272, 4_294_967_280, 4_294_967_288]),
        6 => edge.stack_start = edge.heap_start.wrapping_add(edge.heap_size - 8),
        7 => {
            edge.heap_start = edge
                .stack_start
                .wrapping_add(edge.stack_size)
                .wrapping_sub(g)
        }
        8 => edge.heap_start = edge.stack_start,
        _ => edge = Map::new(random.word(), random.word(), random.word(), random.word()).of(form),
    }
    edge
}
