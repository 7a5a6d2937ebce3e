//! Maps and bytes to call on, right and wrong ones.

use model::form::FORMS;
use model::generate::{self, shadows, Scale};
use model::image::Shadows;
use model::map::Map;
use model::random::Random;

/// A good map of either form.
pub fn any_map(random: &mut Random) -> Map {
    let form = random.pick(&FORMS);
    generate::map_of(form, random, Scale::Crowded)
}

/// The same, and bytes of any kind: an image, a damaged one, or noise.
pub fn any_state(random: &mut Random) -> (Map, Shadows) {
    let map = any_map(random);
    let changes = random.below(6);
    let bytes = match random.below(3) {
        0 => shadows::noise(random, map),
        _ => shadows::damaged(random, map, changes),
    };
    (map, bytes)
}

/// Addresses in neither area: 0 and others beside it, the ends of both areas and of
/// the address space.
pub fn outside(random: &mut Random, map: Map) -> impl Iterator<Item = u32> {
    let ends = map.climbing().map(|area| map.bounds(area)).into_iter();
    let beside = ends.flat_map(|area| [area.start - 1, area.end, area.end + 1]);
    let far = [8, 256, 1 << 16, 1 << 24, 1 << 31, random.number() >> 32];
    let top = u64::from(u32::MAX);
    let all = (0..8).chain(beside).chain(far).chain([top - 1, top]);
    let addresses = all.filter_map(|address| u32::try_from(address).ok());
    addresses.filter(move |&address| map.area(address).is_none())
}

/// A map and bytes of which neither need be right, and the number that this makes
/// every call give: 1 for the map, 2 for a length, 0 for none.
pub fn any_lent(random: &mut Random) -> (Map, Shadows, u32) {
    let (good, mut lent) = any_state(random);
    let map = match random.once_in(2) {
        true => generate::edge_map_of(good.form, random),
        false => good,
    };
    if random.once_in(2) {
        let shadow = match random.below(3) {
            0 => &mut lent.heap,
            1 => &mut lent.primary,
            _ => &mut lent.secondary,
        };
        let length = random.below(2 * shadow.len() as u64) as usize;
        shadow.resize(length, 9);
    }
    let sizes = [map.heap_size, map.stack_size, map.stack_size].map(|size| size as usize);
    let lengths = [lent.heap.len(), lent.primary.len(), lent.secondary.len()];
    let number = match (map.good(), lengths == sizes) {
        (false, _) => 1,
        (true, false) => 2,
        (true, true) => 0,
    };
    (map, lent, number)
}
