//! Free and remove at the addresses that tell, and of blocks of which one byte was
//! changed.

use super::changes::others;
use super::{Beside, Large, Lent, Listed, Met};
use crate::call::Call;
use crate::generate::layouts::Filling;
use crate::generate::telling::{addresses, own_places, some};
use crate::map::Area;

impl<L: Lent> Large<L> {
    pub fn endings(&self) {
        let mut met = Met::default();
        let others = [Filling::Whole, Filling::Smallest];
        let others = others.map(|filling| self.filled(filling, 1));
        for listed in self.mixed().into_iter().chain(others) {
            let mut beside = self.on_image(&listed);
            for base in addresses(listed.0, &listed.1) {
                met.add(beside.plain(Call::Free { base }));
                met.add(beside.plain(Call::Remove { base }));
            }
            for area in [Area::Heap, Area::Stack] {
                ended_when_changed(&mut beside, &listed, area, &mut met);
            }
        }
        met.at_least(100, &[0, 4, 7, 8, 15]);
    }
}

/// Each of these blocks ended, by the call for it and by the other one, with one of
/// its bytes changed.
fn ended_when_changed<L: Lent>(
    beside: &mut Beside<L>,
    (map, blocks): &Listed,
    area: Area,
    met: &mut Met,
) {
    for block in some(*map, area, blocks) {
        let base = block.base;
        for (nth, place) in own_places(*map, area, block).into_iter().enumerate() {
            let others = others(*map, place, beside.byte(place));
            for index in [nth + nth / 8, nth + nth / 8 + 3] {
                beside.with(place, others[index % others.len()], |beside| {
                    met.add(beside.plain(Call::Free { base }));
                    met.add(beside.plain(Call::Remove { base }));
                });
            }
        }
    }
}
