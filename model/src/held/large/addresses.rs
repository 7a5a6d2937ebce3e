//! Every call at the addresses that tell, on images and on damaged ones.

use super::lent::ranged;
use super::{Beside, Large, Lent, Listed, Met};
use crate::call::Call;
use crate::generate::layouts::{Filling, VARIANTS};
use crate::generate::shadows::change_there;
use crate::generate::telling::{addresses, holder, places, STEPS};
use crate::generate::Scale;
use crate::image::image;
use crate::plain::totals;
use crate::random::Random;

/// Addresses in the same block, in others, and where another one would be taken for
/// it if a step too few bits were looked at.
fn froms(listed: &Listed, address: u32) -> Vec<u32> {
    let (map, blocks) = listed;
    let mut froms = vec![address];
    if let Some(block) = holder(*map, blocks, address) {
        froms.extend([block.base, block.base + block.length - 1]);
    }
    let apart = STEPS.map(|step| step as u32);
    froms.extend(apart.map(|step| address.wrapping_add(step)));
    froms.extend(apart.map(|step| address.wrapping_sub(step)));
    froms
}

impl<L: Lent> Large<L> {
    pub fn calls_at_addresses(&self) {
        let mut met = Met::default();
        for listed in self.fillings() {
            let (map, blocks) = &listed;
            let right = image(*map, blocks);
            self.at_addresses(&mut self.beside(*map, right.clone()), &listed, &mut met);
            let places = places(*map, blocks);
            for seed in 0..self.count(8, 1) {
                let mut random = Random::new(seed);
                let mut bytes = right.clone();
                for _ in 0..places.len() / 20 {
                    let place = random.pick(&places);
                    change_there(&mut random, self.form, &mut bytes, place);
                }
                self.at_addresses(&mut self.beside(*map, bytes), &listed, &mut met);
            }
        }
        met.at_least(40, &[0, 4, 7, 8, 13, 15]);
    }

    /// Audit, clear and the first block of every filling in every variant: counts of
    /// 2 to the 16 are among them.
    pub fn totals(&self) {
        for filling in [Filling::Mixed, Filling::Whole, Filling::Smallest] {
            for variant in 0..VARIANTS {
                let listed = self.filled(filling, variant);
                let mut beside = self.on_image(&listed);
                let told = totals(listed.0, &listed.1);
                assert_eq!(beside.plain(Call::Audit), Ok(told).into());
                beside.plain(Call::Clear);
                beside.plain(Call::Next { address: 0 });
            }
        }
    }

    fn at_addresses(&self, beside: &mut Beside<L>, listed: &Listed, met: &mut Met) {
        let (map, blocks) = listed;
        met.add(beside.plain(Call::Audit));
        met.add(beside.plain(Call::Clear));
        for (nth, address) in addresses(*map, blocks).into_iter().enumerate() {
            let end = holder(*map, blocks, address).map_or(0, |block| block.end());
            let rest = end.saturating_sub(u64::from(address)) as u32;
            let froms = froms(listed, address);
            let from = |by: usize| froms[(nth + by) % froms.len()];
            for one in L::readers(address, 1, from(0)) {
                met.add(beside.call(one));
            }
            for (index, n) in [rest, rest + 1].into_iter().enumerate() {
                for one in ranged(address, n, from(index + 1)) {
                    met.add(beside.plain(one));
                }
            }
            for &from in froms.iter().take(3) {
                met.add(beside.plain(Call::ValidRead {
                    address,
                    n: 1,
                    from,
                }));
            }
            if nth.is_multiple_of(4) || self.scale != Scale::Full {
                met.add(beside.plain(Call::Next { address }));
            }
        }
    }
}
