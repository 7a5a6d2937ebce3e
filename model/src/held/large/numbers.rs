//! Other numbers in the place of a segment's number, of a length and of a piece's
//! offset, on both sides of every step that a number can take.

use super::{Beside, Large, Lent, Listed, Met};
use crate::call::Call;
use crate::generate::telling::{segments, stack_positions, told, Place, STEPS};
use crate::image::{PIECE, PIECE_CODE};

/// Numbers near this one, or as far off as a step is, and those at the steps
/// themselves; the last ones do not fit into four bytes.
fn others(number: u64, unit: u64) -> Vec<u64> {
    let mut others = vec![0, 1 << 24, 1 << 31, (1 << 32) - 1];
    for step in STEPS.map(|step| step as u64).into_iter().chain([1, unit]) {
        others.extend([step - 1, step, step + 1]);
        others.extend([number.wrapping_add(step), number.wrapping_sub(step)]);
    }
    others.extend([32, 40, 63].map(|bits| number.wrapping_add(1 << bits)));
    others
}

/// The places of the bytes of a number, the lowest first.
type Number = Vec<Place>;

/// The numbers that tell: two in each segment, and two in each piece.
fn numbers<L: Lent>(beside: &mut Beside<L>, (map, blocks): &Listed) -> Vec<Number> {
    let width = map.form.width;
    let heap = segments(*map, blocks).into_iter();
    let heap = heap.flat_map(|at| [at, at + width]);
    let heap = heap.map(|at| (at..at + width).map(Place::Heap).collect());
    let mut stack = stack_positions(*map, blocks);
    stack.retain(|&at| beside.byte(Place::Primary(at)) >> 2 == PIECE_CODE);
    let stack = stack.into_iter().flat_map(|at| [at, at + 4]);
    let stack = stack.map(|at| (at..at + 4).map(Place::Secondary).collect());
    heap.chain(stack).collect()
}

impl<L: Lent> Large<L> {
    pub fn other_numbers(&self) {
        let mut met = Met::default();
        for listed in self.fillings() {
            let mut beside = self.on_image(&listed);
            for (nth, number) in numbers(&mut beside, &listed).iter().enumerate() {
                let unit = match number[0] {
                    Place::Heap(_) => self.form.whole(),
                    _ => PIECE as u64,
                };
                let bytes: Vec<u8> = number.iter().map(|&place| beside.byte(place)).collect();
                let own = bytes
                    .iter()
                    .rev()
                    .fold(0, |sum, &byte| sum << 8 | u64::from(byte));
                let told = told(listed.0, &listed.1, number[0]);
                let others = others(own, unit).into_iter().enumerate();
                let kept = others.skip(nth % 3 * self.count(0, 1) as usize);
                for (index, other) in kept.step_by(self.count(1, 3) as usize) {
                    let bytes = other.to_le_bytes();
                    let put = number.iter().zip(bytes);
                    let put: Vec<(L::Place, u8)> =
                        put.map(|(&place, byte)| (place.into(), byte)).collect();
                    beside.with_all(&put, |beside| read(beside, &told, nth + index, &mut met));
                }
            }
        }
        met.at_least(200, &[0, 7, 8]);
    }
}

/// Some of these addresses are asked for, and now and then all bytes are looked at.
fn read<L: Lent>(beside: &mut Beside<L>, told: &[u32], index: usize, met: &mut Met) {
    for &address in told.iter().skip(index % 2).step_by(2) {
        met.add(beside.plain(Call::Ask { address }));
    }
    let (address, from) = (told[index % told.len()], told[0]);
    let readers = L::readers(address, 1, from);
    met.add(beside.call(readers[index % readers.len()]));
    if index.is_multiple_of(23) {
        met.add(beside.plain(Call::Audit));
    }
}
