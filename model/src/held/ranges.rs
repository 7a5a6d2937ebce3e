//! Marks and tests of every range of a block, whatever was marked before, and of
//! a literal, byte by byte.

use super::Held;
use crate::block::Beginning;
use crate::call::Call;
use crate::form::Form;
use crate::image::image;
use crate::map::Map;
use crate::plain::{List, PlainList};
use crate::random::Random;

/// What was marked before: nothing, everything, and ever more of the bytes at random.
const PATTERNS: u64 = 8;

/// Room for a block of several segments or pieces, and a neighbour on either side.
fn roomy(form: Form) -> Map {
    Map::new(4096, 12 * form.segment, 8192, 72).of(form)
}

/// The list of these blocks, some of their bytes marked.
fn marked(map: Map, blocks: &[(u32, u32)], pattern: u64) -> PlainList {
    let mut random = Random::new(pattern);
    let mut list = PlainList::new(map);
    for &(base, length) in blocks {
        assert_eq!(list.step(Call::Record { base, length }).number, 0);
        for address in base..base + length {
            let mark = match pattern {
                0 => false,
                1 => true,
                _ => !random.once_in(2 + pattern),
            };
            if mark {
                list.step(Call::Written { address, n: 1 });
            }
        }
    }
    list
}

impl Held {
    /// Every range that begins in a block, up to one byte past its end.
    fn every_range(&self, list: &PlainList, base: u32, length: u32) {
        for address in base..base + length {
            for n in 1..=base + length - address + 1 {
                let from = base + length - 1;
                for one in [
                    Call::Initialised { address, n },
                    Call::Valid { address, n, from },
                    Call::ValidRead { address, n, from },
                    Call::Written { address, n },
                ] {
                    self.on_list(list, one);
                }
            }
        }
    }

    /// One call on the list's image; once written, a range is initialised, and the
    /// bytes beside it are what they were.
    fn on_list(&self, list: &PlainList, one: Call) {
        let map = list.map();
        let mut list = list.clone();
        let mut lent = image(map, list.blocks());
        let mut step = |one| {
            let said = self.agreed(map, &mut lent, one);
            assert_eq!(said, list.step(one), "{one:?}");
            assert!(lent == image(map, list.blocks()), "{one:?}");
            said
        };
        let said = step(one);
        if let (Call::Written { address, n }, 0) = (one, said.number) {
            let said = step(Call::Initialised { address, n });
            assert_eq!(said.fields[0], 1, "{one:?}");
            for address in [address - 1, address + n] {
                step(Call::Initialised { address, n: 1 });
            }
        }
    }

    /// Every range of the second of these blocks.
    fn of_the_second(&self, blocks: &[(u32, u32)]) {
        for pattern in 0..PATTERNS {
            let (base, length) = blocks[1];
            let list = marked(roomy(self.form), blocks, pattern);
            self.every_range(&list, base, length);
        }
    }

    /// Blocks of one to six segments, where a segment has one byte of written bits
    /// or two.
    pub fn every_range_of_heap_blocks(&self) {
        let segment = self.form.segment;
        let base = 4096 + 3 * segment;
        let ends = [segment, 2 * segment, 3 * segment];
        let ends = ends.into_iter().flat_map(|end| [end - 1, end, end + 1]);
        for length in [1, 7, 8, 9, 40, 43].into_iter().chain(ends) {
            let next = (base + length).next_multiple_of(segment) + segment;
            self.of_the_second(&[(base - 2 * segment, 1), (base, length), (next, 5)]);
        }
    }

    pub fn every_range_of_stack_blocks(&self) {
        for length in [1, 4, 5, 8, 9, 15, 16, 33, 40, 43] {
            for base in [8197, 8200] {
                self.of_the_second(&[(base - 1, 1), (base, length), (base + length, 5)]);
            }
        }
    }

    /// No range of a literal can be written; the blocks beside it are none, or all
    /// of them are.
    pub fn every_range_of_literals(&self) {
        for length in [1, 4, 5, 8, 9, 15, 16, 33, 40, 43] {
            for base in [8197, 8200] {
                let (before, after) = ((base - 1, 1), (base + length, 5));
                for beside in [Beginning::Unwritten, Beginning::Literal] {
                    let mut list = PlainList::new(roomy(self.form));
                    let literal = Call::to_begin(Beginning::Literal, base, length);
                    let begun = |(base, length)| Call::to_begin(beside, base, length);
                    for one in [begun(before), literal, begun(after)] {
                        assert_eq!(list.step(one).number, 0);
                    }
                    self.every_range(&list, base, length);
                }
            }
        }
    }

    pub fn every_range_at_the_end_of_an_area(&self) {
        let (map, segment) = (roomy(self.form), self.form.segment);
        for length in [segment, 2 * segment, 5 * segment] {
            let base = map.heap_start + map.heap_size - length;
            self.of_the_second(&[(base - 2 * segment, 1), (base, length)]);
        }
        for length in [1, 4, 8, 13, 40] {
            let base = map.stack_start + map.stack_size - length;
            self.of_the_second(&[(base - 1, 1), (base, length)]);
        }
    }
}
