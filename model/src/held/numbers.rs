//! Numbers of 2 to the 32 or more, in the place of a segment's number and in that
//! of a length: damage, in forms whose numbers are wide enough for them.

use super::endings::near;
use super::{times, Held};
use crate::call::Call;
use crate::generate::{shadows, Scale};
use crate::image::image;
use crate::random::Random;

impl Held {
    /// Each upper byte of each number of an image, one at a time.
    pub fn every_upper_byte_of_every_number(&self) {
        let (width, size) = (self.form.width, self.form.bytes());
        let mut damaged = 0;
        for seed in 0..60 * times() {
            let mut random = Random::new(seed);
            let map = self.map(&mut random, Scale::Crowded);
            let list = shadows::list(&mut random, map, 60);
            let bytes = image(map, list.blocks());
            // Where a segment's number stands and, in a header, a length.
            let places = (0..bytes.heap.len()).filter(|at| at % size < 2 * width);
            for position in places.filter(|at| at % width >= 4) {
                let mut raised = bytes.clone();
                raised.heap[position] |= random.pick(&[1, 2, 128]);
                let address = map.heap_start + position as u32;
                let (n, from) = (1, address);
                let in_segment = address - address % self.form.segment;
                for base in [in_segment, in_segment + self.form.segment] {
                    self.asked(map, &raised, Call::Free { base });
                }
                for one in [
                    Call::Audit,
                    Call::Next { address: 0 },
                    Call::Ask { address },
                    Call::Written { address, n },
                    Call::Valid { address, n, from },
                    Call::ValidRead { address, n, from },
                    Call::Initialised { address, n },
                ] {
                    self.asked(map, &raised, one);
                }
                for address in near(map) {
                    let said = self.asked(map, &raised, Call::Ask { address });
                    damaged += u32::from(said.number == 8);
                }
            }
        }
        assert!(damaged > 10_000, "{damaged}");
    }
}
