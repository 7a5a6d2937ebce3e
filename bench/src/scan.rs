//! place in C (place.c), on shadows that the library makes.

use model::call::Call;

use crate::case::Case;
use crate::library::this::Library;
use crate::library::{Four, Lent};
use crate::lists::{Calls, Maker, Weight};
use crate::side::Here;
use crate::state::State;

// Nothing checks these lines against place.c.
#[rustfmt::skip]
extern "C" {
    fn bench_c_place(map: *const Four, h: *const u8, hl: usize, p: *const u8, pl: usize, s: *const u8, sl: usize, n: u32, budget: u32, f: *mut Four) -> u32;
}

pub struct Scan {
    library: Library,
}

impl Scan {
    pub fn new() -> Self {
        Scan {
            library: Library::new("C", Vec::new()),
        }
    }
}

// The C code is compiled apart, so that no call of it can be left out.
struct Summed<'a> {
    lent: &'a Lent,
    fields: Four,
    sum: Weight,
}

impl Maker for Summed<'_> {
    // Safe: each pointer comes with its own shadow's length, and the C code stays inside.
    #[inline(always)]
    fn one(&mut self, call: Call) {
        let Call::Place { length, budget } = call else {
            panic!("{call:?} is not there in C");
        };
        let (l, f) = (self.lent, &mut self.fields as *mut Four);
        let (h, hl) = (l.heap.as_ptr(), l.heap.len());
        let (p, pl) = (l.primary.as_ptr(), l.primary.len());
        let (s, sl) = (l.secondary.as_ptr(), l.secondary.len());
        let number = unsafe { bench_c_place(&l.map, h, hl, p, pl, s, sl, length, budget, f) };
        self.sum.add(call, number, &self.fields);
    }
}

impl Here for Scan {
    fn title(&self) -> &'static str {
        self.library.title
    }

    fn has(&self, case: &Case) -> bool {
        matches!(case.calls, Calls::Places(_))
    }

    fn load(&mut self, state: &State) {
        self.library.load(state);
    }

    fn make(&mut self, calls: &[Call]) {
        self.library.make(calls);
    }

    fn measured(&mut self, calls: &Calls) -> u64 {
        let mut summed = Summed {
            lent: &self.library.lent,
            fields: [0; 4],
            sum: Weight::default(),
        };
        calls.each(&mut summed);
        summed.sum.total()
    }
}
