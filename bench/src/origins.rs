//! The proved library of the form with origins, called through its C interface: the calls that are measured.

use model::call::Call;
use model::origins::call::OriginsCall;

use crate::case::Case;
use crate::library::{Four, Lent};
use crate::lists::{Calls, Maker, Weight};
use crate::side::Here;
use crate::state::State;

// Each function takes the map, five lent shadows (a pointer and a length each), its own arguments and the fields. Nothing checks these
// lines against the library's source.
macro_rules! library {
    ($($name:ident($($argument:ident: $kind:ty),*);)*) => {
        extern "C" {
            $(fn $name(
                map: *const Four,
                heap: *mut u8,
                heap_length: usize,
                primary: *mut u8,
                primary_length: usize,
                secondary: *mut u8,
                secondary_length: usize,
                heap_cells: *mut u8,
                heap_cells_length: usize,
                stack_cells: *mut u8,
                stack_cells_length: usize,
                $($argument: $kind,)*
                fields: *mut Four,
            ) -> u32;)*
        }
    };
}

/// How a block begins.
const UNWRITTEN: u8 = 0;
const LITERAL: u8 = 2;

library! {
    block_monitor_origins_begin(base: u32, length: u32, how: u8, counter: *mut u64);
    block_monitor_origins_free(base: u32);
    block_monitor_origins_remove(base: u32);
    block_monitor_origins_written(address: u32, n: u32);
    block_monitor_origins_point(cell: u32, address: u32);
    block_monitor_origins_copy(to: u32, from: u32);
    block_monitor_origins_live(cell: u32, address: u32);
}

/// The lent shadows, the cells of both areas, and the counter.
pub struct Origins {
    lent: Lent,
    heap_cells: Vec<u8>,
    stack_cells: Vec<u8>,
    counter: u64,
}

impl Origins {
    pub fn new() -> Self {
        Origins {
            lent: Lent::new(),
            heap_cells: Vec::new(),
            stack_cells: Vec::new(),
            counter: 1,
        }
    }

    // Safe: each pointer comes with its own shadow's length, and the library stays inside.
    #[inline(always)]
    fn call(&mut self, call: OriginsCall, fields: &mut Four) -> u32 {
        let (lent, counter) = (&mut self.lent, &mut self.counter as *mut u64);
        let (x, y) = (&mut self.heap_cells, &mut self.stack_cells);
        macro_rules! on_state {
            ($name:ident($($argument:expr),*)) => {
                unsafe {
                    $name(
                        &lent.map,
                        lent.heap.as_mut_ptr(),
                        lent.heap.len(),
                        lent.primary.as_mut_ptr(),
                        lent.primary.len(),
                        lent.secondary.as_mut_ptr(),
                        lent.secondary.len(),
                        x.as_mut_ptr(),
                        x.len(),
                        y.as_mut_ptr(),
                        y.len(),
                        $($argument,)*
                        fields,
                    )
                }
            };
        }
        match call {
            OriginsCall::Plain(Call::Record { base, length }) => {
                on_state!(block_monitor_origins_begin(
                    base, length, UNWRITTEN, counter
                ))
            }
            OriginsCall::Plain(Call::RecordLiteral { base, length }) => {
                on_state!(block_monitor_origins_begin(base, length, LITERAL, counter))
            }
            OriginsCall::Plain(Call::Free { base }) => on_state!(block_monitor_origins_free(base)),
            OriginsCall::Plain(Call::Remove { base }) => {
                on_state!(block_monitor_origins_remove(base))
            }
            OriginsCall::Plain(Call::Written { address, n }) => {
                on_state!(block_monitor_origins_written(address, n))
            }
            OriginsCall::Point { cell, address } => {
                on_state!(block_monitor_origins_point(cell, address))
            }
            OriginsCall::Copy { to, from } => on_state!(block_monitor_origins_copy(to, from)),
            OriginsCall::Live { cell, address } => {
                on_state!(block_monitor_origins_live(cell, address))
            }
            OriginsCall::Plain(_) => panic!("{call:?} is not measured in this form"),
        }
    }

    fn must(&mut self, call: OriginsCall) {
        assert_eq!(self.call(call, &mut [0; 4]), 0, "{call:?} is refused");
    }
}

// The library's code is not seen here: its answers need no other shield.
struct Summed<'a> {
    library: &'a mut Origins,
    fields: Four,
    sum: Weight,
}

impl Maker for Summed<'_> {
    #[inline(always)]
    fn one(&mut self, call: Call) {
        let number = self
            .library
            .call(OriginsCall::Plain(call), &mut self.fields);
        self.sum.add(call, number, &self.fields);
    }

    #[inline(always)]
    fn pointer(&mut self, call: OriginsCall) {
        let number = self.library.call(call, &mut self.fields);
        self.sum.add_pointer(number, &self.fields);
    }
}

impl Here for Origins {
    fn title(&self) -> &'static str {
        "origins"
    }

    fn load(&mut self, state: &State) {
        self.lent.clear_for(state);
        for (cells, size) in [
            (&mut self.heap_cells, state.map.heap_size),
            (&mut self.stack_cells, state.map.stack_size),
        ] {
            cells.clear();
            cells.resize(2 * size as usize, 0);
        }
        self.counter = 1;
        self.make(&state.calls);
    }

    /// Pointers are set before they are copied or asked about.
    fn prepare(&mut self, _state: &State, case: &Case) {
        match &case.calls {
            Calls::Lives(list) => {
                for &(cell, address) in list {
                    self.must(OriginsCall::Point { cell, address });
                }
            }
            Calls::Copies(list) => {
                for &(_, from) in list {
                    self.must(OriginsCall::Point {
                        cell: from,
                        address: from,
                    });
                }
            }
            _ => {}
        }
    }

    fn make(&mut self, calls: &[Call]) {
        for &call in calls {
            self.must(OriginsCall::Plain(call));
        }
    }

    fn measured(&mut self, calls: &Calls) -> u64 {
        let (library, fields) = (self, [0; 4]);
        let mut summed = Summed {
            library,
            fields,
            sum: Weight::default(),
        };
        calls.each(&mut summed);
        summed.sum.total()
    }
}
