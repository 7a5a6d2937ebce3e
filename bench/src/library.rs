//! The proved library, called through its C interface: one build, or two with the symbols of the earlier one renamed; and that of the desk form,
//! whose functions are the same under names of their own.

use model::call::Call;

use crate::case::Case;
use crate::lists::{Calls, Maker, Weight};
use crate::side::Here;
use crate::state::{State, HEAP_SIZE, STACK_SIZE};

pub type Four = [u32; 4];

/// The three lent shadows and the map, as the library takes them.
pub struct Lent {
    pub map: Four,
    pub heap: Vec<u8>,
    pub primary: Vec<u8>,
    pub secondary: Vec<u8>,
}

impl Lent {
    pub fn new() -> Self {
        Lent {
            map: [0; 4],
            heap: Vec::with_capacity(HEAP_SIZE as usize),
            primary: Vec::with_capacity(STACK_SIZE as usize),
            secondary: Vec::with_capacity(STACK_SIZE as usize),
        }
    }

    pub fn clear_for(&mut self, state: &State) {
        let map = state.map;
        self.map = [
            map.heap_start,
            map.heap_size,
            map.stack_start,
            map.stack_size,
        ];
        for (shadow, size) in [
            (&mut self.heap, map.heap_size),
            (&mut self.primary, map.stack_size),
            (&mut self.secondary, map.stack_size),
        ] {
            shadow.clear();
            shadow.resize(size as usize, 0);
        }
    }
}

/// How a block begins.
const UNWRITTEN: u8 = 0;
const WRITTEN: u8 = 1;
const LITERAL: u8 = 2;

/// What a build lacks that knows no literals (before.sh).
const LITERALS: &str = "literals";

/// The call's symbol, without a prefix.
fn symbol(call: &Call) -> &'static str {
    match call {
        Call::Clear => "block_monitor_clear",
        Call::Record { .. } | Call::RecordWritten { .. } => "block_monitor_begin",
        Call::RecordLiteral { .. } | Call::ValidRead { .. } => LITERALS,
        Call::Free { .. } => "block_monitor_free",
        Call::Remove { .. } => "block_monitor_remove",
        Call::Written { .. } => "block_monitor_written",
        Call::Ask { .. } => "block_monitor_ask",
        Call::Valid { .. } => "block_monitor_access",
        Call::Initialised { .. } => "block_monitor_initialised",
        Call::Next { .. } => "block_monitor_next",
        Call::Audit => "block_monitor_audit",
        Call::Place { .. } => "block_monitor_place",
    }
}

/// Declares the symbols of a build and makes a side of it, with the symbols that it lacks: in their place stand stubs (before.sh).
macro_rules! build {
    ($side:ident, $clear:literal, $begin:literal, $free:literal, $remove:literal, $written:literal, $ask:literal, $access:literal,
     $initialised:literal, $next:literal, $audit:literal, $place:literal) => {
        pub mod $side {
            use super::*;

            // Nothing checks these lines against the library's source.
            #[rustfmt::skip]
            extern "C" {
                #[link_name = $clear]
                fn clear(map: *const Four, h: *mut u8, hl: usize, p: *mut u8, pl: usize, s: *mut u8, sl: usize, f: *mut Four) -> u32;
                #[link_name = $begin]
                fn begin(map: *const Four, h: *mut u8, hl: usize, p: *mut u8, pl: usize, s: *mut u8, sl: usize, base: u32, n: u32, how: u8, f: *mut Four) -> u32;
                #[link_name = $free]
                fn free(map: *const Four, h: *mut u8, hl: usize, p: *const u8, pl: usize, s: *const u8, sl: usize, base: u32, f: *mut Four) -> u32;
                #[link_name = $remove]
                fn remove(map: *const Four, h: *const u8, hl: usize, p: *mut u8, pl: usize, s: *mut u8, sl: usize, base: u32, f: *mut Four) -> u32;
                #[link_name = $written]
                fn written(map: *const Four, h: *mut u8, hl: usize, p: *mut u8, pl: usize, s: *mut u8, sl: usize, a: u32, n: u32, f: *mut Four) -> u32;
                #[link_name = $ask]
                fn ask(map: *const Four, h: *const u8, hl: usize, p: *const u8, pl: usize, s: *const u8, sl: usize, a: u32, f: *mut Four) -> u32;
                #[link_name = $access]
                fn access(map: *const Four, h: *const u8, hl: usize, p: *const u8, pl: usize, s: *const u8, sl: usize, a: u32, n: u32, from: u32, write: bool, f: *mut Four) -> u32;
                #[link_name = $initialised]
                fn initialised(map: *const Four, h: *const u8, hl: usize, p: *const u8, pl: usize, s: *const u8, sl: usize, a: u32, n: u32, f: *mut Four) -> u32;
                #[link_name = $next]
                fn next(map: *const Four, h: *const u8, hl: usize, p: *const u8, pl: usize, s: *const u8, sl: usize, a: u32, f: *mut Four) -> u32;
                #[link_name = $audit]
                fn audit(map: *const Four, h: *const u8, hl: usize, p: *const u8, pl: usize, s: *const u8, sl: usize, f: *mut Four) -> u32;
                #[link_name = $place]
                fn place(map: *const Four, h: *const u8, hl: usize, p: *const u8, pl: usize, s: *const u8, sl: usize, n: u32, budget: u32, f: *mut Four) -> u32;
            }

            pub struct Library {
                pub title: &'static str,
                pub lent: Lent,
                pub lacks: Vec<String>,
            }

            impl Library {
                pub fn new(title: &'static str, lacks: Vec<String>) -> Self {
                    let lent = Lent::new();
                    Library { title, lent, lacks }
                }

                // Safe: each pointer comes with its own shadow's length, and the library stays inside.
                #[inline(always)]
                fn call(&mut self, call: Call, fields: &mut Four) -> u32 {
                    let l = &mut self.lent;
                    let (m, f) = (&l.map as *const Four, fields as *mut Four);
                    let (h, hl) = (l.heap.as_mut_ptr(), l.heap.len());
                    let (p, pl) = (l.primary.as_mut_ptr(), l.primary.len());
                    let (s, sl) = (l.secondary.as_mut_ptr(), l.secondary.len());
                    #[rustfmt::skip]
                    let number = unsafe {
                        match call {
                            Call::Clear => clear(m, h, hl, p, pl, s, sl, f),
                            Call::Record { base, length } => begin(m, h, hl, p, pl, s, sl, base, length, UNWRITTEN, f),
                            Call::RecordWritten { base, length } => begin(m, h, hl, p, pl, s, sl, base, length, WRITTEN, f),
                            Call::RecordLiteral { base, length } => begin(m, h, hl, p, pl, s, sl, base, length, LITERAL, f),
                            Call::Free { base } => free(m, h, hl, p, pl, s, sl, base, f),
                            Call::Remove { base } => remove(m, h, hl, p, pl, s, sl, base, f),
                            Call::Written { address, n } => written(m, h, hl, p, pl, s, sl, address, n, f),
                            Call::Ask { address } => ask(m, h, hl, p, pl, s, sl, address, f),
                            Call::Valid { address, n, from } => access(m, h, hl, p, pl, s, sl, address, n, from, true, f),
                            Call::ValidRead { address, n, from } => access(m, h, hl, p, pl, s, sl, address, n, from, false, f),
                            Call::Initialised { address, n } => initialised(m, h, hl, p, pl, s, sl, address, n, f),
                            Call::Next { address } => next(m, h, hl, p, pl, s, sl, address, f),
                            Call::Audit => audit(m, h, hl, p, pl, s, sl, f),
                            Call::Place { length, budget } => place(m, h, hl, p, pl, s, sl, length, budget, f),
                        }
                    };
                    number
                }
            }

            // The library's code is not seen here: its answers need no other shield.
            struct Summed<'a> {
                library: &'a mut Library,
                fields: Four,
                sum: Weight,
            }

            impl Maker for Summed<'_> {
                #[inline(always)]
                fn one(&mut self, call: Call) {
                    let number = self.library.call(call, &mut self.fields);
                    self.sum.add(call, number, &self.fields);
                }
            }

            impl Here for Library {
                fn title(&self) -> &'static str {
                    self.title
                }

                fn has(&self, case: &Case) -> bool {
                    let lists = [&case.before, &case.timed, &case.after];
                    let lacked = |call: &Call| self.lacks.iter().any(|name| name == symbol(call));
                    !lists.into_iter().flatten().any(lacked)
                }

                fn load(&mut self, state: &State) {
                    self.lent.clear_for(state);
                    self.make(&state.calls);
                }

                fn make(&mut self, calls: &[Call]) {
                    let mut fields = [0; 4];
                    for &call in calls {
                        self.call(call, &mut fields);
                    }
                }

                fn measured(&mut self, calls: &Calls) -> u64 {
                    let (library, fields) = (self, [0; 4]);
                    let mut summed = Summed { library, fields, sum: Weight::default() };
                    calls.each(&mut summed);
                    summed.sum.total()
                }
            }
        }
    };
}

build!(
    this,
    "block_monitor_clear",
    "block_monitor_begin",
    "block_monitor_free",
    "block_monitor_remove",
    "block_monitor_written",
    "block_monitor_ask",
    "block_monitor_access",
    "block_monitor_initialised",
    "block_monitor_next",
    "block_monitor_audit",
    "block_monitor_place"
);

build!(
    desk,
    "block_monitor_desk_clear",
    "block_monitor_desk_begin",
    "block_monitor_desk_free",
    "block_monitor_desk_remove",
    "block_monitor_desk_written",
    "block_monitor_desk_ask",
    "block_monitor_desk_access",
    "block_monitor_desk_initialised",
    "block_monitor_desk_next",
    "block_monitor_desk_audit",
    "block_monitor_desk_place"
);

#[cfg(before)]
build!(
    before,
    "before_block_monitor_clear",
    "before_block_monitor_begin",
    "before_block_monitor_free",
    "before_block_monitor_remove",
    "before_block_monitor_written",
    "before_block_monitor_ask",
    "before_block_monitor_access",
    "before_block_monitor_initialised",
    "before_block_monitor_next",
    "before_block_monitor_audit",
    "before_block_monitor_place"
);
