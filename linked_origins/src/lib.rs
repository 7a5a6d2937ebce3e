//! The proved library of the form with origins behind a safe function with the model's types.
#![cfg(library)]

use model::call::{Answer, Call};
use model::held::origins::HeldOrigins;
use model::map::Map;
use model::origins::call::OriginsCall;
use model::origins::cells::State;

type Four = [u32; 4];

// Each function takes the map, five lent shadows (a pointer and a length each), its own arguments and the fields. Nothing checks these
// lines against the library's source.
macro_rules! library {
    ($($name:ident($($argument:ident: $kind:ty),*);)*) => {
        extern "C" {
            $(fn $name(
                map: *const Four,
                heap: *mut u8,
                heap_length: usize,
                primary: *mut u8,
                primary_length: usize,
                secondary: *mut u8,
                secondary_length: usize,
                heap_cells: *mut u8,
                heap_cells_length: usize,
                stack_cells: *mut u8,
                stack_cells_length: usize,
                $($argument: $kind,)*
                fields: *mut Four,
            ) -> u32;)*
        }
    };
}

library! {
    block_monitor_origins_clear();
    block_monitor_origins_begin(base: u32, length: u32, how: u8, counter: *mut u64);
    block_monitor_origins_free(base: u32);
    block_monitor_origins_remove(base: u32);
    block_monitor_origins_written(address: u32, n: u32);
    block_monitor_origins_ask(address: u32);
    block_monitor_origins_access(address: u32, n: u32, from: u32, write: bool);
    block_monitor_origins_initialised(address: u32, n: u32);
    block_monitor_origins_next(address: u32);
    block_monitor_origins_audit();
    block_monitor_origins_point(cell: u32, address: u32);
    block_monitor_origins_copy(to: u32, from: u32);
    block_monitor_origins_live(cell: u32, address: u32);
}

/// How a block begins: unwritten, written, or, by any other number, as a literal.
const UNWRITTEN: u8 = 0;
const WRITTEN: u8 = 1;
const LITERAL: u8 = 2;

/// What the tests hold against the models.
pub const LIBRARY: HeldOrigins = HeldOrigins { library: call };

/// One call of the proved library on lent state.
pub fn call(map: Map, state: &mut State, call: OriginsCall) -> Answer {
    call_for_literal(LITERAL, map, state, call)
}

/// The same, where a literal is asked for by this number, which is neither 0 nor 1.
pub fn call_for_literal(literal: u8, map: Map, state: &mut State, call: OriginsCall) -> Answer {
    let four = [
        map.heap_start,
        map.heap_size,
        map.stack_start,
        map.stack_size,
    ];
    // Any old fields: the library stores all four.
    let mut fields = [77; 4];
    let counter: *mut u64 = &mut state.counter;
    let (shadows, cells) = (&mut state.shadows, &mut state.cells);
    // Safe: each pointer comes with its own vector's length, and the library stays inside.
    macro_rules! on_state {
        ($name:ident($($argument:expr),*)) => {
            unsafe {
                $name(
                    &four,
                    shadows.heap.as_mut_ptr(),
                    shadows.heap.len(),
                    shadows.primary.as_mut_ptr(),
                    shadows.primary.len(),
                    shadows.secondary.as_mut_ptr(),
                    shadows.secondary.len(),
                    cells.heap.as_mut_ptr(),
                    cells.heap.len(),
                    cells.stack.as_mut_ptr(),
                    cells.stack.len(),
                    $($argument,)*
                    &mut fields,
                )
            }
        };
    }
    let number = match call {
        OriginsCall::Plain(Call::Clear) => on_state!(block_monitor_origins_clear()),
        OriginsCall::Plain(Call::Record { base, length }) => {
            on_state!(block_monitor_origins_begin(
                base, length, UNWRITTEN, counter
            ))
        }
        OriginsCall::Plain(Call::RecordWritten { base, length }) => {
            on_state!(block_monitor_origins_begin(base, length, WRITTEN, counter))
        }
        OriginsCall::Plain(Call::RecordLiteral { base, length }) => {
            on_state!(block_monitor_origins_begin(base, length, literal, counter))
        }
        OriginsCall::Plain(Call::Free { base }) => on_state!(block_monitor_origins_free(base)),
        OriginsCall::Plain(Call::Remove { base }) => on_state!(block_monitor_origins_remove(base)),
        OriginsCall::Plain(Call::Written { address, n }) => {
            on_state!(block_monitor_origins_written(address, n))
        }
        OriginsCall::Plain(Call::Ask { address }) => on_state!(block_monitor_origins_ask(address)),
        OriginsCall::Plain(Call::Valid { address, n, from }) => {
            on_state!(block_monitor_origins_access(address, n, from, true))
        }
        OriginsCall::Plain(Call::ValidRead { address, n, from }) => {
            on_state!(block_monitor_origins_access(address, n, from, false))
        }
        OriginsCall::Plain(Call::Initialised { address, n }) => {
            on_state!(block_monitor_origins_initialised(address, n))
        }
        OriginsCall::Plain(Call::Next { address }) => {
            on_state!(block_monitor_origins_next(address))
        }
        OriginsCall::Plain(Call::Place { .. }) => {
            panic!("the form with origins does not offer place: {call:?}")
        }
        OriginsCall::Plain(Call::Audit) => on_state!(block_monitor_origins_audit()),
        OriginsCall::Point { cell, address } => {
            on_state!(block_monitor_origins_point(cell, address))
        }
        OriginsCall::Copy { to, from } => on_state!(block_monitor_origins_copy(to, from)),
        OriginsCall::Live { cell, address } => on_state!(block_monitor_origins_live(cell, address)),
    };
    Answer { number, fields }
}
