//! A proved library of a form without origins, behind a safe function with the model's types. `linked_desk` includes this file too.

use model::call::{Answer, Call};
use model::image::Shadows;
use model::map::Map;

type Four = [u32; 4];

/// Each function takes the map, three lent shadows (a pointer and a length each), its own arguments and the fields. Nothing checks these lines
/// against the library's source.
macro_rules! functions {
    ($($name:ident($($argument:ident: $kind:ty),*);)*) => {
        extern "C" {
            $(
                #[link_name = concat!(prefix!(), stringify!($name))]
                fn $name(
                    map: *const Four,
                    heap: *mut u8,
                    heap_length: usize,
                    primary: *mut u8,
                    primary_length: usize,
                    secondary: *mut u8,
                    secondary_length: usize,
                    $($argument: $kind,)*
                    fields: *mut Four,
                ) -> u32;
            )*
        }
    };
}

functions! {
    clear();
    begin(base: u32, length: u32, how: u8);
    free(base: u32);
    remove(base: u32);
    written(address: u32, n: u32);
    ask(address: u32);
    access(address: u32, n: u32, from: u32, write: bool);
    initialised(address: u32, n: u32);
    next(address: u32);
    place(length: u32, budget: u32);
    audit();
}

/// How a block begins: unwritten, written, or, by any other number, as a literal.
const UNWRITTEN: u8 = 0;
const WRITTEN: u8 = 1;
const LITERAL: u8 = 2;

/// The map as the library takes it, which knows its form.
fn numbers(map: Map) -> Four {
    let (heap, stack) = (map.heap_start, map.stack_start);
    [heap, map.heap_size, stack, map.stack_size]
}

/// One call of the proved library on lent shadows.
pub fn call(map: Map, lent: &mut Shadows, call: Call) -> Answer {
    let four = numbers(map);
    // Any old fields: the library stores all four.
    let mut fields = [77; 4];
    // Safe: each pointer comes with its own vector's length, and the library stays inside.
    macro_rules! on_lent {
        ($name:ident($($argument:expr),*)) => {
            unsafe {
                $name(
                    &four,
                    lent.heap.as_mut_ptr(),
                    lent.heap.len(),
                    lent.primary.as_mut_ptr(),
                    lent.primary.len(),
                    lent.secondary.as_mut_ptr(),
                    lent.secondary.len(),
                    $($argument,)*
                    &mut fields,
                )
            }
        };
    }
    let number = match call {
        Call::Clear => on_lent!(clear()),
        Call::Record { base, length } => on_lent!(begin(base, length, UNWRITTEN)),
        Call::RecordWritten { base, length } => on_lent!(begin(base, length, WRITTEN)),
        Call::RecordLiteral { base, length } => on_lent!(begin(base, length, LITERAL)),
        Call::Free { base } => on_lent!(free(base)),
        Call::Remove { base } => on_lent!(remove(base)),
        Call::Written { address, n } => on_lent!(written(address, n)),
        Call::Ask { address } => on_lent!(ask(address)),
        Call::Valid { address, n, from } => on_lent!(access(address, n, from, true)),
        Call::ValidRead { address, n, from } => on_lent!(access(address, n, from, false)),
        Call::Initialised { address, n } => on_lent!(initialised(address, n)),
        Call::Next { address } => on_lent!(next(address)),
        Call::Place { length, budget } => on_lent!(place(length, budget)),
        Call::Audit => on_lent!(audit()),
    };
    Answer { number, fields }
}
