//! The proved library of the form with origins against the models in areas of a few thousand bytes and of the largest sizes: number,
//! fields, three shadows, two shadows of cells, counter. `MONITOR_CALLS` multiplies the number of calls.
#![cfg(library)]

use linked_origins::LIBRARY;

model::held!(LIBRARY; runs_at_middle_size,);
model::held_large!(LIBRARY;
    changes_of_a_byte,
    every_byte_once,
    every_value_of_a_byte,
    other_numbers,
    damaged_and_random_bytes,
    calls_at_addresses,
    totals,
    endings,
    recordings,
    ranges,
    wrong_maps_and_lengths,
    pointers,
    stale_pointers,
    changes_of_a_cell,
    wrong_lengths_of_cells,
);
