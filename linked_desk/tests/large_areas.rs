//! The proved library of the desk form against the models in areas of a few thousand bytes and of the largest sizes: number, fields and
//! every shadow byte. `MONITOR_CALLS` multiplies the number of calls.

use linked_desk::LIBRARY;

model::held!(LIBRARY; runs_at_middle_size,);
model::held_large!(LIBRARY);
