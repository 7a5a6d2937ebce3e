//! The proved library against the models in areas of a few thousand bytes and of the largest sizes: number, fields and
//! every shadow byte. `MONITOR_CALLS` multiplies the number of calls.

use linked::LIBRARY;

model::held!(LIBRARY; runs_at_middle_size,);
model::held_large!(LIBRARY);
