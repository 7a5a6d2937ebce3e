//! The proved library against the models: number, fields and every shadow byte. `MONITOR_CALLS` multiplies the number of calls.

model::held!(linked::LIBRARY);
