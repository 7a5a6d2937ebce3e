//! The form with origins (document 02, S-4).
//!
//! Each recording gives its block an origin, a number of its own; a pointer
//! that is kept in a cell of a block has a referent, the origin of the block it
//! was set to. Three judges stand side by side here: the list knows blocks,
//! origins and referents and no byte; the byte-level model knows bytes alone;
//! the history knows which calls were accepted and no number at all.
//!
//! - [`call`]: the calls of this form, the plain ones among them.
//! - [`cells`]: the two shadows of cells, and their image.
//! - [`list`]: the list with the counter, origins and referents.
//! - [`bytes`]: all calls on any map, any shadows, any cells, any counter.
//! - [`history`]: whether a pointer is live, by the history of calls alone.
//! - [`program`]: the calls program of this form.
//! - [`notation`]: the lines of the example files for this form.
//! - [`generate`]: seeded calls, cells, counters and input files.

pub mod bytes;
pub mod call;
pub mod cells;
pub mod generate;
pub mod history;
pub mod list;
pub mod notation;
pub mod program;
