//! Models of the block monitor, written from its paper alone.
//!
//! No line here was taken from, or compared with, the monitor's own source:
//! what the two agree on is what the paper says. Two models stand side by side.
//! The plain list knows blocks and no shadow; the byte-level model knows shadow
//! bytes and no list. On every run of calls they must give the same answers,
//! and the image of the list must be the bytes.
//!
//! The heap has two forms, the player's and the desk's, which are the same but
//! for two sizes: every model has them from the map that it is given.
//!
//! - [`form`]: the two forms of the heap.
//! - [`map`]: the map, its rules, and the two areas, in whole numbers.
//! - [`call`]: the calls, their answers and the numbers of refusal.
//! - [`block`]: a live block, its footprint, and where a block may be placed.
//! - [`plain`]: the plain list, a vector of blocks in address order.
//! - [`plain_btree`]: the same list on a `BTreeMap`, a peer for timing.
//! - [`image`]: the shadow bytes that the two layouts give for a list.
//! - [`reading`]: what one address reads as, on any shadow bytes.
//! - [`decode`]: the one list that shadow bytes could be the image of.
//! - [`bytes`]: all calls on any map and any shadow bytes.
//! - [`program`]: the calls program, run on a plain list.
//! - [`recorded`]: the recorded runs; those of when free still took stack blocks, as they are now.
//! - [`notation`]: the one-line notation of the example files.
//! - [`samples`]: the samples program, which answers lines of that notation.
//! - [`stated`]: the samples of tests/data, each line of which tells every byte.
//! - [`origins`]: the form with origins, with its own models and program.
//! - [`held`]: a linked library held against the models.
//! - [`random`], [`generate`]: seeded maps, calls, shadows and input files.

pub mod block;
pub mod bytes;
pub mod call;
pub mod decode;
pub mod form;
pub mod generate;
pub mod held;
pub mod image;
pub mod map;
pub mod notation;
pub mod origins;
pub mod plain;
pub mod plain_btree;
pub mod program;
pub mod random;
pub mod reading;
pub mod recorded;
pub mod samples;
pub mod stated;
