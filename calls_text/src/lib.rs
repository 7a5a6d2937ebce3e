//! Calls files, the input of the calls program, as text that a person can write and read.
//!
//! - [`kinds`]: the kinds of records, one table; [`refusals`]: the numbers of refusal, another.
//! - [`text`]: text to a calls file and back.
//! - [`records`]: a calls file taken apart.
//! - [`show`]: input and output of a run side by side, with what each line means.

pub mod kinds;
pub mod records;
pub mod refusals;
pub mod show;
pub mod text;
