//! The calls of the form with origins.

use crate::call::Call;

/// Origins run from the first to the last.
pub const FIRST_ORIGIN: u64 = 1;
pub const LAST_ORIGIN: u64 = 4_294_967_295;

/// A plain call, or one of those that this form has alone, kinds 11 to 13. This
/// form does not offer place: nothing here reads or draws one.
#[derive(Clone, Copy, Debug, PartialEq, Eq)]
pub enum OriginsCall {
    Plain(Call),
    Point { cell: u32, address: u32 },
    Copy { to: u32, from: u32 },
    Live { cell: u32, address: u32 },
}

impl OriginsCall {
    /// How many answer fields the call has when accepted.
    pub fn answer_fields(self) -> usize {
        match self {
            OriginsCall::Plain(call) => call.answer_fields(),
            OriginsCall::Point { .. } | OriginsCall::Copy { .. } => 0,
            OriginsCall::Live { .. } => 1,
        }
    }

    /// Whether the call leaves shadows, cells and counter as they were.
    pub fn alters_nothing(self) -> bool {
        match self {
            OriginsCall::Plain(call) => call.alters_nothing(),
            OriginsCall::Point { .. } | OriginsCall::Copy { .. } => false,
            OriginsCall::Live { .. } => true,
        }
    }

    /// The call's kind and fields in a calls file; clear has no kind of its own.
    pub fn record_fields(self) -> Option<(u16, Vec<u32>)> {
        match self {
            OriginsCall::Plain(call) => call.record_fields(),
            OriginsCall::Point { cell, address } => Some((11, vec![cell, address])),
            OriginsCall::Copy { to, from } => Some((12, vec![to, from])),
            OriginsCall::Live { cell, address } => Some((13, vec![cell, address])),
        }
    }

    /// The call of a kind with these fields; none if kind or count is wrong.
    pub fn from_record(kind: u16, fields: &[u32]) -> Option<OriginsCall> {
        Some(match (kind, fields) {
            (11, &[cell, address]) => OriginsCall::Point { cell, address },
            (12, &[to, from]) => OriginsCall::Copy { to, from },
            (13, &[cell, address]) => OriginsCall::Live { cell, address },
            _ => OriginsCall::Plain(Call::from_record(kind, fields)?),
        })
    }
}
