//! The calls, their answers, and the numbers of refusal.

use crate::block::Beginning;
use crate::map::{Area, NULL};

/// The numbers of refusal. The lowest wins, but for 7, which is given after 8,
/// 11 after 8, 12 after 6, 13 after 7, 14 after 3, and 15, which is given after 4
/// and ahead of 8 and 7.
pub mod refusal {
    pub const BAD_MAP: u32 = 1;
    pub const SHADOW_LENGTH: u32 = 2;
    pub const ZERO: u32 = 3;
    pub const OUTSIDE: u32 = 4;
    pub const UNALIGNED: u32 = 5;
    pub const TAKEN: u32 = 6;
    pub const NO_BLOCK: u32 = 7;
    pub const DAMAGED: u32 = 8;
    pub const UNDECODABLE: u32 = 9;
    pub const TOO_LARGE: u32 = 10;
    pub const NO_CELL: u32 = 11;
    pub const USED_UP: u32 = 12;
    pub const LITERAL: u32 = 13;
    pub const NO_GAP: u32 = 14;
    pub const IN_STACK: u32 = 15;
}

/// A call with its arguments, in the order of the paper.
#[derive(Clone, Copy, Debug, PartialEq, Eq)]
pub enum Call {
    Clear,
    Record { base: u32, length: u32 },
    RecordWritten { base: u32, length: u32 },
    RecordLiteral { base: u32, length: u32 },
    Free { base: u32 },
    Remove { base: u32 },
    Written { address: u32, n: u32 },
    Ask { address: u32 },
    Valid { address: u32, n: u32, from: u32 },
    ValidRead { address: u32, n: u32, from: u32 },
    Initialised { address: u32, n: u32 },
    Next { address: u32 },
    Place { length: u32, budget: u32 },
    Audit,
}

impl Call {
    /// How many answer fields the call has when accepted.
    pub fn answer_fields(self) -> usize {
        match self {
            Call::Record { .. } | Call::RecordWritten { .. } | Call::RecordLiteral { .. } => 0,
            Call::Clear | Call::Free { .. } | Call::Remove { .. } | Call::Written { .. } => 0,
            Call::Valid { .. } | Call::ValidRead { .. } | Call::Initialised { .. } => 1,
            Call::Next { .. } => 2,
            Call::Place { .. } => 3,
            Call::Ask { .. } | Call::Audit => 4,
        }
    }

    /// Whether the call leaves every shadow byte as it was, accepted or not:
    /// those that only look, and free of the null pointer.
    pub fn alters_nothing(self) -> bool {
        self.answer_fields() > 0 || self == Call::Free { base: NULL }
    }

    /// The call that records a block which begins in this way.
    pub fn to_begin(beginning: Beginning, base: u32, length: u32) -> Call {
        match beginning {
            Beginning::Unwritten => Call::Record { base, length },
            Beginning::Written => Call::RecordWritten { base, length },
            Beginning::Literal => Call::RecordLiteral { base, length },
        }
    }

    /// The call that ends a block of this area: free is for the heap alone (S-7).
    pub fn to_end(area: Area, base: u32) -> Call {
        match area {
            Area::Heap => Call::Free { base },
            Area::Stack => Call::Remove { base },
        }
    }

    /// Base, length and the way a block begins, where the call records one.
    pub fn recording(self) -> Option<(u32, u32, Beginning)> {
        match self {
            Call::Record { base, length } => Some((base, length, Beginning::Unwritten)),
            Call::RecordWritten { base, length } => Some((base, length, Beginning::Written)),
            Call::RecordLiteral { base, length } => Some((base, length, Beginning::Literal)),
            _ => None,
        }
    }

    /// The call's kind and fields in a calls file; clear and place have no kind.
    pub fn record_fields(self) -> Option<(u16, Vec<u32>)> {
        Some(match self {
            Call::Clear | Call::Place { .. } => return None,
            Call::Record { base, length } => (2, vec![base, length]),
            Call::Free { base } => (3, vec![base]),
            Call::Written { address, n } => (4, vec![address, n]),
            Call::Ask { address } => (5, vec![address]),
            Call::Valid { address, n, from } => (6, vec![address, n, from]),
            Call::Initialised { address, n } => (7, vec![address, n]),
            Call::Next { address } => (8, vec![address]),
            Call::Audit => (9, vec![]),
            Call::RecordWritten { base, length } => (10, vec![base, length]),
            Call::RecordLiteral { base, length } => (14, vec![base, length]),
            Call::ValidRead { address, n, from } => (15, vec![address, n, from]),
            Call::Remove { base } => (16, vec![base]),
        })
    }

    /// The call of a kind with these fields; none if kind or count is wrong.
    pub fn from_record(kind: u16, fields: &[u32]) -> Option<Call> {
        Some(match (kind, fields) {
            (2, &[base, length]) => Call::Record { base, length },
            (3, &[base]) => Call::Free { base },
            (4, &[address, n]) => Call::Written { address, n },
            (5, &[address]) => Call::Ask { address },
            (6, &[address, n, from]) => Call::Valid { address, n, from },
            (7, &[address, n]) => Call::Initialised { address, n },
            (8, &[address]) => Call::Next { address },
            (9, &[]) => Call::Audit,
            (10, &[base, length]) => Call::RecordWritten { base, length },
            (14, &[base, length]) => Call::RecordLiteral { base, length },
            (15, &[address, n, from]) => Call::ValidRead { address, n, from },
            (16, &[base]) => Call::Remove { base },
            _ => return None,
        })
    }
}

/// Answer fields of an accepted call, or the number of its refusal.
pub type Outcome = Result<[u32; 4], u32>;

/// The fields of an accepted call that answers nothing.
pub const NO_FIELDS: [u32; 4] = [0; 4];

/// What a call returns: unused fields, and all fields of a refusal, are zero.
#[derive(Clone, Copy, Debug, PartialEq, Eq)]
pub struct Answer {
    pub number: u32,
    pub fields: [u32; 4],
}

impl From<Outcome> for Answer {
    fn from(outcome: Outcome) -> Self {
        match outcome {
            Ok(fields) => Answer { number: 0, fields },
            Err(number) => Answer {
                number,
                fields: NO_FIELDS,
            },
        }
    }
}
