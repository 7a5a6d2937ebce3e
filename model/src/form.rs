//! The forms of the heap: how wide its numbers are, and how long its segments.

/// A form of the heap, by its two sizes; the stack is the same in each.
#[derive(Clone, Copy, Debug, PartialEq, Eq)]
pub struct Form {
    /// The bytes of a number, four to eight.
    pub width: usize,
    /// The bytes of a segment, at least twice as many.
    pub segment: u32,
}

/// The lesson player, document 01.
pub const PLAYER: Form = Form {
    width: 4,
    segment: 8,
};

/// The desk simulator, document 02, S-8.
pub const DESK: Form = Form {
    width: 8,
    segment: 16,
};

/// Both forms that there are.
pub const FORMS: [Form; 2] = [PLAYER, DESK];

impl Default for Form {
    fn default() -> Self {
        PLAYER
    }
}

impl Form {
    /// A segment's bytes, for positions.
    pub fn bytes(self) -> usize {
        self.segment as usize
    }

    /// The same for addresses, in whole numbers.
    pub fn whole(self) -> u64 {
        self.segment.into()
    }
}
