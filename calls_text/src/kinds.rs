//! The kinds of records. A new kind is a new row of [`KINDS`], or of [`ORIGINS_KINDS`] where the form with origins has it alone, and
//! nothing else here.

/// The form of a calls file, which is that of the program it is for.
#[derive(Clone, Copy, Debug, Default, PartialEq, Eq)]
pub enum Form {
    #[default]
    Plain,
    Origins,
}

impl Form {
    /// The word of the form; `origins` is also the line that a text of it begins with.
    pub fn word(self) -> &'static str {
        match self {
            Form::Plain => "plain",
            Form::Origins => "origins",
        }
    }

    /// The kinds of the form: the plain ones, and with origins three more.
    pub fn kinds(self) -> impl Iterator<Item = &'static Kind> {
        let more = match self {
            Form::Plain => &[],
            Form::Origins => ORIGINS_KINDS,
        };
        KINDS.iter().chain(more)
    }

    /// The kind of a number, if there is one.
    pub fn of_number(self, number: u16) -> Option<&'static Kind> {
        self.kinds().find(|kind| kind.number == number)
    }

    /// The kind of a word, if there is one.
    pub fn of_word(self, word: &str) -> Option<&'static Kind> {
        self.kinds().find(|kind| kind.word == word)
    }
}

/// A kind of record: its word in text, its fields, and what its line says.
pub struct Kind {
    pub number: u16,
    pub word: &'static str,
    /// Names of the record's fields, four bytes each.
    pub fields: &'static [&'static str],
    /// Names of the answer fields of an accepted call.
    pub answers: &'static [&'static str],
    /// What an accepted line says; takes the fields, then the answer fields.
    pub told: fn(&[u32], &[u32]) -> String,
}

/// The kinds of the plain form, which the other has too.
pub const KINDS: &[Kind] = &[
    Kind {
        number: 1,
        word: "map",
        fields: &["heap start", "heap size", "stack start", "stack size"],
        answers: &[],
        told: |f, _| {
            let (heap, stack) = (range(f[0], f[1]), range(f[2], f[3]));
            format!("accepted: heap {heap}, stack {stack}, no block")
        },
    },
    Kind {
        number: 2,
        word: "record",
        fields: &["base", "length"],
        answers: &[],
        told: |f, _| format!("recorded: a block at {} of {}", f[0], count(f[1], "byte")),
    },
    Kind {
        number: 3,
        word: "free",
        fields: &["base"],
        answers: &[],
        told: |f, _| match f[0] {
            0 => "nothing freed: address 0 is the null pointer".to_owned(),
            base => format!("freed: the heap block at {base}"),
        },
    },
    Kind {
        number: 4,
        word: "written",
        fields: &["address", "n"],
        answers: &[],
        told: |f, _| format!("marked as written: {}", range(f[0], f[1])),
    },
    Kind {
        number: 5,
        word: "ask",
        fields: &["address"],
        answers: &["base", "length", "offset", "written"],
        told: |_, a| {
            let (bytes, written) = (count(a[1], "byte"), either(a[3], "written", "not written"));
            format!(
                "in the block at {} of {bytes}, offset {}, {written}",
                a[0], a[2]
            )
        },
    },
    Kind {
        number: 6,
        word: "valid",
        fields: &["address", "n", "from"],
        answers: &["same block"],
        told: |f, a| {
            let said = either(
                a[0],
                "yes, in one block that may be written:",
                "no, not in one block, or in a literal:",
            );
            format!("{said} {} and {}", range(f[0], f[1]), f[2])
        },
    },
    Kind {
        number: 7,
        word: "initialised",
        fields: &["address", "n"],
        answers: &["all written"],
        told: |f, a| {
            let said = either(
                a[0],
                "yes, in one block and all written:",
                "no, not in one block or not all written:",
            );
            format!("{said} {}", range(f[0], f[1]))
        },
    },
    Kind {
        number: 8,
        word: "next",
        fields: &["address"],
        answers: &["base", "length"],
        told: |f, a| {
            let bytes = count(a[1], "byte");
            format!("the first block from {} on: at {} of {bytes}", f[0], a[0])
        },
    },
    Kind {
        number: 9,
        word: "audit",
        fields: &[],
        answers: &["heap blocks", "stack blocks", "live bytes", "written bytes"],
        told: |_, a| {
            let (heap, stack) = (count(a[0], "heap block"), count(a[1], "stack block"));
            let live = count(a[2], "live byte");
            format!("{heap}, {stack}, {live}, {} of them written", a[3])
        },
    },
    Kind {
        number: 10,
        word: "record_written",
        fields: &["base", "length"],
        answers: &[],
        told: |f, _| {
            let bytes = count(f[1], "byte");
            format!("recorded: a block at {} of {bytes}, all written", f[0])
        },
    },
    Kind {
        number: 14,
        word: "record_literal",
        fields: &["base", "length"],
        answers: &[],
        told: |f, _| {
            let bytes = count(f[1], "byte");
            format!(
                "recorded: a literal at {} of {bytes}, to be read only",
                f[0]
            )
        },
    },
    Kind {
        number: 15,
        word: "valid_read",
        fields: &["address", "n", "from"],
        answers: &["same block"],
        told: |f, a| {
            let said = either(a[0], "yes, in one block:", "no, not in one block:");
            format!("{said} {} and {}", range(f[0], f[1]), f[2])
        },
    },
    Kind {
        number: 16,
        word: "remove",
        fields: &["base"],
        answers: &[],
        told: |f, _| format!("removed: the stack block at {}", f[0]),
    },
];

/// The kinds of the form with origins alone.
pub const ORIGINS_KINDS: &[Kind] = &[
    Kind {
        number: 11,
        word: "point",
        fields: &["cell", "address"],
        answers: &[],
        told: |f, _| {
            let (cell, address) = (f[0], f[1]);
            format!("set: the pointer at {cell}, to the block of {address} if there is one")
        },
    },
    Kind {
        number: 12,
        word: "copy",
        fields: &["to", "from"],
        answers: &[],
        told: |f, _| format!("set: the pointer at {}, as the one at {}", f[0], f[1]),
    },
    Kind {
        number: 13,
        word: "live",
        fields: &["cell", "address"],
        answers: &["live"],
        told: |f, a| {
            let (cell, address) = (f[0], f[1]);
            let said = either(a[0], "yes, live and holds", "no, not live or does not hold");
            format!("{said} {address}: what the pointer at {cell} was set to")
        },
    },
];

impl Kind {
    /// The length of a record of this kind: length, kind and fields.
    pub fn length(&self) -> usize {
        4 + 4 * self.fields.len()
    }
}

/// "1 byte", "2 bytes".
pub fn count(n: u32, thing: &str) -> String {
    let many = if n == 1 { "" } else { "s" };
    format!("{n} {thing}{many}")
}

/// First and last address, in whole numbers, since n may be any.
fn range(start: u32, n: u32) -> String {
    if n <= 1 {
        return start.to_string();
    }
    let last = u64::from(start) + u64::from(n) - 1;
    format!("{start} to {last}")
}

fn either(flag: u32, yes: &'static str, no: &'static str) -> &'static str {
    match flag {
        0 => no,
        _ => yes,
    }
}
