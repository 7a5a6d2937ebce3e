//! The numbers of refusal in words.

use crate::kinds::Form;

/// A number, the words that it is for (none: all the others), what it says. The first row that fits holds.
pub const REFUSALS: &[(u32, &[&str], &str)] = &[
    (1, &["map"], "the map breaks a rule; the one before stays"),
    (1, &[], "no good map yet"),
    (2, &[], "a shadow's length differs from its area's"),
    (
        3,
        &["record", "record_written", "record_literal"],
        "the length is 0",
    ),
    (3, &[], "n is 0"),
    (
        4,
        &["record", "record_written"],
        "base in neither area, or the block or its header does not fit there",
    ),
    (
        4,
        &["record_literal"],
        "base outside the stack area, or the block does not fit there",
    ),
    (
        4,
        &["point", "live"],
        "the pointer's cell is in neither area",
    ),
    (4, &["copy"], "a pointer's cell is in neither area"),
    (4, &["remove"], "address outside the stack area"),
    (4, &[], "address in neither area"),
    (5, &[], "a heap base must be a multiple of 8"),
    (6, &[], "some shadow byte of the place is not zero"),
    (7, &["free", "remove"], "no block has this base"),
    (7, &["written"], "the bytes are not in one block"),
    (7, &["next"], "no block follows"),
    (7, &[], "no block there"),
    (8, &["audit"], "the shadows are no image"),
    (8, &[], "a reading is damaged"),
    (
        10,
        &[],
        "a good map, above the program's sizes; the one before stays",
    ),
    (
        11,
        &["copy"],
        "a pointer's cell is no multiple of 4, or its four bytes are not in one block",
    ),
    (
        11,
        &["point", "live"],
        "the pointer's cell is no multiple of 4, or its four bytes are not in one block",
    ),
    (
        12,
        &["record", "record_written", "record_literal"],
        "the counter is outside 1 to 4294967295: no origin is left",
    ),
    (
        13,
        &["written"],
        "the bytes are those of a literal, which may only be read",
    ),
    (
        15,
        &["free"],
        "a stack address; only heap blocks are freed, those of the stack are removed",
    ),
];

/// What a number says in the form with origins, where that differs.
const WITH_ORIGINS: &[(u32, &str)] = &[(5, "a base must be a multiple of 4, a heap base of 8")];

/// What a number says of a call; a number of no row is told as such.
pub fn refusal(form: Form, word: &str, number: u32) -> String {
    let other = WITH_ORIGINS.iter().find(|(n, _)| *n == number);
    let row = REFUSALS
        .iter()
        .find(|(n, words, _)| *n == number && (words.is_empty() || words.contains(&word)));
    let said = match (form, other) {
        (Form::Origins, Some((_, said))) => said,
        _ => row.map_or("no number of this call", |(_, _, said)| said),
    };
    format!("refused by {number}: {said}")
}
