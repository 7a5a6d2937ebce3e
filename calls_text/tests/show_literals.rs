//! Lines of literals in words: kinds 14 and 15, and what they change for valid and written.

mod common;

use common::meaning;

#[test]
fn lines_of_literals() {
    for (record, line, said) in [
        (
            "record_literal 8192 6",
            "14 0",
            "recorded: a literal at 8192 of 6 bytes, to be read only",
        ),
        (
            "record_literal 8223 1",
            "14 0",
            "recorded: a literal at 8223 of 1 byte, to be read only",
        ),
        (
            "valid_read 8192 6 8195",
            "15 0 1",
            "yes, in one block: 8192 to 8197 and 8195",
        ),
        (
            "valid_read 8192 1 0",
            "15 0 0",
            "no, not in one block: 8192 and 0",
        ),
        (
            "valid 8192 6 8195",
            "6 0 0",
            "no, not in one block, or in a literal: 8192 to 8197 and 8195",
        ),
        (
            "written 8192 1",
            "4 13",
            "refused by 13: the bytes are those of a literal, which may only be read",
        ),
        (
            "record_literal 8192 6",
            "14 1",
            "refused by 1: no good map yet",
        ),
        (
            "record_literal 8192 0",
            "14 3",
            "refused by 3: the length is 0",
        ),
        (
            "record_literal 4104 6",
            "14 4",
            "refused by 4: base outside the stack area, or the block does not fit there",
        ),
        (
            "record_literal 8192 6",
            "14 6",
            "refused by 6: some shadow byte of the place is not zero",
        ),
        ("valid_read 8192 0 8195", "15 3", "refused by 3: n is 0"),
        (
            "valid_read 8192 1 8195",
            "15 8",
            "refused by 8: a reading is damaged",
        ),
    ] {
        assert_eq!(meaning(record, line), said);
    }
}
