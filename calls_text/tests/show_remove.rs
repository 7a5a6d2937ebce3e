//! Lines of free and remove in words: only heap blocks are freed, those of the stack are removed.

mod common;

use calls_text::kinds::Form;
use calls_text::refusals::refusal;
use common::meaning;

#[test]
fn lines_of_free_and_remove() {
    let in_stack = "a stack address; only heap blocks are freed, those of the stack are removed";
    for (record, line, said) in [
        ("free 4104", "3 0", "freed: the heap block at 4104"),
        ("remove 8192", "16 0", "removed: the stack block at 8192"),
        ("free 8192", "3 15", &format!("refused by 15: {in_stack}")),
        ("free 8192", "3 1", "refused by 1: no good map yet"),
        ("remove 8192", "16 1", "refused by 1: no good map yet"),
        (
            "remove 4104",
            "16 4",
            "refused by 4: address outside the stack area",
        ),
        (
            "remove 0",
            "16 4",
            "refused by 4: address outside the stack area",
        ),
        (
            "remove 8193",
            "16 7",
            "refused by 7: no block has this base",
        ),
        ("remove 8192", "16 8", "refused by 8: a reading is damaged"),
    ] {
        assert_eq!(meaning(record, line), said);
        assert_eq!(meaning(&format!("origins\n{record}"), line), said);
    }
}

#[test]
fn fifteen_is_a_number_of_free_alone() {
    for form in [Form::Plain, Form::Origins] {
        for kind in form.kinds().filter(|kind| kind.word != "free") {
            let said = refusal(form, kind.word, 15);
            assert_eq!(said, "refused by 15: no number of this call");
        }
    }
}
