//! The proved library of the desk form against the models: number, fields and every shadow byte. `MONITOR_CALLS` multiplies the number of
//! calls.

use linked_desk::LIBRARY;

model::held!(LIBRARY);
model::held!(LIBRARY; every_upper_byte_of_every_number,);

/// What is stated in the model's data, on the library itself.
#[test]
fn stated_samples() {
    let calls = LIBRARY.stated_samples(include_str!("../../model/tests/data/desk.txt"));
    let damage = LIBRARY.stated_samples(include_str!("../../model/tests/data/desk-damage.txt"));
    assert!(calls > 110 && damage > 35, "{calls} {damage}");
}
