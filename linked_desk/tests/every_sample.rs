//! Every sample of the desk in the model's data, on the library itself.

use linked_desk::LIBRARY;

#[test]
fn every_sample() {
    let samples = LIBRARY.every_sample();
    assert!(samples >= 150, "{samples}");
}
