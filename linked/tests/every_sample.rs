//! Every sample of the player in the model's data, on the library itself.

use linked::LIBRARY;

#[test]
fn every_sample() {
    let samples = LIBRARY.every_sample();
    assert!(samples >= 1400, "{samples}");
}
