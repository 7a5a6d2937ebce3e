//! Every sample of the form with origins in the model's data, on the library itself.
#![cfg(library)]

use linked_origins::call;
use model::stated::every_origins_sample;

#[test]
fn every_sample() {
    let samples = every_origins_sample(call);
    assert!(samples >= 1400, "{samples}");
}
