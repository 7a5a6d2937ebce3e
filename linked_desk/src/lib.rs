//! The proved library of the desk form behind a safe function with the model's types.

use model::form::DESK;
use model::held::Held;

/// What the names of its functions begin with.
macro_rules! prefix {
    () => {
        "block_monitor_desk_"
    };
}

// The parameters are those of the player's functions.
#[path = "../../linked/src/library.rs"]
mod library;

pub use library::call;

/// What the tests hold against the models.
pub const LIBRARY: Held = Held {
    form: DESK,
    library: call,
};
