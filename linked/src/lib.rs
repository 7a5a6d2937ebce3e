//! The proved library of the player behind a safe function with the model's types.

use model::form::PLAYER;
use model::held::Held;

/// What the names of its functions begin with.
macro_rules! prefix {
    () => {
        "block_monitor_"
    };
}

mod library;

pub use library::call;

/// What the tests hold against the models.
pub const LIBRARY: Held = Held {
    form: PLAYER,
    library: call,
};
