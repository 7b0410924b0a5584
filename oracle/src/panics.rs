//! The Rust's elastic refusals are panics: here they are caught, in silence, as their messages.

use std::cell::Cell;
use std::panic::{AssertUnwindSafe, catch_unwind, set_hook, take_hook};

thread_local! {
    static CATCHING: Cell<bool> = const { Cell::new(false) };
}

/// Panics inside `caught` print nothing; the driver's own still do.
pub fn silence_caught() {
    let loud = take_hook();
    set_hook(Box::new(move |info| {
        if !CATCHING.get() {
            loud(info);
        }
    }));
}

/// What `call` returned, or the message that it panicked with.
pub fn caught<T>(call: impl FnOnce() -> T) -> Result<T, String> {
    CATCHING.set(true);
    let outcome = catch_unwind(AssertUnwindSafe(call));
    CATCHING.set(false);
    outcome.map_err(|payload| match payload.downcast::<String>() {
        Ok(message) => *message,
        Err(payload) => match payload.downcast::<&'static str>() {
            Ok(message) => (*message).to_string(),
            Err(_) => String::from("a panic without a message"),
        },
    })
}
