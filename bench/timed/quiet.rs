//! Where a panic of the Rust is an answer: it is caught, and says nothing. Any other panic says what it has to say.
use std::panic::{catch_unwind, set_hook, take_hook, UnwindSafe};

/// The answer, or none for a panic.
pub fn quietly<T>(ask: impl FnOnce() -> T + UnwindSafe) -> Option<T> {
    let hook = take_hook();
    set_hook(Box::new(|_| {}));
    let answer = catch_unwind(ask);
    set_hook(hook);
    answer.ok()
}
