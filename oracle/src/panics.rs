//! A panic of the Rust that is an answer here. Any other panic ends the program with its message.

use std::cell::Cell;
use std::panic::{self, AssertUnwindSafe};

thread_local! {
    static AWAITED: Cell<bool> = const { Cell::new(false) };
}

/// Keeps panics that are awaited from being told on standard error.
pub fn keep_quiet() {
    let tell = panic::take_hook();
    panic::set_hook(Box::new(move |info| {
        if !AWAITED.get() {
            tell(info);
        }
    }));
}

/// What `act` answers, or none where it panics with `message`.
pub fn unless_it_panics<T>(message: &str, act: impl FnOnce() -> T) -> Option<T> {
    AWAITED.set(true);
    let outcome = panic::catch_unwind(AssertUnwindSafe(act));
    AWAITED.set(false);
    match outcome {
        Ok(answer) => Some(answer),
        Err(why) if why.downcast_ref() == Some(&message) => None,
        Err(why) => panic!("another panic than the one awaited: {why:?}"),
    }
}
