//! Added for the oracle: what the text uses of the crates `futures`, `pin-utils` and `js-sys`, which are not there. In lib.rs this
//! crate gives itself their names.

pub use std::future::Future;

/// Stands for `futures::prelude`.
pub mod prelude {
    pub use std::future::Future;
}

/// Stands for `futures::future`.
pub mod future {
    pub use std::future::poll_fn;
}

/// Stands for `futures::task`.
pub mod task {
    use crate::notes;
    use std::sync::Mutex;
    use std::task::Waker;

    /// Keeps the waker of the last poll, as that of `futures` does. It has a number besides, and notes it with each wake, whether
    /// or not somebody has polled.
    pub struct AtomicWaker {
        number: u64,
        waker: Mutex<Option<Waker>>,
    }

    impl AtomicWaker {
        /// One that keeps no waker yet.
        #[allow(clippy::new_without_default)]
        pub fn new() -> AtomicWaker {
            AtomicWaker {
                number: notes::next_waker(),
                waker: Mutex::new(None),
            }
        }

        /// The number that is noted with a wake.
        pub fn number(&self) -> u64 {
            self.number
        }

        /// Keeps a waker in place of the one before.
        pub fn register(&self, waker: &Waker) {
            *self.waker.lock().unwrap() = Some(waker.clone());
        }

        /// Calls the waker that is kept, if one is, and lets go of it.
        pub fn wake(&self) {
            notes::woke(self.number);
            let waker = self.waker.lock().unwrap().take();
            if let Some(waker) = waker {
                waker.wake();
            }
        }
    }
}

/// Stands for `pin_utils::unsafe_pinned`: a function that answers the pinned field of a pinned struct.
#[macro_export]
macro_rules! unsafe_pinned {
    ($field:ident: $type:ty) => {
        fn $field(self: Pin<&mut Self>) -> Pin<&mut $type> {
            unsafe { Pin::map_unchecked_mut(self, |whole| &mut whole.$field) }
        }
    };
}

/// Stands for `js_sys::Date`, which `SystemTime` asks. The harness makes no `SystemTime`.
pub struct Date;

impl Date {
    /// Always the beginning of time.
    pub fn now() -> f64 {
        0.0
    }
}
