//! Added for the oracle: a window on a clock, for the harness.

use super::Clock;
use crate::std::Instant;

impl Clock {
    /// The base, and the start of a running clock.
    pub fn parts(&self) -> (Instant, Option<Instant>) {
        (
            *self.inner.base.lock().unwrap(),
            *self.inner.unfrozen.lock().unwrap(),
        )
    }
}
