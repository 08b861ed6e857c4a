//! Added for the oracle: times as numbers of nanoseconds, for the harness and the cases.

use super::Instant;
use std::time::Duration;

impl Instant {
    /// The instant that is so many nanoseconds after 0.
    pub fn of_nanos(nanos: u64) -> Instant {
        Instant(Duration::from_nanos(nanos))
    }

    /// The instant that is a duration after 0.
    pub fn of_duration(duration: Duration) -> Instant {
        Instant(duration)
    }

    /// How many nanoseconds after 0 the instant is. The text's times are wider than 64 bits.
    pub fn nanos(&self) -> u128 {
        self.0.as_nanos()
    }
}
