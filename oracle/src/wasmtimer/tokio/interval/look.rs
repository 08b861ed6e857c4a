//! Added for the oracle: a window on an `Interval`, for the harness and the cases.

use super::{Interval, MissedTickBehavior};
use crate::std::Instant;
use crate::tokio::Sleep;
use std::time::Duration;

impl Interval {
    /// An interval whose timer is a given one.
    pub fn around(sleep: Sleep) -> Interval {
        Interval {
            sleep,
            interval: Duration::ZERO,
            missed_tick_behavior: MissedTickBehavior::Burst,
        }
    }

    /// The timer of the interval.
    pub fn timer(&self) -> &Sleep {
        &self.sleep
    }

    /// The timer of the interval, to be changed.
    pub fn timer_mut(&mut self) -> &mut Sleep {
        &mut self.sleep
    }

    /// Sets the period, which the text sets only once.
    pub fn set_period(&mut self, period: Duration) {
        self.interval = period;
    }
}

impl MissedTickBehavior {
    /// The deadline after a late tick, of times that a counter of 64 bits does not reach.
    pub fn after_late(&self, due: Instant, now: Instant, period: Duration) -> Instant {
        self.next_timeout(due, now, period)
    }
}
