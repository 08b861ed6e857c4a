//! What the cases share: a set of timers on the Rust, and its calls.

use std::panic::{self, AssertUnwindSafe};
use std::pin::Pin;
use std::sync::atomic::{AtomicUsize, Ordering::SeqCst};
use std::sync::{Arc, Once};
use std::task::{Context, Poll, Wake, Waker};
use std::time::Duration;
use wasmtimer::js::set_raw_counter;
use wasmtimer::prelude::Future;
use wasmtimer::std::Instant;
use wasmtimer::timer::{Inner, Timer};
use wasmtimer::tokio::{Interval, MissedTickBehavior, Sleep};

/// 2^64, the first number that a time here cannot be.
pub const TOO_LARGE: u128 = 1 << 64;

/// A `Timer`, and one upgraded `Inner`.
pub struct Set {
    pub timer: Option<Timer>,
    pub inner: Arc<Inner>,
}

impl Set {
    /// A fresh set.
    pub fn fresh() -> Set {
        let timer = Timer::new();
        let inner = timer.handle().inner.upgrade().unwrap();
        Set {
            timer: Some(timer),
            inner,
        }
    }

    /// Adds a timer.
    pub fn add(&self, at: u64) -> Sleep {
        let handle = wasmtimer::timer::TimerHandle {
            inner: Arc::downgrade(&self.inner),
        };
        Sleep::new_handle(Instant::of_nanos(at), handle)
    }

    /// Drains.
    pub fn drain(&mut self) {
        let timer = Pin::new(self.timer.as_mut().unwrap());
        assert!(timer.poll(&mut no_task()).is_pending());
    }

    /// Advances to a reading.
    pub fn advance(&mut self, reading: u64) {
        let timer = self.timer.as_mut().unwrap();
        timer.advance_to(Instant::of_nanos(reading));
    }

    /// A drain, then an advance.
    pub fn turn(&mut self, reading: u64) {
        self.drain();
        self.advance(reading);
    }

    /// Closes the set.
    pub fn close(&mut self) {
        self.timer = None;
    }
}

/// The context of a task that cannot be woken.
pub fn no_task() -> Context<'static> {
    Context::from_waker(Waker::noop())
}

/// A task that counts how often it is woken.
pub struct Task {
    pub woken: AtomicUsize,
}

impl Task {
    /// A task that was not woken yet.
    pub fn new() -> Arc<Task> {
        Arc::new(Task {
            woken: AtomicUsize::new(0),
        })
    }

    /// How often the task was woken.
    pub fn count(&self) -> usize {
        self.woken.load(SeqCst)
    }
}

impl Wake for Task {
    /// Counts the wake.
    fn wake(self: Arc<Self>) {
        self.woken.fetch_add(1, SeqCst);
    }
}

/// Polls a timer for a task.
pub fn poll_for(sleep: &mut Sleep, task: &Arc<Task>) -> Poll<()> {
    let waker = Waker::from(task.clone());
    Pin::new(sleep).poll(&mut Context::from_waker(&waker))
}

/// Polls a timer.
pub fn poll(sleep: &mut Sleep) -> Poll<()> {
    Pin::new(sleep).poll(&mut no_task())
}

/// Resets a timer.
pub fn reset(sleep: &mut Sleep, at: u64) {
    Pin::new(sleep).reset(Instant::of_nanos(at));
}

/// The state word of a timer that has its node still.
pub fn word(sleep: &Sleep) -> u32 {
    sleep.node().unwrap().state.load(SeqCst)
}

/// Sets the raw counter. What the intervals read comes from the static clock, which is made first, with base and start 0.
pub fn raw(counter: u64) {
    static ONCE: Once = Once::new();
    ONCE.call_once(|| {
        set_raw_counter(0);
        Instant::now();
    });
    set_raw_counter(counter);
}

/// An interval around a timer.
pub fn interval(sleep: Sleep, period: Duration, policy: MissedTickBehavior) -> Interval {
    let mut interval = Interval::around(sleep);
    interval.set_period(period);
    interval.set_missed_tick_behavior(policy);
    interval
}

/// Ticks at a reading.
pub fn tick(interval: &mut Interval, reading: u64) -> Poll<u128> {
    raw(reading);
    interval.poll_tick(&mut no_task()).map(|at| at.nanos())
}

/// The deadline of an interval's timer.
pub fn due(interval: &Interval) -> u128 {
    interval.timer().deadline().nanos()
}

/// The message with which something stops, or none where it does not.
pub fn stops<T>(act: impl FnOnce() -> T) -> Option<String> {
    let why = panic::catch_unwind(AssertUnwindSafe(act)).err()?;
    let text = why.downcast_ref::<String>().cloned();
    let text = text.or(why.downcast_ref::<&str>().map(|text| text.to_string()));
    Some(text.unwrap_or_default())
}
