//! A set of timers on the Rust: one `Timer`, one upgraded `Inner`, and for each place the `Interval` whose `Sleep` is its timer.
//!
//! Places, use numbers, adds and cancels are the project's own, so they are kept here. The refusals are decided here too, from the
//! table of the rules, and a call that is refused is not made on the Rust. All else is done by the Rust text and read from it.
//!
//! Differences that are levelled out here:
//! - A cancelled timer that an advance pops before its drain is woken by the Rust. It is not among the reports.
//! - A poll that is gone panics in the Rust. The panic is caught and is the answer 2.
//! - After a close the Rust's timers keep their slots. `slot_of` says none.

use crate::answer::{refusal, refuse_if, sum, Answer, Given};
use crate::capacity::CAP;
use crate::panics::unless_it_panics;
use crate::record::{Handle, Policy};
use std::pin::Pin;
use std::sync::atomic::Ordering::SeqCst;
use std::sync::Arc;
use std::task::{Context, Poll, Waker};
use std::time::Duration;
use wasmtimer::js::set_raw_counter;
use wasmtimer::notes;
use wasmtimer::prelude::Future;
use wasmtimer::std::Instant;
use wasmtimer::timer::arc_list::Node;
use wasmtimer::timer::{Inner, ScheduledTimer, Timer};
use wasmtimer::tokio::{Interval, MissedTickBehavior, Sleep};

/// A tick is late where the reading is more than this above the deadline.
const LATE_AFTER: u128 = 5_000_000;

/// The Rust's own part of a timer.
pub type Shared = Arc<Node<ScheduledTimer>>;

/// What stands in a place.
pub enum Life {
    Free,
    Live { interval: Interval, shared: Shared },
    Cancelled { shared: Shared },
    Retired,
}

/// A place: how many timers had it before, and what stands there.
pub struct Place {
    pub uses: u32,
    pub life: Life,
}

/// A set of timers; a closed one has no `Timer` any more.
pub struct Set {
    timer: Option<Timer>,
    inner: Arc<Inner>,
    pub places: Vec<Place>,
}

impl Place {
    /// A place that nobody had yet.
    fn fresh() -> Place {
        Place {
            uses: 0,
            life: Life::Free,
        }
    }

    /// The Rust's part of the timer that stands here, live or cancelled.
    pub fn shared(&self) -> Option<&Shared> {
        match &self.life {
            Life::Live { shared, .. } | Life::Cancelled { shared } => Some(shared),
            Life::Free | Life::Retired => None,
        }
    }

    /// The Rust's `Sleep` of the live timer that stands here.
    fn sleep(&self) -> Option<&Sleep> {
        match &self.life {
            Life::Live { interval, .. } => Some(interval.timer()),
            _ => None,
        }
    }

    /// Frees a cancelled place that a drain has reached, or retires it where its use numbers have run out.
    fn leave_if_drained(&mut self) {
        let drained = matches!(&self.life, Life::Cancelled { shared } if !shared.is_enqueued());
        if !drained {
            return;
        }
        match self.uses.checked_add(1) {
            Some(uses) => {
                self.uses = uses;
                self.life = Life::Free;
            }
            None => self.life = Life::Retired,
        }
    }
}

/// The state word of a timer.
pub fn word_of(shared: &Shared) -> u32 {
    shared.state.load(SeqCst)
}

/// The deadline that the Rust's part of a timer has.
pub fn due_of(shared: &Shared) -> Option<u128> {
    shared.at.lock().unwrap().map(|at| at.nanos())
}

/// How long a `Sleep` has to go at a reading, by the deadline that it keeps. The numbers are so wide that nothing wraps.
fn left(sleep: &Sleep, reading: u64) -> i128 {
    sleep.deadline().nanos() as i128 - i128::from(reading)
}

/// A number of 64 bits with a sign; any other is refused with 6.
fn signed(left: i128) -> Result<i64, u32> {
    i64::try_from(left).map_err(|_| refusal::TIME_OVERFLOW)
}

/// The Rust's name for a policy.
fn behavior(policy: Policy) -> MissedTickBehavior {
    match policy {
        Policy::Burst => MissedTickBehavior::Burst,
        Policy::Delay => MissedTickBehavior::Delay,
        Policy::Skip => MissedTickBehavior::Skip,
    }
}

/// Refuses a tick of a fired timer by rules 9 and 6. The test for lateness is made in wider numbers, so it does not wrap.
fn tick_refusal(due: u64, policy: Policy, period: u64, reading: u64) -> Result<(), u32> {
    let late = u128::from(reading) > u128::from(due) + LATE_AFTER;
    let no_period = late && policy == Policy::Skip && period == 0;
    refuse_if(no_period, refusal::ZERO_PERIOD)?;
    let from = if late && policy != Policy::Burst {
        reading
    } else {
        due
    };
    sum(from, period)?;
    Ok(())
}

impl Set {
    /// A fresh set. The reading that the Rust's intervals take comes from its static clock, which is made here with base and start
    /// 0, so that a reading is the raw counter that is handed in.
    pub fn fresh() -> Set {
        make_static_clock();
        let timer = Timer::new();
        let inner = timer.handle().inner.upgrade().expect("the timer is there");
        Set {
            timer: Some(timer),
            inner,
            places: (0..CAP).map(|_| Place::fresh()).collect(),
        }
    }

    /// Whether the set is closed.
    pub fn is_closed(&self) -> bool {
        self.timer.is_none()
    }

    /// The `Timer` of an open set; a closed one is refused with 2.
    fn open(&mut self) -> Result<&mut Timer, u32> {
        self.timer.as_mut().ok_or(refusal::CLOSED)
    }

    /// The interval and the Rust's part of a live handle; a dead one is refused with 3.
    fn live(&mut self, handle: Handle) -> Result<(&mut Interval, &Shared), u32> {
        match self.places.get_mut(usize::from(handle.place)) {
            Some(Place {
                uses,
                life: Life::Live { interval, shared },
            }) if *uses == handle.uses => Ok((interval, shared)),
            _ => Err(refusal::DEAD_HANDLE),
        }
    }

    /// The timers in the waiting list, by their places, from its head.
    pub fn waiting(&self) -> Vec<usize> {
        let nodes = self.inner.list.nodes();
        nodes.iter().map(|node| self.place_of(*node)).collect()
    }

    /// The place where a timer of the Rust stands.
    pub fn place_of(&self, node: *const Node<ScheduledTimer>) -> usize {
        let here = |place: &Place| place.shared().is_some_and(|s| Arc::as_ptr(s) == node);
        self.places.iter().position(here).expect("a timer known")
    }

    /// The entries of the heap: deadline, generation, place and slot. A closed set has none.
    pub fn entries(&self) -> Vec<(u128, u32, usize, usize)> {
        let entries = self.timer.as_ref().map(Timer::entries).unwrap_or_default();
        let seen = entries.iter();
        seen.map(|e| (e.at.nanos(), e.gen, self.place_of(e.node), e.slot))
            .collect()
    }

    /// The slot that a timer names. The Rust's close leaves slots set; by the rules they are forgotten.
    pub fn slot_of(&self, shared: &Shared) -> Option<usize> {
        if self.is_closed() {
            return None;
        }
        let slot = shared.slot.lock().unwrap();
        slot.as_ref().map(|slot| slot.number())
    }

    /// The next wake; of a closed set none.
    pub fn wake(&self) -> Option<u128> {
        let event = self.timer.as_ref().and_then(Timer::next_event);
        event.map(|at| at.nanos())
    }

    /// How long a live timer has to go at a reading, fired or not.
    pub fn time_left(&self, handle: Handle, reading: u64) -> Result<i64, u32> {
        refuse_if(self.is_closed(), refusal::CLOSED)?;
        let place = self.places.get(usize::from(handle.place));
        let own = place.filter(|place| place.uses == handle.uses);
        let sleep = own.and_then(Place::sleep).ok_or(refusal::DEAD_HANDLE)?;
        signed(left(sleep, reading))
    }

    /// The least that any live timer has to go whose `Sleep` has not elapsed, or none.
    pub fn least_left(&self, reading: u64) -> Result<Option<i64>, u32> {
        refuse_if(self.is_closed(), refusal::CLOSED)?;
        let live = self.places.iter().filter_map(Place::sleep);
        let pending = live.filter(|sleep| !sleep.is_elapsed());
        let least = pending.map(|sleep| left(sleep, reading)).min();
        least.map(signed).transpose()
    }

    /// Adds a timer in the lowest free place.
    pub fn add(&mut self, deadline: u64) -> Answer {
        let handle = self.open()?.handle();
        let free = |place: &Place| matches!(place.life, Life::Free);
        let lowest = self.places.iter().position(free).ok_or(refusal::FULL)?;
        let sleep = Sleep::new_handle(Instant::of_nanos(deadline), handle);
        let shared = sleep.node().expect("an open set takes the timer");
        let place = &mut self.places[lowest];
        place.life = Life::Live {
            interval: Interval::around(sleep),
            shared,
        };
        Ok(Given::Handle(Handle {
            place: lowest as u16,
            uses: place.uses,
        }))
    }

    /// Resets a timer.
    pub fn reset(&mut self, handle: Handle, deadline: u64) -> Answer {
        self.open()?;
        let (interval, _) = self.live(handle)?;
        Pin::new(interval.timer_mut()).reset(Instant::of_nanos(deadline));
        Ok(Given::Nothing)
    }

    /// Cancels a timer: its `Sleep` is dropped, which makes the deadline none and pushes the timer on the list.
    pub fn cancel(&mut self, handle: Handle) -> Answer {
        self.open()?;
        let (_, shared) = self.live(handle)?;
        let shared = shared.clone();
        self.places[usize::from(handle.place)].life = Life::Cancelled { shared };
        Ok(Given::Nothing)
    }

    /// Drains: polls the `Timer`, then frees the cancelled places that the drain has reached.
    pub fn drain(&mut self) -> Answer {
        let timer = self.open()?;
        let polled = Pin::new(timer).poll(&mut Context::from_waker(Waker::noop()));
        assert!(polled.is_pending(), "a Timer never ends");
        self.places.iter_mut().for_each(Place::leave_if_drained);
        Ok(Given::Nothing)
    }

    /// Advances to a reading. Who is woken is reported, but for cancelled timers.
    pub fn advance(&mut self, reading: u64) -> Answer {
        notes::take();
        self.open()?.advance_to(Instant::of_nanos(reading));
        let notes = notes::take();
        let woken = notes.woken.iter();
        Ok(Given::Reports {
            popped: notes.pops,
            handles: woken.filter_map(|waker| self.reported(*waker)).collect(),
        })
    }

    /// The handle that is reported where a waker is called: none for a cancelled timer.
    fn reported(&self, waker: u64) -> Option<Handle> {
        let named = |place: &Place| place.shared().is_some_and(|s| s.waker.number() == waker);
        let index = self.places.iter().position(named).expect("a timer known");
        let place = &self.places[index];
        let handle = Handle {
            place: index as u16,
            uses: place.uses,
        };
        matches!(place.life, Life::Live { .. }).then_some(handle)
    }

    /// A drain, then an advance.
    pub fn turn(&mut self, reading: u64) -> Answer {
        self.drain()?;
        self.advance(reading)
    }

    /// Answers the next wake.
    pub fn next_wake(&self) -> Answer {
        Ok(Given::Wake(self.wake()))
    }

    /// Polls a timer: 0 pending, 1 fired, 2 gone.
    pub fn poll(&mut self, handle: Handle) -> Answer {
        let (interval, _) = self.live(handle)?;
        let sleep = Pin::new(interval.timer_mut());
        let mut context = Context::from_waker(Waker::noop());
        let polled = unless_it_panics("Timer has gone away", || sleep.poll(&mut context));
        Ok(Given::Poll(match polled {
            Some(Poll::Pending) => 0,
            Some(Poll::Ready(())) => 1,
            None => 2,
        }))
    }

    /// Closes the set: its `Timer` is dropped, and the `Inner` kept.
    pub fn close(&mut self) -> Answer {
        self.open()?;
        self.timer = None;
        assert!(self.inner.list.is_sealed(), "a close seals the list");
        Ok(Given::Nothing)
    }

    /// Ticks: the Rust's `poll_tick` with the period and the policy given, at the reading given.
    pub fn tick(&mut self, handle: Handle, policy: Policy, period: u64, reading: u64) -> Answer {
        self.open()?;
        let (interval, _) = self.live(handle)?;
        refuse_if(!interval.timer().is_elapsed(), refusal::NOT_FIRED)?;
        let due = interval.timer().deadline().nanos() as u64;
        tick_refusal(due, policy, period, reading)?;
        interval.set_period(Duration::from_nanos(period));
        interval.set_missed_tick_behavior(behavior(policy));
        set_raw_counter(reading);
        match interval.poll_tick(&mut Context::from_waker(Waker::noop())) {
            Poll::Ready(at) => Ok(Given::Deadline(at.nanos())),
            Poll::Pending => panic!("a fired timer ticks"),
        }
    }

    /// Resets an interval, fired or not.
    pub fn restart(&mut self, handle: Handle, period: u64, reading: u64) -> Answer {
        self.open()?;
        let (interval, _) = self.live(handle)?;
        sum(reading, period)?;
        interval.set_period(Duration::from_nanos(period));
        set_raw_counter(reading);
        interval.reset();
        Ok(Given::Nothing)
    }

    /// For tests alone: sets the state word of a timer, with the invalid bit cleared.
    pub fn set_word(&mut self, handle: Handle, word: u64) -> Answer {
        self.open()?;
        let (_, shared) = self.live(handle)?;
        shared.state.store(word as u32 & !0b10, SeqCst);
        Ok(Given::Nothing)
    }
}

/// Makes the Rust's static clock at raw 0, once for the whole program.
fn make_static_clock() {
    static ONCE: std::sync::Once = std::sync::Once::new();
    ONCE.call_once(|| {
        set_raw_counter(0);
        Instant::now();
    });
}
