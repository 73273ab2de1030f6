//! Time: a task sleeps by a clock until the next timer is due.
use super::hub::Hub;
use crate::shell::{Hold as _, Shell};
use std::collections::BTreeMap;
use std::fmt;
use std::future::{poll_fn, Future};
use std::pin::Pin;
use std::sync::{Arc, Condvar, Mutex, MutexGuard, PoisonError};
use std::task::{Context, Poll, Waker};
use std::thread;
use std::time::{Duration, Instant};

/// A future that ends at a time.
pub type Until = Pin<Box<dyn Future<Output = ()> + Send>>;

/// The time of a runtime. With that of tokio, delays need no thread:
///
/// ```ignore
/// struct Tokio(tokio::time::Instant);
///
/// impl cmwq::aio::Clock for Tokio {
///     fn now(&self) -> Duration {
///         self.0.elapsed()
///     }
///     fn until(&self, when: Duration) -> cmwq::aio::Until {
///         Box::pin(tokio::time::sleep_until(self.0 + when))
///     }
/// }
/// ```
pub trait Clock: Send + Sync + 'static {
    /// The time since a point that stays the same.
    fn now(&self) -> Duration;

    /// A future that ends when it is this time, or later. It is made and polled in a task of the workqueues.
    fn until(&self, when: Duration) -> Until;
}

#[derive(Default)]
struct Timers {
    numbers: u64,
    wakers: BTreeMap<(Duration, u64), Waker>,
    has_thread: bool,
    is_over: bool,
}

#[derive(Default)]
struct Shared {
    timers: Mutex<Timers>,
    condvar: Condvar,
}

impl Shared {
    fn lock(&self) -> MutexGuard<'_, Timers> {
        self.timers.lock().unwrap_or_else(PoisonError::into_inner)
    }

    /// What the thread does.
    fn keep(&self, begun: Instant) {
        let mut timers = self.lock();
        while !timers.is_over {
            let Some((&(when, _), _)) = timers.wakers.first_key_value() else {
                timers = self.condvar.wait(timers).unwrap_or_else(PoisonError::into_inner);
                continue;
            };
            let left = when.saturating_sub(begun.elapsed());
            if left.is_zero() {
                let first = timers.wakers.pop_first();
                drop(timers);
                if let Some((_, waker)) = first {
                    waker.wake();
                }
                timers = self.lock();
            } else {
                timers = self.condvar.wait_timeout(timers, left).unwrap_or_else(PoisonError::into_inner).0;
            }
        }
    }
}

/// The clock of a thread. It is started when something is waited for first, and ends with the clock.
pub struct ThreadClock {
    begun: Instant,
    shared: Arc<Shared>,
}

impl Default for ThreadClock {
    fn default() -> Self {
        ThreadClock { begun: Instant::now(), shared: Arc::default() }
    }
}

impl Clock for ThreadClock {
    fn now(&self) -> Duration {
        self.begun.elapsed()
    }

    fn until(&self, when: Duration) -> Until {
        Box::pin(Timer { begun: self.begun, when, number: None, shared: self.shared.clone() })
    }
}

impl Drop for ThreadClock {
    fn drop(&mut self) {
        self.shared.lock().is_over = true;
        self.shared.condvar.notify_one();
    }
}

impl fmt::Debug for ThreadClock {
    fn fmt(&self, f: &mut fmt::Formatter<'_>) -> fmt::Result {
        f.debug_struct("ThreadClock").finish_non_exhaustive()
    }
}

struct Timer {
    begun: Instant,
    when: Duration,
    number: Option<u64>,
    shared: Arc<Shared>,
}

impl Future for Timer {
    type Output = ();

    /// # Panics
    /// If the thread can't be started.
    fn poll(mut self: Pin<&mut Self>, cx: &mut Context<'_>) -> Poll<()> {
        if self.begun.elapsed() >= self.when {
            return Poll::Ready(());
        }
        let (shared, begun, when) = (self.shared.clone(), self.begun, self.when);
        let mut timers = shared.lock();
        let number = *self.number.get_or_insert_with(|| {
            timers.numbers += 1;
            timers.numbers
        });
        let old = timers.wakers.insert((when, number), cx.waker().clone());
        let is_first = timers.wakers.first_key_value().is_some_and(|(first, _)| *first == (when, number));
        if !std::mem::replace(&mut timers.has_thread, true) {
            let own = shared.clone();
            let started = thread::Builder::new().name("cmwq clock".to_owned()).spawn(move || own.keep(begun));
            started.expect("a thread for the clock");
        } else if is_first {
            shared.condvar.notify_one();
        }
        drop(timers);
        drop(old);
        Poll::Pending
    }
}

impl Drop for Timer {
    fn drop(&mut self) {
        if let Some(number) = self.number {
            let old = self.shared.lock().wakers.remove(&(self.when, number));
            drop(old);
        }
    }
}

/// Fails the hub if the task that has it is dropped.
struct Guard(Option<Arc<Hub>>);

impl Drop for Guard {
    fn drop(&mut self) {
        if let Some(hub) = self.0.take() {
            let mut hold = hub.hold();
            if !hold.state.closing {
                hold.fail();
            }
        }
    }
}

/// What the task does that keeps time. It ends with the shutdown, or where there is no room for more time.
pub(super) fn keep_time(hub: Arc<Hub>) -> impl Future<Output = ()> + Send {
    let guard = Guard(Some(hub.clone()));
    async move {
        let (mut guard, mut sleep) = (guard, None);
        poll_fn(|cx| hub.keeps_time(&mut sleep, cx)).await;
        guard.0 = None;
    }
}

impl Hub {
    /// Fires what is due, and sleeps until the next timer, whose tick is kept with the future.
    fn keeps_time(&self, sleep: &mut Option<(u64, Until)>, cx: &mut Context<'_>) -> Poll<()> {
        loop {
            let now = self.elapsed();
            let mut hold = self.hold();
            if hold.state.closing || hold.state.ended {
                return Poll::Ready(());
            }
            if hold.state.due == 0 {
                hold.state.due = hold.state.board.due();
            }
            let due = hold.state.due;
            let at = self.tick.begins(due);
            if at <= now {
                hold.state.due = 0;
                if hold.advance(self.tick.last(now).max(due)).is_err() {
                    return Poll::Ready(());
                }
                continue;
            }
            hold.keep(|own| &mut own.clock, cx.waker());
            drop(hold);
            if due == u64::MAX {
                *sleep = None;
                return Poll::Pending;
            }
            if !sleep.as_ref().is_some_and(|(own, _)| *own == due) {
                *sleep = Some((due, self.clock.until(self.begun.saturating_add(at))));
            }
            if sleep.as_mut().is_some_and(|(_, until)| until.as_mut().poll(cx).is_pending()) {
                return Poll::Pending;
            }
            *sleep = None;
        }
    }
}
