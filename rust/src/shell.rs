//! What the shells have in common: one lock, what it guards, and the calls of a board that are made in a hold of it. A
//! shell adds who sleeps, and how those are woken whom a call has named.
mod calls;
mod handles;
mod items;
mod journal;
mod setup;

pub(crate) use calls::{builder_calls, calls_of_all, item_calls, queue_calls, shown};
pub(crate) use handles::{Own, QueueOf, Shell};
pub(crate) use items::Items;
pub(crate) use setup::{number_of_queue, place_of, spawn, workers_of, Setup};

use crate::error::{Error, Result};
use crate::ffi::{reply, Board, Call, Fault, Reply, Wakes, Who, CALLER};
use items::Slot;
use journal::MOST_FULL;
pub(crate) use journal::{Journal, QUIET};
use std::panic::{catch_unwind, AssertUnwindSafe};
use std::sync::{Condvar, Mutex, MutexGuard, PoisonError};
use std::time::Duration;

/// The user's own caller, whose calls are those that no run makes.
pub(crate) const OUTSIDE: Who = Who { kind: CALLER, index: 0, cpu: 0 };

/// What the lock guards: work functions of type `W`, and what the shell adds.
pub(crate) struct State<W, O> {
    pub(crate) board: Board,
    pub(crate) slots: Box<[Slot<W>]>,
    /// The numbers that no item has.
    free: Vec<u16>,
    /// The tick at which the clock looks next. 0: it asks the board.
    pub(crate) due: u64,
    /// Whether an item was ever delayed.
    pub(crate) has_timers: bool,
    /// Whether the shutdown has begun, and whether it is over.
    pub(crate) closing: bool,
    pub(crate) ended: bool,
    pub(crate) panics: usize,
    pub(crate) journal: Journal,
    pub(crate) own: O,
}

/// A state under its lock.
pub(crate) struct Guarded<W, O> {
    state: Mutex<State<W, O>>,
    /// Where the journal sleeps, and where those do who wait for it or for the end of all waits.
    pub(crate) journal: Condvar,
    pub(crate) space: Condvar,
}

impl<W, O> Guarded<W, O> {
    pub(crate) fn new(state: State<W, O>) -> Guarded<W, O> {
        Guarded { state: Mutex::new(state), journal: Condvar::new(), space: Condvar::new() }
    }

    #[inline]
    pub(crate) fn lock(&self) -> MutexGuard<'_, State<W, O>> {
        self.state.lock().unwrap_or_else(PoisonError::into_inner)
    }

    /// Takes the lock, once the journal has kept up.
    #[inline]
    pub(crate) fn enter(&self) -> MutexGuard<'_, State<W, O>> {
        let mut state = self.lock();
        while state.journal.full.len() >= MOST_FULL {
            state = self.space.wait(state).unwrap_or_else(PoisonError::into_inner);
        }
        state
    }
}

/// A hold of the lock. Those who are to be woken are woken once the lock is let go.
pub(crate) trait Hold {
    type Work;
    type Own;

    fn state(&mut self) -> &mut State<Self::Work, Self::Own>;

    /// Wakes those whom a call of the board has named.
    fn wake(&mut self, wakes: &Wakes);

    fn wake_clock(&mut self);

    fn wake_journal(&mut self);

    /// Who makes a call here that doesn't wait: the run that is going on, or the user's own caller.
    fn who(&mut self) -> Who;

    /// Whether an item may be queued or delayed here while the workqueues end.
    fn may_queue(&mut self) -> Result<()> {
        Err(Error::Closed)
    }

    /// The error of a fault of the board.
    fn error_of(&mut self, fault: Fault) -> Error {
        Error::of(fault)
    }

    /// Ends a call that has come to this: lets the lock go, and waits until the call is durable if it should.
    #[inline]
    fn settle<T>(self, made: Result<T>) -> Result<T>
    where
        Self: Sized,
    {
        made
    }

    /// Makes a call of the board. There is space for its entries, and for the ends of all waits that were left.
    #[inline]
    fn make<T>(&mut self, call: impl FnOnce(&mut Board, &mut Wakes) -> std::result::Result<T, Fault>) -> Result<T> {
        let mut wakes = Wakes::NOBODY;
        let state = self.state();
        if state.board.len() >= state.journal.next {
            state.hand_out();
            if state.journal.writes {
                self.wake_journal();
            }
        }
        let made = call(&mut self.state().board, &mut wakes);
        self.wake(&wakes);
        if wakes.clock() {
            self.look();
        }
        if !self.state().journal.armed {
            self.state().journal.armed = true;
            self.wake_journal();
        }
        made.map_err(|fault| self.error_of(fault))
    }

    /// The clock looks at the timers now.
    fn look(&mut self) {
        if self.state().has_timers {
            self.state().due = 0;
            self.wake_clock();
        }
    }

    /// A call of one entry by the user's own caller, of a queue or of all.
    fn call(&mut self, kind: u8, queue: u8, number: u32) -> Result<Reply> {
        let call = Call { kind, queue, number, ..Call::default() };
        self.make(|board, wakes| board.call(&call, wakes)).and_then(told)
    }

    /// Brings the board's time up to this tick, and fires what is due. A call of the board goes on for 2^32 - 1 ticks
    /// at most.
    fn advance(&mut self, now: u64) -> Result<u64> {
        loop {
            let ticks = now.saturating_sub(self.state().board.time());
            let ticks = u32::try_from(ticks).unwrap_or(u32::MAX);
            let time = self.make(|board, wakes| board.advance(0, ticks, wakes))?;
            if time >= now {
                return Ok(time);
            }
        }
    }

    /// Nobody makes an entry from now on. The journal writes what there is, and ends.
    fn end(&mut self) -> Left<Self::Work> {
        let _ = self.make(Board::fail);
        let state = self.state();
        state.hand_out();
        state.journal.over = true;
        state.ended = true;
        let left = Left {
            works: state.slots.iter_mut().filter_map(|slot| slot.work.take()).collect(),
            not_run: (0..state.slots.len() as u16).filter(|item| state.board.item(*item).pending != 0).count(),
            panics: state.panics,
        };
        self.wake_journal();
        left
    }
}

/// The error of a reply that says that nothing was done.
pub(crate) fn told(reply: Reply) -> Result<Reply> {
    Err(match reply.kind {
        reply::FOREIGN => Error::Foreign,
        reply::DRAINING => Error::Draining,
        reply::GONE => Error::Gone,
        reply::TIMERS => Error::Timers,
        reply::CROWD => Error::TooManyWaits,
        reply::MISUSE => Error::Invalid("a call of a run that sleeps"),
        _ => return Ok(reply),
    })
}

/// What there is at the end.
#[must_use]
pub(crate) struct Left<W> {
    works: Vec<W>,
    /// How many items are still pending.
    not_run: usize,
    /// How many work functions have panicked.
    panics: usize,
}

impl<W> Left<W> {
    /// What is still pending is kept for the next life.
    pub(crate) fn kept(self) -> Self {
        Left { not_run: 0, ..self }
    }

    /// Drops the work functions, without the lock. Returns what the shutdown does where the history was written.
    pub(crate) fn discard(self) -> Result<()> {
        self.works.into_iter().for_each(|work| _ = discard(work));
        match (self.not_run, self.panics) {
            (0, 0) => Ok(()),
            (0, panics) => Err(Error::Panicked(panics)),
            (not_run, _) => Err(Error::NotRun(not_run)),
        }
    }
}

/// The unit of delays.
#[derive(Clone, Copy)]
pub(crate) struct Tick(pub(crate) Duration);

/// The tick that has begun last, and the one for which a delay is set.
pub(crate) struct Ticks {
    pub(crate) now: u64,
    pub(crate) due: u64,
}

impl Tick {
    /// The ticks of a delay that begins at this time. None: it is no delay.
    pub(crate) fn delay(self, now: Duration, delay: Duration) -> Option<Ticks> {
        let due = now.saturating_add(delay).as_nanos().div_ceil(self.0.as_nanos());
        let due = u64::try_from(due).unwrap_or(u64::MAX);
        (!delay.is_zero()).then(|| Ticks { now: self.last(now), due })
    }

    /// The tick that has begun last at this time.
    pub(crate) fn last(self, now: Duration) -> u64 {
        (now.as_nanos() / self.0.as_nanos()) as u64
    }

    /// When this tick begins.
    pub(crate) fn begins(self, tick: u64) -> Duration {
        let nanos = u128::from(tick).saturating_mul(self.0.as_nanos());
        Duration::from_nanos(u64::try_from(nanos).unwrap_or(u64::MAX))
    }
}

/// How many panics of drops are dropped in turn. What panics whenever it is dropped is never dropped then.
const MOST_DROPS: usize = 16;

/// Drops what users made, which may panic with what may panic itself when it is dropped. The lock is not held. Returns
/// whether it has panicked.
pub(crate) fn discard<T>(value: T) -> bool {
    let mut left = catch_unwind(AssertUnwindSafe(|| drop(value))).err();
    let panicked = left.is_some();
    for _ in 0..MOST_DROPS {
        let Some(payload) = left else {
            return panicked;
        };
        left = catch_unwind(AssertUnwindSafe(|| drop(payload))).err();
    }
    std::mem::forget(left);
    panicked
}
