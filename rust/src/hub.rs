//! The shell with threads: a condition variable for each party, a thread for each worker, and a clock. It locks, makes
//! calls of the board, unlocks, and wakes those whom the board has named. What is to be done is decided by the board.
mod clock;
pub(crate) mod durable;

use crate::error::{Error, Result};
use crate::ffi::{call, reply, status, Begun, Call, Ended, Fault, Reply, Shape, Start, Wakes, Who, CALLER};
use crate::shell::{discard, place_of, told, workers_of};
use crate::shell::{Guarded, Hold as _, Items, Left, Shell, State, Tick, Ticks, OUTSIDE};
use crate::Sync;
use durable::Progress;
use std::cell::Cell;
use std::collections::HashMap;
use std::hint::spin_loop;
use std::io::{self, Write};
use std::panic::{catch_unwind, AssertUnwindSafe};
use std::sync::atomic::{AtomicBool, AtomicU32, Ordering::Acquire, Ordering::Relaxed, Ordering::Release};
use std::sync::{Arc, Condvar, MutexGuard, PoisonError};
use std::time::{Duration, Instant};

pub(crate) type Work = Box<dyn FnMut(&mut crate::Run<'_>) + Send>;

/// Where a party sleeps. All but `condvar` is set under the lock.
#[derive(Default)]
struct Place {
    named: AtomicBool,
    blocked: AtomicBool,
    /// How often it has blocked since a spin last helped.
    in_vain: AtomicU32,
    condvar: Condvar,
}

/// What the lock guards beside what all shells have.
#[derive(Default)]
pub(crate) struct Own {
    /// How many calls wait.
    waits: usize,
    /// Nothing starts any more, and what is left is kept for the next life.
    keeps: bool,
    disk: Progress,
}

/// An item that the builder names.
pub(crate) struct Named {
    pub(crate) number: u16,
    pub(crate) queue: u8,
    pub(crate) cpu: u8,
}

/// What durable workqueues have beside others.
pub(crate) struct Durable {
    sync: Sync,
    /// Where those sleep who wait for whoever writes.
    written: Condvar,
}

impl Durable {
    pub(crate) fn new(sync: Sync) -> Durable {
        Durable { sync, written: Condvar::new() }
    }
}

/// The shell of a board.
pub(crate) struct Hub {
    guarded: Guarded<Work, Own>,
    /// Of the workers, and then of the callers.
    places: Box<[Place]>,
    clock: Condvar,
    shape: Shape,
    begun: Instant,
    tick: Tick,
    spins: u32,
    pub(crate) named: HashMap<String, Named>,
    durable: Option<Durable>,
    /// Whether each call of no run waits until it is durable.
    each: bool,
}

thread_local! {
    /// The hub and the worker of the run that this thread is in, and whether that run sleeps.
    static RUN: Cell<Option<(*const Hub, Who, bool)>> = const { Cell::new(None) };
    /// The hub whose thread this is.
    static OWNER: Cell<*const Hub> = const { Cell::new(std::ptr::null()) };
    /// The run that this thread is in was broken off, since its wait was.
    static BROKEN: Cell<bool> = const { Cell::new(false) };
}

/// Those who are to be woken. They are, when this is dropped.
struct Woken<'a> {
    hub: &'a Hub,
    places: [u16; 16],
    count: usize,
    all: bool,
    clock: bool,
    journal: bool,
}

impl Woken<'_> {
    fn is_empty(&self) -> bool {
        self.count == 0 && !self.all && !self.clock && !self.journal
    }

    /// Under the lock: marks those who are named, and keeps those of them who are blocked.
    #[inline]
    fn add(&mut self, wakes: &Wakes) {
        for worker in wakes.workers() {
            self.add_place(place_of(&self.hub.shape, worker));
        }
        for caller in wakes.callers() {
            self.add_place(self.hub.place_of_caller(*caller));
        }
        if wakes.all() {
            self.all = true;
            self.hub.places.iter().for_each(|place| place.named.store(true, Release));
        }
    }

    fn add_all(&mut self) {
        self.all = true;
        self.hub.places.iter().for_each(|place| place.named.store(true, Release));
    }

    fn add_place(&mut self, at: usize) {
        let place = &self.hub.places[at];
        place.named.store(true, Release);
        if place.blocked.load(Relaxed) {
            match self.places.get_mut(self.count) {
                Some(to) => *to = at as u16,
                None => self.all = true,
            }
            self.count += 1;
        }
    }
}

impl Drop for Woken<'_> {
    #[inline]
    fn drop(&mut self) {
        let hub = self.hub;
        if self.all {
            hub.places.iter().for_each(|place| place.condvar.notify_one());
        } else {
            self.places[..self.count].iter().for_each(|at| hub.places[usize::from(*at)].condvar.notify_one());
        }
        if self.clock {
            hub.clock.notify_one();
        }
        if self.journal {
            hub.guarded.journal.notify_one();
        }
    }
}

/// A hold of the lock. When it is dropped, first the lock is let go, and then those are woken who were named.
pub(crate) struct Hold<'a> {
    state: MutexGuard<'a, State<Work, Own>>,
    woken: Woken<'a>,
}

impl crate::shell::Hold for Hold<'_> {
    type Work = Work;
    type Own = Own;

    #[inline]
    fn state(&mut self) -> &mut State<Work, Own> {
        &mut self.state
    }

    #[inline]
    fn wake(&mut self, wakes: &Wakes) {
        self.woken.add(wakes);
    }

    fn wake_clock(&mut self) {
        self.woken.clock = true;
    }

    fn wake_journal(&mut self) {
        self.woken.journal = true;
    }

    #[inline]
    fn who(&mut self) -> Who {
        self.woken.hub.who(false)
    }

    /// While the workqueues are left, runs queue what the next life has.
    fn may_queue(&mut self) -> Result<()> {
        match self.state.own.keeps && !self.state.ended {
            true if self.woken.hub.is_in_run() => Ok(()),
            true if self.state.own.disk.failed.is_none() => Err(Error::Stopped),
            _ => Err(self.error_of(status::CLOSED)),
        }
    }

    #[cold]
    fn error_of(&mut self, fault: Fault) -> Error {
        match (Error::of(fault), &self.state.own.disk.failed) {
            (Error::Closed, Some(why)) => Error::DiskFailed(why.clone()),
            (error, _) => error,
        }
    }

    #[inline]
    fn settle<T>(self, made: Result<T>) -> Result<T> {
        let hub = self.woken.hub;
        if hub.each {
            return hub.settle_each(self, made);
        }
        made
    }
}

impl<'a> Hold<'a> {
    /// The wait by this caller is left. A run that was awake before is awake again.
    fn leaves(&mut self, party: u8, who: Who) -> Result<()> {
        self.make(|board, wakes| board.leave(party, wakes))?;
        if who.kind != CALLER && RUN.get().is_some_and(|(_, _, sleeps)| !sleeps) {
            let wake = Call { kind: call::WAKE, who, ..Call::default() };
            self.make(|board, wakes| board.call(&wake, wakes))?;
        }
        Ok(())
    }

    /// A call that waited is over.
    fn is_over(&mut self) {
        self.state.own.waits -= 1;
        if self.state.closing && self.state.own.waits == 0 {
            self.woken.hub.guarded.space.notify_all();
        }
    }

    /// The wait by this caller is left, since nothing starts any more. A run that waits sleeps on, and is broken off.
    fn breaks_off(&mut self, party: u8, who: Who) -> Error {
        if who.kind != CALLER {
            BROKEN.set(true);
            RUN.set(Some((self.woken.hub, who, true)));
        }
        match self.make(|board, wakes| board.leave(party, wakes)) {
            Ok(()) => Error::Stopped,
            Err(why) => why,
        }
    }

    /// Sleeps as this party, which the board has just told to sleep, until it is named or the deadline has passed.
    fn sleep(self, at: usize, deadline: Option<Instant>) -> Hold<'a> {
        let Hold { mut state, woken } = self;
        let hub = woken.hub;
        let place = &hub.places[at];
        place.named.store(false, Relaxed);
        let in_vain = place.in_vain.load(Relaxed);
        let spins = if in_vain < 4 || in_vain % 64 == 0 { hub.spins } else { 0 };
        if spins > 0 || !woken.is_empty() {
            drop(state);
            drop(woken);
            for _ in 0..spins {
                if place.named.load(Acquire) {
                    break;
                }
                spin_loop();
            }
            state = hub.guarded.lock();
        }
        let helped = place.named.load(Relaxed);
        place.in_vain.store(if helped { 0 } else { in_vain.wrapping_add(1) }, Relaxed);
        place.blocked.store(true, Relaxed);
        while !place.named.load(Relaxed) {
            let Some(deadline) = deadline else {
                state = place.condvar.wait(state).unwrap_or_else(PoisonError::into_inner);
                continue;
            };
            let left = deadline.saturating_duration_since(Instant::now());
            if left.is_zero() {
                break;
            }
            state = place.condvar.wait_timeout(state, left).unwrap_or_else(PoisonError::into_inner).0;
        }
        place.blocked.store(false, Relaxed);
        hub.hold_of(state)
    }
}

impl Shell for Hub {
    type Work = Work;
    type Hold<'a> = Hold<'a>;

    #[inline]
    fn hold(&self) -> Hold<'_> {
        self.hold_of(self.guarded.enter())
    }

    fn cpus(&self) -> u8 {
        self.shape.cpus
    }

    fn ticks(&self, delay: Duration) -> Option<Ticks> {
        self.tick.delay(self.begun.elapsed(), delay)
    }
}

impl Hub {
    pub(crate) fn new(state: State<Work, Own>, shape: Shape, tick: Tick, spins: u32) -> Hub {
        let parties = workers_of(&shape) + usize::from(shape.callers);
        Hub {
            guarded: Guarded::new(state),
            places: (0..parties).map(|_| Place::default()).collect(),
            clock: Condvar::new(),
            shape,
            begun: Instant::now(),
            tick,
            spins,
            named: HashMap::new(),
            durable: None,
            each: false,
        }
    }

    /// These items have names.
    pub(crate) fn names(self, named: HashMap<String, Named>) -> Hub {
        Hub { named, ..self }
    }

    /// It is durable, and maybe each of its calls is.
    pub(crate) fn lasts(self, durable: Durable, each: bool) -> Hub {
        Hub { durable: Some(durable), each, ..self }
    }

    pub(crate) fn is_durable(&self) -> bool {
        self.durable.is_some()
    }

    fn place_of_caller(&self, caller: u8) -> usize {
        workers_of(&self.shape) + usize::from(caller)
    }

    #[inline]
    fn hold_of<'a>(&'a self, state: MutexGuard<'a, State<Work, Own>>) -> Hold<'a> {
        let woken = Woken { hub: self, places: [0; 16], count: 0, all: false, clock: false, journal: false };
        Hold { state, woken }
    }

    /// Whose calls this thread makes: those of the run that it is in, and else those of the user's own caller. A run
    /// that sleeps makes no calls but waits.
    #[inline]
    pub(crate) fn who(&self, waits: bool) -> Who {
        match RUN.get() {
            Some((hub, worker, sleeps)) if std::ptr::eq(hub, self) && (waits || !sleeps) => worker,
            _ => OUTSIDE,
        }
    }

    /// Whether this thread is in a run of this hub.
    fn is_in_run(&self) -> bool {
        RUN.get().is_some_and(|(hub, ..)| std::ptr::eq(hub, self))
    }

    /// This thread is one of the hub's.
    pub(crate) fn enter(&self) {
        OWNER.set(self);
    }

    /// Whether this thread is one of the hub's, which can't join itself.
    pub(crate) fn is_own_thread(&self) -> bool {
        std::ptr::eq(OWNER.get(), self)
    }

    /// A call that waits. Returns the reply with which it began.
    pub(crate) fn wait(&self, kind: u8, item: u16, queue: u8, timeout: Option<Duration>) -> Result<Reply> {
        let call = Call { kind, item, queue, who: self.who(true), ..Call::default() };
        if call.who.kind == CALLER && self.is_own_thread() {
            return Err(Error::Itself); // what a work function has captured waits when a worker drops it
        }
        let deadline = timeout.and_then(|timeout| Instant::now().checked_add(timeout));
        let mut hold = self.hold();
        let (party, reply) = match hold.make(|board, wakes| board.begin(&call, wakes))? {
            Begun::Ended(reply) => return hold.settle(told(reply)),
            Begun::Waits(party, reply) => (party, reply),
        };
        hold.state.own.waits += 1;
        let ended = loop {
            match hold.make(|board, wakes| board.end(party, wakes)) {
                Ok(Ended::Waits) if hold.state.own.keeps => break Err(hold.breaks_off(party, call.who)),
                Ok(Ended::Waits | Ended::LookAgain) if deadline.is_some_and(|it| it <= Instant::now()) => {
                    break hold.leaves(party, call.who).and(Err(Error::TimedOut));
                }
                Ok(Ended::Waits) => hold = hold.sleep(self.place_of_caller(party), deadline),
                Ok(Ended::LookAgain) => {
                    drop(hold);
                    hold = self.hold();
                }
                Ok(Ended::Done) => break Ok(reply),
                Ok(Ended::Over) => break Err(hold.error_of(status::OVER)),
                Err(fault) => break Err(fault),
            }
        };
        hold.is_over();
        hold.settle(ended)
    }

    /// What a worker's thread does.
    pub(crate) fn work(self: &Arc<Hub>, worker: Who) {
        let mut hold = self.hold();
        while !hold.state.own.keeps {
            match hold.make(|board, wakes| board.start(&worker, wakes)) {
                Ok(Start::Runs(item)) => {
                    let slot = &mut hold.state.slots[usize::from(item)];
                    let (work, queue) = (slot.work.take(), slot.queue);
                    drop(hold);
                    let (work, panicked) = self.run(worker, item, queue, work);
                    if BROKEN.get() {
                        return self.break_off(item, work, panicked);
                    }
                    hold = self.finish(worker, item, work, panicked);
                }
                Ok(Start::Rests) => hold = hold.sleep(place_of(&self.shape, &worker), None),
                Ok(Start::Over) | Err(_) => return,
            }
        }
    }

    /// Runs a work function. None is there where it has panicked before.
    fn run(self: &Arc<Hub>, worker: Who, item: u16, queue: u8, work: Option<Work>) -> (Option<Work>, bool) {
        let Some(mut work) = work else {
            return (None, false);
        };
        RUN.set(Some((Arc::as_ptr(self), worker, false)));
        let mut run = crate::Run::new(self, worker, item, queue);
        let panic = catch_unwind(AssertUnwindSafe(|| work(&mut run))).err();
        RUN.set(None);
        if let Some(payload) = panic {
            discard(payload);
            discard(work);
            return (None, true);
        }
        (Some(work), false)
    }

    fn finish(&self, worker: Who, item: u16, work: Option<Work>, panicked: bool) -> Hold<'_> {
        let mut hold = self.hold();
        let dropped = hold.finish(&worker, item, work, panicked);
        if dropped.is_some() {
            drop(hold);
            discard(dropped);
            hold = self.hold();
        }
        hold
    }

    /// Of a run that was broken off there is no end in the history: the next life has it again.
    fn break_off(&self, item: u16, work: Option<Work>, panicked: bool) {
        let mut hold = self.hold();
        hold.state.panics += usize::from(panicked);
        hold.state.slots[usize::from(item)].work = work;
    }

    /// Does what blocks, while the run of this thread sleeps.
    pub(crate) fn block<T>(&self, worker: Who, blocks: impl FnOnce() -> T) -> T {
        struct Wakes<'a>(&'a Hub, Call);
        impl Drop for Wakes<'_> {
            fn drop(&mut self) {
                RUN.set(Some((self.0, self.1.who, false)));
                let woke = self.0.hold().make(|board, wakes| board.call(&self.1, wakes));
                debug_assert!(matches!(woke, Ok(_) | Err(Error::DiskFailed(_))));
            }
        }
        let sleep = Call { kind: call::SLEEP, who: worker, ..Call::default() };
        let slept = self.hold().make(|board, wakes| board.call(&sleep, wakes));
        // where there is no room for it, the run stays awake
        let _wakes = matches!(slept, Ok(reply) if reply.kind == reply::SLEPT).then(|| {
            RUN.set(Some((self, worker, true)));
            Wakes(self, Call { kind: call::WAKE, ..sleep })
        });
        blocks()
    }

    // ---- the end ----

    /// Lets nothing start any more, and wakes all who sleep: workers end, and waits are left.
    pub(crate) fn keep(&self) {
        let mut hold = self.hold();
        hold.state.closing = true;
        hold.state.own.keeps = true;
        hold.state.slots.iter_mut().for_each(|slot| slot.barred = true);
        hold.woken.add_all();
        hold.wake_clock();
    }

    /// Nobody makes an entry any more, once all workers have ended.
    pub(crate) fn end(&self) -> Left<Work> {
        let mut state = self.hold().state;
        while state.own.waits > 0 {
            state = self.guarded.space.wait(state).unwrap_or_else(PoisonError::into_inner);
        }
        let keeps = state.own.keeps;
        let left = self.hold_of(state).end();
        if keeps {
            return left.kept();
        }
        left
    }

    /// What the journal's thread does.
    pub(crate) fn keep_journal(&self, head: &[u8], writer: Box<dyn Write + Send>) -> io::Result<()> {
        self.guarded.keep_journal(head, writer)
    }
}

#[cfg(test)]
mod tests {
    use crate::shell::{Hold, Shell};
    use crate::{max_active, Error, Workqueues};

    #[test]
    fn the_end_tells_what_did_not_run() -> crate::Result<()> {
        let all = Workqueues::builder().queue("a", max_active(2).freezable()).build()?;
        let queue = all.queue("a")?;
        let items = [queue.item(|_| unreachable!())?, queue.item(|_| ())?, queue.item(|_| unreachable!())?];
        all.freeze()?;
        items[0].queue()?;
        items[2].queue_delayed(std::time::Duration::from_secs(3600))?;
        all.hub.hold().make(crate::ffi::Board::fail)?;
        assert!(matches!(all.shutdown(), Err(Error::NotRun(2))));
        assert!(items[0].is_pending() && !items[1].is_pending());
        Ok(())
    }
}
