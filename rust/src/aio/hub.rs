//! The shell over wakers: it locks, makes calls of the board, unlocks, and wakes the tasks of those whom the board has
//! named. The lock is held neither where a future is polled nor where one, a waker or a work function is dropped, since
//! all of these may make calls.
use super::{Clock, Run};
use crate::ffi::{call, reply, Board, Call, Ended, Shape, Wakes, Who, HIGH_WORKER, WORKER};
use crate::shell::{place_of, workers_of, Guarded, Hold as _, Left, Shell, State, Tick, Ticks, OUTSIDE};
use std::cell::Cell;
use std::collections::BTreeMap;
use std::future::{poll_fn, Future};
use std::io;
use std::pin::Pin;
use std::sync::MutexGuard;
use std::task::{Poll, Waker};
use std::time::Duration;

pub(super) type Started = Pin<Box<dyn Future<Output = ()> + Send>>;
pub(super) type Work = Box<dyn FnMut(Run) -> Started + Send>;

/// A worker, whose task polls its runs.
#[derive(Default)]
pub(super) struct OfWorker {
    pub(super) waker: Option<Waker>,
    /// How many of its runs have ended.
    pub(super) ended: u64,
    /// Whether its run sleeps, as the history says.
    asleep: bool,
    /// The caller that is lent to the wait of its run.
    pub(super) wait: Option<u8>,
    /// Its run has ended, but for a wait that is polled elsewhere.
    pub(super) is_ending: bool,
    /// Who makes the next wait of the run. It has one at a time, so that the board knows of each.
    pub(super) next: Vec<Waker>,
}

/// A caller that is lent to waits.
#[derive(Default)]
pub(super) struct Party {
    /// The number of the wait that goes on by it, or 0.
    pub(super) wait: u64,
    /// The worker whose run waits.
    pub(super) run: Option<usize>,
    /// The board is to be asked whether the wait has ended.
    pub(super) named: bool,
    pub(super) waker: Option<Waker>,
}

/// What the lock guards beside what all shells have.
pub(crate) struct Parties {
    pub(super) workers: Box<[OfWorker]>,
    pub(super) callers: Box<[Party]>,
    /// Waits of no run that begin once a caller may be lent to them, the oldest first.
    pub(super) line: BTreeMap<u64, Waker>,
    /// How many numbers of waits and of places in line there are.
    pub(super) numbers: u64,
    pub(super) clock: Option<Waker>,
    /// How many tasks of workers there are.
    pub(super) tasks: usize,
    /// Whether the executor has dropped a task.
    pub(super) failed: bool,
    /// Nobody ends the hub: the last worker does.
    pub(super) detached: bool,
    /// What the journal has come to.
    pub(super) written: Option<io::Result<()>>,
    /// Who waits for the last task, and for the journal.
    enders: Vec<Waker>,
}

impl Parties {
    pub(super) fn new(shape: &Shape) -> Parties {
        Parties {
            workers: (0..workers_of(shape)).map(|_| OfWorker::default()).collect(),
            callers: (0..shape.callers).map(|_| Party::default()).collect(),
            line: BTreeMap::new(),
            numbers: 0,
            clock: None,
            tasks: 0,
            failed: false,
            detached: false,
            written: None,
            enders: Vec::new(),
        }
    }

    pub(super) fn next_number(&mut self) -> u64 {
        self.numbers += 1;
        self.numbers
    }
}

/// The shell of a board.
pub(crate) struct Hub {
    pub(super) guarded: Guarded<Work, Parties>,
    shape: Shape,
    /// From so many entries on there may be no room for a sleep.
    scarce: u64,
    /// Whether the runs of a queue make no entries where they await.
    pub(super) intensive: Box<[bool]>,
    pub(super) clock: Box<dyn Clock>,
    pub(super) begun: Duration,
    pub(super) tick: Tick,
}

thread_local! {
    /// The hub and the worker whose run this thread polls.
    static RUN: Cell<Option<(*const Hub, usize)>> = const { Cell::new(None) };
}

/// While it lives, calls of this thread are calls of the run of a worker.
pub(super) struct InRun(Option<(*const Hub, usize)>);

impl InRun {
    pub(super) fn new(hub: &Hub, place: usize) -> InRun {
        InRun(RUN.replace(Some((hub, place))))
    }
}

impl Drop for InRun {
    fn drop(&mut self) {
        RUN.set(self.0);
    }
}

/// Those who are to be woken, and wakers that are to be dropped. Both are done when this is dropped.
#[derive(Default)]
struct Woken {
    first: [Option<Waker>; 2],
    more: Vec<Waker>,
    gone: Vec<Waker>,
}

impl Woken {
    #[inline]
    fn add(&mut self, waker: Option<Waker>) {
        if waker.is_some() {
            match self.first.iter_mut().find(|place| place.is_none()) {
                Some(place) => *place = waker,
                None => self.more.extend(waker),
            }
        }
    }
}

impl Drop for Woken {
    #[inline]
    fn drop(&mut self) {
        self.first.iter_mut().filter_map(Option::take).for_each(Waker::wake);
        self.more.drain(..).for_each(Waker::wake);
    }
}

/// A hold of the lock. When it is dropped, first the lock is let go, and then those are woken who were named.
pub(crate) struct Hold<'a> {
    pub(super) state: MutexGuard<'a, State<Work, Parties>>,
    woken: Woken,
    hub: &'a Hub,
}

impl crate::shell::Hold for Hold<'_> {
    type Work = Work;
    type Own = Parties;

    #[inline]
    fn state(&mut self) -> &mut State<Work, Parties> {
        &mut self.state
    }

    #[inline]
    fn wake(&mut self, wakes: &Wakes) {
        for worker in wakes.workers() {
            self.wake_worker(place_of(&self.hub.shape, worker));
        }
        for caller in wakes.callers() {
            self.name(*caller);
        }
        if wakes.all() {
            (0..self.state.own.workers.len()).for_each(|place| self.wake_worker(place));
            (0..self.hub.shape.callers).for_each(|caller| self.name(caller));
        }
        if !self.state.own.line.is_empty() && self.state.board.has_ended_left() {
            self.wake_next();
        }
    }

    fn wake_clock(&mut self) {
        let waker = self.state.own.clock.take();
        self.woken.add(waker);
    }

    fn wake_journal(&mut self) {
        self.hub.guarded.journal.notify_one();
    }

    /// A run that makes a call is awake. If it can't be, the call is nobody's.
    #[inline]
    fn who(&mut self) -> Who {
        match self.worker() {
            Some(place) if self.wakes(place) => self.hub.worker_at(place),
            _ => OUTSIDE,
        }
    }
}

impl Hold<'_> {
    /// The worker whose run makes the calls of this thread.
    #[inline]
    pub(super) fn worker(&self) -> Option<usize> {
        match RUN.get() {
            Some((hub, place)) if std::ptr::eq(hub, self.hub) => Some(place),
            _ => None,
        }
    }

    #[inline]
    pub(super) fn wake_worker(&mut self, place: usize) {
        let waker = self.state.own.workers[place].waker.take();
        self.woken.add(waker);
    }

    /// The wait by this caller may have ended. Whoever polls it is woken, or the worker if its run has ended otherwise.
    fn name(&mut self, caller: u8) {
        let party = &mut self.state.own.callers[usize::from(caller)];
        party.named = true;
        let (waker, run) = (party.waker.take(), party.run);
        self.woken.add(waker);
        if let Some(place) = run {
            if self.state.own.workers[place].is_ending {
                self.wake_worker(place);
            }
        }
    }

    /// A caller may be lent: the first in line looks. If it begins its wait, it wakes the next.
    #[inline]
    pub(super) fn wake_next(&mut self) {
        let first = self.state.own.line.pop_first();
        self.woken.add(first.map(|(_, waker)| waker));
    }

    /// Keeps the waker at this place. What was there is dropped without the lock.
    #[inline]
    pub(super) fn keep(&mut self, place: impl FnOnce(&mut Parties) -> &mut Option<Waker>, waker: &Waker) {
        let place = place(&mut self.state.own);
        if !place.as_ref().is_some_and(|own| own.will_wake(waker)) {
            self.woken.gone.extend(place.replace(waker.clone()));
        }
    }

    /// Keeps the waker in this list, once.
    pub(super) fn keep_in(&mut self, list: impl FnOnce(&mut Parties) -> &mut Vec<Waker>, waker: &Waker) {
        let list = list(&mut self.state.own);
        if !list.iter().any(|own| own.will_wake(waker)) {
            list.push(waker.clone());
        }
    }

    /// Drops the waker without the lock.
    pub(super) fn forget(&mut self, waker: Option<Waker>) {
        self.woken.gone.extend(waker);
    }

    // ---- runs ----

    /// The run goes to sleep, if it is awake and there is room for the entry.
    pub(super) fn sleeps(&mut self, place: usize) {
        if !self.state.own.workers[place].asleep {
            let call = Call { kind: call::SLEEP, who: self.hub.worker_at(place), ..Call::default() };
            let slept = self.make(|board, wakes| board.call(&call, wakes));
            self.state.own.workers[place].asleep = matches!(slept, Ok(reply) if reply.kind == reply::SLEPT);
        }
    }

    /// The run is awake from now on. Returns `false` if it is not: where there may be no room for its next sleep, it
    /// sleeps as long as it waits, since what it waits for could not start otherwise.
    #[inline]
    pub(super) fn wakes(&mut self, place: usize) -> bool {
        if self.state.own.workers[place].asleep {
            if self.state.own.workers[place].wait.is_some() && self.state.board.len() >= self.hub.scarce {
                return false;
            }
            let call = Call { kind: call::WAKE, who: self.hub.worker_at(place), ..Call::default() };
            let woke = self.make(|board, wakes| board.call(&call, wakes));
            debug_assert!(self.state.ended || matches!(woke, Ok(reply) if reply.kind == reply::WOKE));
            self.state.own.workers[place].asleep = false;
        }
        true
    }

    /// A wait has begun by this caller. Returns its number. The run that waits, if one does, sleeps from then on.
    pub(super) fn has_begun(&mut self, caller: u8, run: Option<usize>) -> u64 {
        let wait = self.state.own.next_number();
        self.state.own.callers[usize::from(caller)] = Party { wait, run, named: true, waker: None };
        if let Some(place) = run {
            let worker = &mut self.state.own.workers[place];
            worker.asleep = true;
            worker.wait = Some(caller);
        }
        wait
    }

    /// Asks the board whether the wait by this caller has ended, if it is named. None: it goes on.
    pub(super) fn ends(&mut self, caller: u8) -> Option<crate::Result<()>> {
        let at = usize::from(caller);
        if !self.state.own.callers[at].named {
            return None;
        }
        match self.make(|board, wakes| board.end(caller, wakes)) {
            Ok(Ended::Waits) => {
                self.state.own.callers[at].named = false;
                None
            }
            Ok(Ended::LookAgain) => None,
            Ok(Ended::Done) => {
                if let Some(place) = self.state.own.callers[at].run {
                    self.state.own.workers[place].asleep = false; // its wake is made with the end
                }
                if let Some(place) = self.is_over(caller) {
                    if self.worker() != Some(place) {
                        self.wake_worker(place); // it is awake: its task lets it sleep again, or ends it
                    }
                }
                Some(Ok(()))
            }
            Ok(Ended::Over) => Some(Err(crate::Error::Closed)),
            Err(why) => Some(Err(why)),
        }
    }

    /// Nobody waits by this caller any more. Returns the worker whose run did.
    fn is_over(&mut self, caller: u8) -> Option<usize> {
        let party = std::mem::take(&mut self.state.own.callers[usize::from(caller)]);
        self.woken.add(party.waker);
        if let Some(place) = party.run {
            let worker = &mut self.state.own.workers[place];
            worker.wait = None;
            self.woken.more.append(&mut worker.next);
        }
        self.wake_next();
        party.run
    }

    /// The future of this wait is gone. If a run has dropped it while it is polled, the run is awake again.
    pub(super) fn leaves(&mut self, caller: u8) {
        let left = self.make(|board, wakes| board.leave(caller, wakes));
        let waker = self.state.own.callers[usize::from(caller)].waker.take();
        self.forget(waker);
        if left.is_err() {
            return; // all has failed
        }
        if let Some(place) = self.is_over(caller) {
            if self.worker() == Some(place) {
                self.wakes(place);
            } else if self.state.own.workers[place].is_ending {
                self.wake_worker(place);
            }
        }
    }

    /// Ends the wait of a run that has ended otherwise, if it is ready. Returns whether the run has no wait.
    pub(super) fn ends_last(&mut self, place: usize) -> bool {
        let worker = &self.state.own.workers[place];
        match worker.wait {
            None => true,
            Some(party) => worker.is_ending && self.ends(party).is_some(),
        }
    }

    // ---- the end ----

    /// Wakes those who wait for the end.
    pub(super) fn wake_enders(&mut self) {
        let enders = std::mem::take(&mut self.state.own.enders);
        self.woken.more.extend(enders);
    }

    /// A task is gone that was needed: nobody makes an entry from now on, and all waits return.
    pub(super) fn fail(&mut self) {
        self.state.ended = true;
        self.state.own.failed = true;
        let _ = self.make(Board::fail);
        let line = std::mem::take(&mut self.state.own.line);
        self.woken.more.extend(line.into_values());
        for place in 0..self.state.own.workers.len() {
            let next = std::mem::take(&mut self.state.own.workers[place].next);
            self.woken.more.extend(next);
        }
        self.wake_clock();
        self.wake_enders();
    }
}

impl Shell for Hub {
    type Work = Work;
    type Hold<'a> = Hold<'a>;

    #[inline]
    fn hold(&self) -> Hold<'_> {
        Hold { state: self.guarded.enter(), woken: Woken::default(), hub: self }
    }

    fn cpus(&self) -> u8 {
        self.shape.cpus
    }

    fn ticks(&self, delay: Duration) -> Option<Ticks> {
        self.tick.delay(self.elapsed(), delay)
    }
}

impl Hub {
    pub(super) fn new(
        state: State<Work, Parties>,
        shape: Shape,
        intensive: Box<[bool]>,
        clock: Box<dyn Clock>,
        tick: Tick,
    ) -> Hub {
        let begun = clock.now();
        // an item owes at most five entries, as it is delayed and its run sleeps, and a caller one for each ticket
        let owed = 5 * u64::from(shape.items) + 64 * u64::from(shape.callers) + 8;
        let scarce = shape.room.saturating_sub(owed);
        Hub { guarded: Guarded::new(state), shape, scarce, intensive, clock, begun, tick }
    }

    /// How long the hub has been there.
    pub(super) fn elapsed(&self) -> Duration {
        self.clock.now().saturating_sub(self.begun)
    }

    pub(super) fn place_of(&self, worker: &Who) -> usize {
        place_of(&self.shape, worker)
    }

    #[inline]
    pub(super) fn worker_at(&self, place: usize) -> Who {
        let workers = usize::from(self.shape.workers);
        let (pool, index) = (place / workers, (place % workers) as u8);
        Who { kind: if pool % 2 == 0 { WORKER } else { HIGH_WORKER }, index, cpu: (pool / 2) as u8 }
    }

    /// Takes no more work, and wakes those in line.
    pub(super) fn close(&self) {
        self.stop();
        let mut hold = self.hold();
        let line = std::mem::take(&mut hold.state.own.line);
        hold.woken.more.extend(line.into_values());
    }

    /// Ends the hub, whose workers have ended. Waits that are over return so, also where they are polled later.
    pub(super) fn end(&self) -> Left<Work> {
        let mut hold = self.hold();
        for caller in 1..self.shape.callers {
            if hold.state.own.callers[usize::from(caller)].wait != 0 {
                hold.state.own.callers[usize::from(caller)].named = true;
                let _ = hold.ends(caller);
            }
        }
        hold.end()
    }

    /// One of the tasks of workers has ended. The last ends the hub, if nobody else does.
    pub(super) fn task_ends(&self, mut hold: Hold<'_>, place: usize) {
        let own = &mut hold.state.own;
        own.tasks -= 1;
        let (is_last, waker) = (own.tasks == 0 && own.detached, own.workers[place].waker.take());
        hold.forget(waker);
        hold.wake_enders();
        drop(hold);
        if is_last {
            let _ = self.end().discard(); // nobody is told
        }
    }

    /// Waits until the state has what is looked for.
    pub(super) async fn until<T>(&self, mut look: impl FnMut(&mut Parties) -> Option<T>) -> T {
        poll_fn(|cx| {
            let mut hold = self.hold();
            if let Some(seen) = look(&mut hold.state.own) {
                return Poll::Ready(seen);
            }
            hold.keep_in(|own| &mut own.enders, cx.waker());
            Poll::Pending
        })
        .await
    }
}
