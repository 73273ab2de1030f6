//! Items: numbers with work functions, and the calls of an item that don't wait.
use super::{told, Hold, State, Ticks};
use crate::error::{Error, Result};
use crate::ffi::{call, reply, Call, Reply, Who, CALLER};

/// What is known of an item beside what the board knows.
pub(crate) struct Slot<W> {
    /// None while it runs: the worker has it then.
    pub(crate) work: Option<W>,
    /// The queue on which it was queued last.
    pub(crate) queue: u8,
    pub(crate) poisoned: bool,
    /// Whether it is looked at more closely before it is queued: it is poisoned, or the workqueues are left.
    pub(crate) barred: bool,
    /// It has its number for good, with or without handles.
    named: bool,
    /// It has no handle any more.
    orphan: bool,
}

impl<W> Slot<W> {
    pub(super) fn new(work: Option<W>, queue: u8) -> Slot<W> {
        Slot { work, queue, poisoned: false, barred: false, named: false, orphan: false }
    }

    /// An item that the builder names.
    pub(crate) fn named(work: W, queue: u8) -> Slot<W> {
        Slot { named: true, ..Slot::new(Some(work), queue) }
    }
}

impl<W, O> State<W, O> {
    /// Gives an item that the builder names its number, the next of all.
    pub(crate) fn add_named(&mut self, work: W, queue: u8) -> u16 {
        let item = self.free.pop().expect("there are as many numbers as items with names");
        self.slots[usize::from(item)] = Slot::named(work, queue);
        item
    }

    /// Takes back the number of an item that nobody has, once it is neither pending nor running. Returns its work
    /// function, which is to be dropped without the lock.
    pub(crate) fn release(&mut self, item: u16) -> Option<W> {
        let slot = &mut self.slots[usize::from(item)];
        if !slot.orphan {
            return None;
        }
        let state = self.board.item(item);
        if state.pending != 0 || state.runs != 0 {
            return None;
        }
        slot.orphan = false;
        self.free.push(item);
        slot.work.take()
    }

    /// The last handle of the item was dropped.
    pub(super) fn orphan(&mut self, item: u16) -> Option<W> {
        let slot = &mut self.slots[usize::from(item)];
        slot.orphan = !slot.named;
        self.release(item)
    }
}

/// The calls of an item, which every hold can make.
pub(crate) trait Items: Hold {
    /// A call that may make the item pending.
    #[inline]
    fn queue(&mut self, call: &Call) -> Result<Reply> {
        let slot = usize::from(call.item);
        if self.state().slots[slot].barred {
            self.look_at(slot)?;
        }
        let reply = self.make(|board, wakes| board.call(call, wakes))?;
        let state = self.state();
        if let reply::YES | reply::BOOKED | reply::AGAIN | reply::REBOOKED = reply.kind {
            state.slots[slot].queue = call.queue;
        }
        if let reply::BOOKED | reply::REBOOKED = reply.kind {
            state.has_timers = true;
            if reply.number < state.due {
                state.due = reply.number;
                self.wake_clock();
            }
        }
        told(reply)
    }

    /// Whether an item that is barred may be queued all the same.
    #[cold]
    fn look_at(&mut self, slot: usize) -> Result<()> {
        if self.state().slots[slot].poisoned {
            return Err(Error::Poisoned);
        }
        self.may_queue()
    }

    /// Queues the item. Returns whether it was not pending.
    #[inline]
    fn put(&mut self, item: u16, queue: u8, cpu: u8) -> Result<bool> {
        let call = Call { kind: call::QUEUE, item, queue, cpu, who: self.who(), ..Call::default() };
        self.queue(&call).map(|reply| reply.kind == reply::YES)
    }

    /// Delays the item by this time, which is none if there are no ticks. The board's time is brought up before.
    /// Returns the kind of the reply.
    fn delay(&mut self, kind: u8, item: u16, queue: u8, cpu: u8, ticks: Option<Ticks>) -> Result<u8> {
        let mut call = Call { kind, item, queue, cpu, who: self.who(), ..Call::default() };
        if let Some(Ticks { now, due }) = ticks {
            if self.state().closing {
                self.may_queue()?;
            }
            let mut time = self.state().board.time();
            if now > time {
                time = self.advance(now)?;
            }
            let ticks = due.saturating_sub(time).max(1);
            call.number = u32::try_from(ticks).map_err(|_| Error::Invalid("the delay"))?;
        }
        self.queue(&call).map(|reply| reply.kind)
    }

    /// Cancels the item. Returns whether it was pending.
    fn cancel(&mut self, item: u16) -> Result<bool> {
        let call = Call { kind: call::CANCEL, item, who: self.who(), ..Call::default() };
        let reply = self.make(|board, wakes| board.call(&call, wakes))?;
        told(reply).map(|reply| reply.kind != reply::NO)
    }

    /// An item with this work function, which is returned with the error if there is none. Runs add items as long as
    /// they go on.
    fn add(&mut self, queue: u8, work: Self::Work) -> std::result::Result<u16, (Error, Self::Work)> {
        let in_run = self.who().kind != CALLER;
        let state = self.state();
        if state.ended || (state.closing && !in_run) {
            return Err((Error::Closed, work));
        }
        let Some(item) = state.free.pop() else {
            return Err((Error::NoItem, work));
        };
        state.slots[usize::from(item)] = Slot::new(Some(work), queue);
        Ok(item)
    }

    /// The worker's run ends: the work function is there again, if it has not panicked. What is returned is to be
    /// dropped without the lock, since the item has no handle any more.
    fn finish(&mut self, worker: &Who, item: u16, work: Option<Self::Work>, panicked: bool) -> Option<Self::Work> {
        let state = self.state();
        state.panics += usize::from(panicked);
        let slot = &mut state.slots[usize::from(item)];
        slot.work = work;
        slot.poisoned |= panicked;
        slot.barred |= panicked;
        let finished = self.make(|board, wakes| board.finish(worker, wakes));
        debug_assert!(matches!(finished, Ok(()) | Err(Error::DiskFailed(_))) || self.state().ended);
        self.state().release(item)
    }
}

impl<H: Hold> Items for H {}
