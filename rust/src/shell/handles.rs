//! What handles have, of either shell. The last handle of an item gives its number back.
use super::items::Items;
use super::{Hold, Ticks};
use crate::error::{Error, Result};
use crate::ffi::{call, reply, Board, Call, PENDING_TIMER};
use std::sync::Arc;
use std::time::Duration;

/// A shell, which is held to make calls.
pub(crate) trait Shell {
    type Work;
    type Hold<'a>: Hold<Work = Self::Work>
    where
        Self: 'a;

    /// Takes the lock, once the journal has kept up.
    fn hold(&self) -> Self::Hold<'_>;

    fn cpus(&self) -> u8;

    /// The ticks of a delay that begins now. None: it is no delay.
    fn ticks(&self, delay: Duration) -> Option<Ticks>;

    /// A call in a hold of its own.
    #[inline]
    fn does<'a, T>(&'a self, call: impl FnOnce(&mut Self::Hold<'a>) -> Result<T>) -> Result<T> {
        let mut hold = self.hold();
        let made = call(&mut hold);
        hold.settle(made)
    }

    /// Takes no more work, lets frozen queues go on, and takes back what is delayed.
    fn stop(&self) {
        let mut hold = self.hold();
        hold.state().closing = true;
        hold.wake_clock();
        for item in 0..hold.state().slots.len() as u16 {
            if hold.state().board.item(item).pending == PENDING_TIMER {
                let cancel = Call { kind: call::CANCEL, item, ..Call::default() };
                let _ = hold.make(|board, wakes| board.call(&cancel, wakes));
                drop(hold);
                hold = self.hold();
            }
        }
        let _ = hold.call(call::THAW, 0, 0);
        let _ = hold.make(Board::stop);
    }
}

/// A queue.
pub(crate) struct QueueOf<S> {
    pub(crate) hub: Arc<S>,
    pub(crate) number: u8,
}

impl<S> Clone for QueueOf<S> {
    fn clone(&self) -> Self {
        QueueOf { hub: self.hub.clone(), number: self.number }
    }
}

impl<S: Shell> QueueOf<S> {
    /// Makes an item, on this CPU or on one that is chosen here.
    pub(crate) fn add(&self, cpu: Option<u8>, work: S::Work) -> Result<Arc<Own<S>>> {
        let cpus = self.hub.cpus();
        if cpu.is_some_and(|cpu| cpu >= cpus) {
            return Err(Error::Invalid("the CPU"));
        }
        // a work function that is not taken is dropped without the lock
        let added = self.hub.hold().add(self.number, work);
        let number = added.map_err(|(why, _work)| why)?;
        let cpu = cpu.unwrap_or((number % u16::from(cpus)) as u8);
        Ok(Arc::new(Own { hub: self.hub.clone(), number, queue: self.number, cpu }))
    }

    /// Queues many items, with one hold of the lock for each 64. Returns how many were not pending.
    pub(crate) fn queue_all<'a>(&self, items: impl IntoIterator<Item = &'a Own<S>>) -> Result<usize>
    where
        S: 'a,
    {
        let (mut items, mut queued) = (items.into_iter().peekable(), 0);
        while items.peek().is_some() {
            let batch: Vec<&Own<S>> = items.by_ref().take(64).inspect(|item| item.is_of(self)).collect();
            let is_last = items.peek().is_none();
            let mut hold = self.hub.hold();
            for item in batch {
                match hold.put(item.number, self.number, item.cpu) {
                    Ok(was_idle) => queued += usize::from(was_idle),
                    Err(why) => return if queued > 0 { hold.settle(Ok(())).and(Err(why)) } else { Err(why) },
                }
            }
            if is_last {
                return hold.settle(Ok(queued));
            }
        }
        Ok(queued)
    }

    pub(crate) fn set_max_active(&self, limit: u32) -> Result<u32> {
        self.hub.does(|hold| hold.call(call::SET_MAX, self.number, limit)).map(|reply| reply.number as u32)
    }
}

/// An item, which its handles share.
pub(crate) struct Own<S: Shell> {
    pub(crate) hub: Arc<S>,
    pub(crate) number: u16,
    pub(crate) queue: u8,
    pub(crate) cpu: u8,
}

impl<S: Shell> Own<S> {
    fn is_of(&self, queue: &QueueOf<S>) {
        assert!(Arc::ptr_eq(&self.hub, &queue.hub), "the item is of other workqueues");
    }

    #[inline]
    pub(crate) fn queue(&self) -> Result<bool> {
        self.hub.does(|hold| hold.put(self.number, self.queue, self.cpu))
    }

    pub(crate) fn queue_on(&self, queue: &QueueOf<S>, cpu: u8) -> Result<bool> {
        self.is_of(queue);
        self.hub.does(|hold| hold.put(self.number, queue.number, cpu))
    }

    fn delay(&self, kind: u8, delay: Duration) -> Result<u8> {
        let ticks = self.hub.ticks(delay);
        self.hub.does(|hold| hold.delay(kind, self.number, self.queue, self.cpu, ticks))
    }

    pub(crate) fn queue_delayed(&self, delay: Duration) -> Result<bool> {
        self.delay(call::DELAY, delay).map(|kind| kind != reply::NO)
    }

    pub(crate) fn modify(&self, delay: Duration) -> Result<bool> {
        self.delay(call::MODIFY, delay).map(|kind| matches!(kind, reply::AGAIN | reply::REBOOKED))
    }

    pub(crate) fn cancel(&self) -> Result<bool> {
        self.hub.does(|hold| hold.cancel(self.number))
    }

    pub(crate) fn is_pending(&self) -> bool {
        self.hub.hold().state().board.item(self.number).pending != 0
    }

    pub(crate) fn is_running(&self) -> bool {
        self.hub.hold().state().board.item(self.number).runs != 0
    }
}

impl<S: Shell> Drop for Own<S> {
    fn drop(&mut self) {
        // the work function is dropped without the lock: it may have handles
        let work = self.hub.hold().state().orphan(self.number);
        drop(work);
    }
}
