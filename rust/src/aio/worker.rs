//! The task of a worker. It starts what its pool has, polls the run's future, and finishes the run. A run whose future
//! is pending sleeps, and one that is polled is awake. So another run of its pool starts while it awaits.
use super::hub::{Hold, Hub, InRun, Started, Work};
use super::Run;
use crate::ffi::{Start, Who};
use crate::shell::{discard, Hold as _, Items, Shell};
use std::future::Future;
use std::panic::{catch_unwind, AssertUnwindSafe};
use std::pin::Pin;
use std::sync::Arc;
use std::task::{Context, Poll};

/// How many runs a worker has at most before it lets the other tasks of its thread go on.
const BUDGET: usize = 64;

struct Running {
    item: u16,
    /// None once it has ended, or where the work function has panicked before.
    future: Option<Started>,
    work: Option<Work>,
    panicked: bool,
    /// It makes no entries where it awaits.
    intensive: bool,
}

/// The task of one worker.
pub(super) struct Worker {
    hub: Arc<Hub>,
    who: Who,
    place: usize,
    run: Option<Running>,
    over: bool,
}

impl Worker {
    pub(super) fn new(hub: Arc<Hub>, who: Who) -> Worker {
        let place = hub.place_of(&who);
        hub.hold().state.own.tasks += 1;
        Worker { hub, who, place, run: None, over: false }
    }

    /// Calls the work function. The lock is not held.
    fn begins(&self, item: u16, queue: u8, number: u64, work: Option<Work>) -> Running {
        let intensive = self.hub.intensive[usize::from(queue)];
        let mut run = Running { item, future: None, work: None, panicked: false, intensive };
        if let Some(mut work) = work {
            let own = Run { hub: self.hub.clone(), place: self.place, number, item, queue, cpu: self.who.cpu };
            let _in_run = InRun::new(&self.hub, self.place);
            match catch_unwind(AssertUnwindSafe(|| work(own))) {
                Ok(future) => (run.future, run.work) = (Some(future), Some(work)),
                Err(why) => {
                    discard(why);
                    discard(work);
                    run.panicked = true;
                }
            }
        }
        run
    }

    /// Polls the run's future. The lock is not held. Returns whether it has ended.
    fn polls(&mut self, cx: &mut Context<'_>) -> bool {
        let Some(Running { future: Some(future), .. }) = &mut self.run else {
            return true;
        };
        let _in_run = InRun::new(&self.hub, self.place);
        let polled = catch_unwind(AssertUnwindSafe(|| future.as_mut().poll(cx)));
        if let Ok(Poll::Pending) = polled {
            return false;
        }
        if let Some(run) = &mut self.run {
            // in the run: it may have waits
            run.panicked = discard(run.future.take()) || polled.is_err();
            if let Err(why) = polled {
                discard(why);
            }
            if run.panicked {
                discard(run.work.take());
            }
        }
        true
    }

    /// The run ends, whose future has ended. It sleeps until its wait has ended, if one goes on that is polled
    /// elsewhere. Returns what is to be dropped without the lock.
    fn finishes(&mut self, hold: &mut Hold<'_>) -> Poll<Option<Work>> {
        hold.state.own.workers[self.place].is_ending = true;
        if !hold.ends_last(self.place) {
            hold.sleeps(self.place);
            return Poll::Pending;
        }
        hold.wakes(self.place);
        hold.state.own.workers[self.place].is_ending = false;
        let Some(run) = self.run.take() else {
            return Poll::Ready(None);
        };
        hold.state.own.workers[self.place].ended += 1;
        Poll::Ready(hold.finish(&self.who, run.item, run.work, run.panicked))
    }
}

impl Future for Worker {
    type Output = ();

    fn poll(mut self: Pin<&mut Self>, cx: &mut Context<'_>) -> Poll<()> {
        let this = &mut *self;
        let (hub, place) = (this.hub.clone(), this.place);
        let mut hold = hub.hold();
        hold.keep(|own| &mut own.workers[place].waker, cx.waker());
        for _ in 0..BUDGET {
            match &this.run {
                Some(run) => {
                    let has_no_wait = hold.ends_last(place);
                    if run.future.is_some() && (has_no_wait || !run.intensive) {
                        hold.wakes(place);
                    }
                    drop(hold);
                }
                None => match hold.make(|board, wakes| board.start(&this.who, wakes)) {
                    Ok(Start::Runs(item)) => {
                        let number = hold.state.own.workers[place].ended;
                        let slot = &mut hold.state.slots[usize::from(item)];
                        let (work, queue) = (slot.work.take(), slot.queue);
                        drop(hold);
                        this.run = Some(this.begins(item, queue, number, work));
                    }
                    Ok(Start::Rests) => return Poll::Pending,
                    Ok(Start::Over) | Err(_) => {
                        this.over = true;
                        hub.task_ends(hold, place);
                        return Poll::Ready(());
                    }
                },
            }
            let ended = this.polls(cx);
            hold = hub.hold();
            if !ended {
                if this.run.as_ref().is_some_and(|run| !run.intensive) {
                    hold.sleeps(place);
                }
                return Poll::Pending;
            }
            let Poll::Ready(gone) = this.finishes(&mut hold) else {
                return Poll::Pending;
            };
            if gone.is_some() {
                drop(hold);
                discard(gone);
                hold = hub.hold();
            }
        }
        drop(hold);
        cx.waker().wake_by_ref();
        Poll::Pending
    }
}

impl Drop for Worker {
    /// A worker without a task starts nothing and ends nothing any more, so the hub fails.
    fn drop(&mut self) {
        if self.over {
            return;
        }
        self.hub.hold().fail();
        if let Some(run) = self.run.take() {
            let _in_run = InRun::new(&self.hub, self.place);
            discard(run.future);
            discard(run.work);
        }
        self.hub.task_ends(self.hub.hold(), self.place);
    }
}
