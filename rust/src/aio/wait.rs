//! Calls that wait, as futures.
use super::hub::{Hold, Hub};
use crate::error::{Error, Result};
use crate::ffi::{reply, Begun, Call, Reply};
use crate::shell::{told, Hold as _, Shell, OUTSIDE};
use std::fmt;
use std::future::Future;
use std::pin::Pin;
use std::sync::Arc;
use std::task::{Context, Poll, Waker};

enum Stage {
    /// It has not begun. Its number in line, if it has one. Once the line has it no more, it is its turn.
    New(Option<u64>),
    /// By this lent caller, as the wait of this number.
    Waits {
        party: u8,
        wait: u64,
        reply: Reply,
    },
    Over,
}

/// What a call has become that has begun: its reply, and the caller and the number of the wait, if it waits.
type Called = (Reply, Option<(u8, u64)>);

/// A call that waits. The call is made when the future is polled first, by the run in which it is polled, if there is
/// one. To drop the future is to leave the wait: what the call began goes on. A queue that is being drained takes no
/// work until nothing is queued on it, and an item that is being cancelled can't be queued until it is not running.
///
/// If as many calls wait as [`Builder::waits`](super::Builder::waits) says, others wait in line, and begin in that
/// order. Of a run they return [`Error::TooManyWaits`], since those before them may wait for the run.
///
/// A run has one wait at a time: another one begins once the first has ended or was dropped. A run whose wait is polled
/// elsewhere ends only once that wait has ended.
#[must_use = "a wait does nothing unless it is polled"]
pub struct Wait<T> {
    hub: Arc<Hub>,
    call: Call,
    stage: Stage,
    told: fn(Reply) -> T,
}

impl<T> Wait<T> {
    pub(super) fn new(hub: &Arc<Hub>, kind: u8, item: u16, queue: u8, told: fn(Reply) -> T) -> Wait<T> {
        let call = Call { kind, item, queue, ..Call::default() };
        Wait { hub: hub.clone(), call, stage: Stage::New(None), told }
    }
}

impl Hold<'_> {
    /// Begins the wait, or keeps the waker of one that can't begin yet.
    fn begins(&mut self, hub: &Hub, call: Call, in_line: &mut Option<u64>, waker: &Waker) -> Poll<Result<Called>> {
        let run = self.worker();
        let mut who = OUTSIDE;
        if let Some(place) = run {
            if self.state.own.workers[place].wait.is_some() {
                self.keep_in(|own| &mut own.workers[place].next, waker);
                return Poll::Pending;
            }
            self.wakes(place);
            who = hub.worker_at(place);
        } else if let Some(number) = in_line.filter(|number| self.state.own.line.contains_key(number)) {
            let old = self.state.own.line.insert(number, waker.clone());
            self.forget(old);
            return Poll::Pending;
        }
        let begun = self.make(|board, wakes| board.begin(&Call { who, ..call }, wakes));
        let begun = begun.and_then(|begun| match begun {
            Begun::Ended(reply) => told(reply).map(|reply| (reply, None)),
            Begun::Waits(party, reply) => Ok((reply, Some(party))),
        });
        if run.is_none() && matches!(begun, Err(Error::TooManyWaits)) {
            let number = *in_line.get_or_insert_with(|| self.state.own.next_number());
            self.state.own.line.insert(number, waker.clone());
            return Poll::Pending;
        }
        self.is_out_of_line(in_line);
        Poll::Ready(begun.map(|(reply, party)| (reply, party.map(|party| (party, self.has_begun(party, run))))))
    }

    /// The wait needs no place in line any more. If it was its turn, it is another's.
    fn is_out_of_line(&mut self, in_line: &mut Option<u64>) {
        if let Some(number) = in_line.take() {
            match self.state.own.line.remove(&number) {
                Some(waker) => self.forget(Some(waker)),
                None => self.wake_next(),
            }
        }
    }

    /// Whether the wait has ended. If not, its waker is kept.
    fn polls(&mut self, party: u8, wait: u64, waker: &Waker) -> Poll<Result<()>> {
        let at = usize::from(party);
        if self.state.own.callers[at].wait != wait {
            return Poll::Ready(Ok(())); // another task has ended it
        }
        if let Some(ended) = self.ends(party) {
            return Poll::Ready(ended);
        }
        if self.state.own.callers[at].named {
            waker.wake_by_ref();
        }
        self.keep(|own| &mut own.callers[at].waker, waker);
        Poll::Pending
    }
}

impl<T> Future for Wait<T> {
    type Output = Result<T>;

    /// # Panics
    /// If it was ready before.
    fn poll(mut self: Pin<&mut Self>, cx: &mut Context<'_>) -> Poll<Result<T>> {
        let Wait { hub, call, stage, told } = &mut *self;
        let mut hold = hub.hold();
        if let Stage::New(in_line) = stage {
            let Poll::Ready(begun) = hold.begins(hub, *call, in_line, cx.waker()) else {
                return Poll::Pending;
            };
            *stage = Stage::Over;
            match begun? {
                (reply, None) => return Poll::Ready(Ok(told(reply))),
                (reply, Some((party, wait))) => *stage = Stage::Waits { party, wait, reply },
            }
        }
        let Stage::Waits { party, wait, reply } = *stage else {
            panic!("a wait was polled after it had ended");
        };
        let Poll::Ready(ended) = hold.polls(party, wait, cx.waker()) else {
            return Poll::Pending;
        };
        *stage = Stage::Over;
        Poll::Ready(ended.map(|()| told(reply)))
    }
}

impl<T> Drop for Wait<T> {
    fn drop(&mut self) {
        match &mut self.stage {
            Stage::New(in_line @ Some(_)) => self.hub.hold().is_out_of_line(in_line),
            Stage::Waits { party, wait, .. } => {
                let mut hold = self.hub.hold();
                if hold.state.own.callers[usize::from(*party)].wait == *wait {
                    hold.leaves(*party);
                }
            }
            _ => {}
        }
    }
}

impl<T> fmt::Debug for Wait<T> {
    fn fmt(&self, f: &mut fmt::Formatter<'_>) -> fmt::Result {
        let stage = match self.stage {
            Stage::New(_) => "not begun",
            Stage::Waits { .. } => "waits",
            Stage::Over => "over",
        };
        f.debug_struct("Wait").field("stage", &stage).finish_non_exhaustive()
    }
}

/// Whether there was something to do or to wait for.
pub(super) fn had_something(reply: Reply) -> bool {
    !matches!(reply.kind, reply::TICKET_NO | reply::IDLE)
}
