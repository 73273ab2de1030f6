//! The Book: a workqueue runtime of one thread, for simulators and for runtimes of your own.
//!
//! It has no threads, locks or clock. Each call makes one entry of a history, and returns a reply that is proved to be
//! the right one. A call that waits returns a ticket; the wait has ended once [`Book::is_ready`] says so.
//!
//! ```
//! use cmwq::book::{Book, Call, Reply, Shape, Who};
//!
//! # fn main() -> Result<(), cmwq::book::Refusal> {
//! let shape = Shape { room: 100, keep: 100, items: 2, cpus: 1, workers: 2, callers: 1 };
//! let mut book = Book::open(&shape, &[cmwq::max_active(1)])?;
//! let (caller, worker) = (Who::Caller(0), Who::Worker { cpu: 0, index: 0, high: false });
//! assert_eq!(book.step(caller, Call::Queue { item: 1, queue: 0, cpu: 0 })?, Reply::Yes(0));
//! assert_eq!(book.step(caller, Call::Flush { queue: 0 })?, Reply::Ticket(1));
//! assert!(!book.is_ready(1));
//! assert_eq!(book.step(worker, Call::Take)?, Reply::StartedEnlist { number: 0, worker: 1 }); // item 1 runs
//! assert_eq!(book.step(worker, Call::Finish)?, Reply::Finished(0));
//! assert!(book.is_ready(1));
//! assert_eq!(book.step(caller, Call::End { ticket: 1 })?, Reply::Done);
//! assert_eq!(book.entry_line(0)?, "c0 0 queue 1 0 0 = yes 0\n");
//! # Ok(())
//! # }
//! ```
use crate::ffi::{self, call, reply, status, Fault, RawBook, CALLER, HIGH_WORKER, WORKER};
use crate::QueueOptions;
use std::fmt;

pub use crate::ffi::Shape;

/// Why a call of a book was not made. Nothing has changed then.
#[derive(Clone, Copy, Debug, PartialEq, Eq)]
#[non_exhaustive]
pub enum Refusal {
    /// There is no such call, caller, worker, item or entry, or the shape is outside its limits.
    Refused,
    /// There is no room for the entry, and for those that would be owed after it.
    Full,
    /// There is no memory.
    NoMemory,
    /// As many entries are kept as may be: read them, and call [`Book::forget`].
    Crowded,
}

impl Refusal {
    fn of(fault: Fault) -> Refusal {
        match fault {
            status::FULL => Refusal::Full,
            status::NO_MEMORY => Refusal::NoMemory,
            status::CROWDED => Refusal::Crowded,
            _ => Refusal::Refused,
        }
    }
}

impl fmt::Display for Refusal {
    fn fmt(&self, f: &mut fmt::Formatter<'_>) -> fmt::Result {
        f.write_str(match self {
            Refusal::Refused => "there is no such call or number",
            Refusal::Full => "there is no room for the entry",
            Refusal::NoMemory => "out of memory",
            Refusal::Crowded => "as many entries are kept as may be",
        })
    }
}

impl std::error::Error for Refusal {}

/// Who makes a call.
#[derive(Clone, Copy, Debug, PartialEq, Eq, Hash)]
pub enum Who {
    /// A caller.
    Caller(u8),
    /// A worker of the normal or the high pool of a CPU, or the work function that it runs.
    Worker {
        /// The CPU.
        cpu: u8,
        /// The number of the worker in its pool.
        index: u8,
        /// Whether the pool is that of high priority.
        high: bool,
    },
}

impl Who {
    fn raw(self) -> ffi::Who {
        match self {
            Who::Caller(index) => ffi::Who { kind: CALLER, index, cpu: 0 },
            Who::Worker { cpu, index, high } => ffi::Who { kind: if high { HIGH_WORKER } else { WORKER }, index, cpu },
        }
    }

    fn of(who: ffi::Who) -> Who {
        match who.kind {
            CALLER => Who::Caller(who.index),
            kind => Who::Worker { cpu: who.cpu, index: who.index, high: kind == HIGH_WORKER },
        }
    }
}

/// A call.
#[derive(Clone, Copy, Debug, PartialEq, Eq, Hash)]
#[allow(missing_docs)]
pub enum Call {
    /// `queue_work_on()`
    Queue { item: u16, queue: u8, cpu: u8 },
    /// `queue_delayed_work_on()`
    Delay { item: u16, queue: u8, cpu: u8, ticks: u32 },
    /// `mod_delayed_work_on()`
    Modify { item: u16, queue: u8, cpu: u8, ticks: u32 },
    /// `cancel_work()`, `cancel_delayed_work()`
    Cancel { item: u16 },
    /// So many ticks go by.
    Tick { ticks: u32 },
    /// The first timer that is due fires.
    Fire,
    /// `flush_workqueue()` begins.
    Flush { queue: u8 },
    /// `drain_workqueue()` begins.
    Drain { queue: u8 },
    /// `flush_work()` begins.
    FlushItem { item: u16 },
    /// `flush_delayed_work()` begins.
    FlushDelayed { item: u16 },
    /// `cancel_work_sync()` begins.
    CancelSync { item: u16 },
    /// The call of this ticket returns.
    End { ticket: u64 },
    /// A worker asks for work.
    Take,
    /// A worker's run ends.
    Finish,
    /// A worker's run goes to sleep.
    Sleep,
    /// A worker's run wakes.
    Wake,
    /// A worker goes to the reserve, if there are too many.
    Retire,
    /// `workqueue_set_max_active()`
    SetMax { queue: u8, max_active: u32 },
    /// `freeze_workqueues_begin()`
    Freeze,
    /// `thaw_workqueues()`
    Thaw,
    /// `destroy_workqueue()` begins.
    Destroy { queue: u8 },
}

impl Call {
    fn raw(self, who: Who) -> ffi::Call {
        let mut raw = ffi::Call { who: who.raw(), ..ffi::Call::default() };
        raw.kind = match self {
            Call::Queue { .. } => call::QUEUE,
            Call::Delay { .. } => call::DELAY,
            Call::Modify { .. } => call::MODIFY,
            Call::Cancel { .. } => call::CANCEL,
            Call::Tick { .. } => call::TICK,
            Call::Fire => call::FIRE,
            Call::Flush { .. } => call::FLUSH,
            Call::Drain { .. } => call::DRAIN,
            Call::FlushItem { .. } => call::FLUSH_ITEM,
            Call::FlushDelayed { .. } => call::FLUSH_DELAYED,
            Call::CancelSync { .. } => call::CANCEL_SYNC,
            Call::End { .. } => call::END,
            Call::Take => call::TAKE,
            Call::Finish => call::FINISH,
            Call::Sleep => call::SLEEP,
            Call::Wake => call::WAKE,
            Call::Retire => call::RETIRE,
            Call::SetMax { .. } => call::SET_MAX,
            Call::Freeze => call::FREEZE,
            Call::Thaw => call::THAW,
            Call::Destroy { .. } => call::DESTROY,
        };
        match self {
            Call::Queue { item, queue, cpu } => (raw.item, raw.queue, raw.cpu) = (item, queue, cpu),
            Call::Delay { item, queue, cpu, ticks } | Call::Modify { item, queue, cpu, ticks } => {
                (raw.item, raw.queue, raw.cpu, raw.number) = (item, queue, cpu, ticks);
            }
            Call::Cancel { item }
            | Call::FlushItem { item }
            | Call::FlushDelayed { item }
            | Call::CancelSync { item } => raw.item = item,
            Call::Tick { ticks } => raw.number = ticks,
            Call::Flush { queue } | Call::Drain { queue } | Call::Destroy { queue } => raw.queue = queue,
            Call::End { ticket } => raw.ticket = ticket,
            Call::SetMax { queue, max_active } => (raw.queue, raw.number) = (queue, max_active),
            Call::Fire
            | Call::Take
            | Call::Finish
            | Call::Sleep
            | Call::Wake
            | Call::Retire
            | Call::Freeze
            | Call::Thaw => {}
        }
        raw
    }

    fn of(raw: &ffi::Call) -> Call {
        let ffi::Call { ticket, number, item, kind, queue, cpu, .. } = *raw;
        match kind {
            call::QUEUE => Call::Queue { item, queue, cpu },
            call::DELAY => Call::Delay { item, queue, cpu, ticks: number },
            call::MODIFY => Call::Modify { item, queue, cpu, ticks: number },
            call::CANCEL => Call::Cancel { item },
            call::TICK => Call::Tick { ticks: number },
            call::FIRE => Call::Fire,
            call::FLUSH => Call::Flush { queue },
            call::DRAIN => Call::Drain { queue },
            call::FLUSH_ITEM => Call::FlushItem { item },
            call::FLUSH_DELAYED => Call::FlushDelayed { item },
            call::CANCEL_SYNC => Call::CancelSync { item },
            call::END => Call::End { ticket },
            call::TAKE => Call::Take,
            call::FINISH => Call::Finish,
            call::SLEEP => Call::Sleep,
            call::WAKE => Call::Wake,
            call::RETIRE => Call::Retire,
            call::SET_MAX => Call::SetMax { queue, max_active: number },
            call::FREEZE => Call::Freeze,
            call::THAW => Call::Thaw,
            _ => Call::Destroy { queue },
        }
    }
}

/// A reply. The number of a queueing or ticket is that of the entry that made it.
#[derive(Clone, Copy, Debug, PartialEq, Eq, Hash)]
#[allow(missing_docs)]
pub enum Reply {
    /// The item is queued, by the queueing of this number.
    Yes(u64),
    /// The item is delayed to this tick.
    Booked(u64),
    /// As [`Reply::Yes`], of an item that was pending.
    Again(u64),
    /// As [`Reply::Booked`], of an item that was pending.
    Rebooked(u64),
    /// The item was pending, or there was nothing to cancel, freeze or thaw.
    No,
    /// The item runs on another queue.
    Foreign,
    /// The queue is being drained or destroyed.
    Draining,
    /// The call is not possible at this point.
    Misuse,
    /// The queueing of this number is cancelled.
    Cancelled(u64),
    /// The delay is cancelled.
    Unbooked,
    /// It is this tick.
    Now(u64),
    /// The timer of the item fired, and the item is queued, by the queueing of this number.
    Fired { item: u16, number: u64 },
    /// No timer is due, or there is nothing to run.
    Nothing,
    /// The wait has begun, with this ticket.
    Ticket(u64),
    /// As [`Reply::Ticket`]. The item was delayed, and is queued by the queueing of the same number.
    TicketQueued(u64),
    /// As [`Reply::Ticket`]. The queueing of this number is cancelled.
    TicketCancelled { ticket: u64, number: u64 },
    /// As [`Reply::Ticket`]. The delay is cancelled.
    TicketUnbooked(u64),
    /// As [`Reply::Ticket`]. There was nothing to cancel.
    TicketNo(u64),
    /// The item is neither queued nor running.
    Idle,
    /// The caller has 64 tickets that have not ended.
    Crowded,
    /// The wait is over.
    Done,
    /// The ticket waits for the queueing of this number.
    Waiting(u64),
    /// The worker runs the queueing of this number.
    Started(u64),
    /// As [`Reply::Started`]. Another worker is enlisted.
    StartedEnlist { number: u64, worker: u8 },
    /// Another run holds the pool.
    Held,
    /// The queueing of this number has ended.
    Finished(u64),
    /// The run sleeps.
    Slept,
    /// The run is awake.
    Woke,
    /// The worker is in the reserve.
    Retired,
    /// The worker is not sent to the reserve.
    Kept,
    /// This `max_active` holds.
    Width(u32),
    /// The freezable queues are stopped.
    Frozen,
    /// The freezable queues go on.
    Thawed,
    /// The queue is destroyed.
    Gone,
    /// An item is delayed on the queue.
    Timers,
}

impl Reply {
    fn of(raw: &ffi::Reply) -> Reply {
        let ffi::Reply { number, other, item, kind } = *raw;
        match kind {
            reply::YES => Reply::Yes(number),
            reply::BOOKED => Reply::Booked(number),
            reply::AGAIN => Reply::Again(number),
            reply::REBOOKED => Reply::Rebooked(number),
            reply::NO => Reply::No,
            reply::FOREIGN => Reply::Foreign,
            reply::DRAINING => Reply::Draining,
            reply::MISUSE => Reply::Misuse,
            reply::CANCELLED => Reply::Cancelled(number),
            reply::UNBOOKED => Reply::Unbooked,
            reply::NOW => Reply::Now(number),
            reply::FIRED => Reply::Fired { item, number },
            reply::NOTHING => Reply::Nothing,
            reply::TICKET => Reply::Ticket(number),
            reply::TICKET_QUEUED => Reply::TicketQueued(number),
            reply::TICKET_CANCELLED => Reply::TicketCancelled { ticket: number, number: other },
            reply::TICKET_UNBOOKED => Reply::TicketUnbooked(number),
            reply::TICKET_NO => Reply::TicketNo(number),
            reply::IDLE => Reply::Idle,
            reply::CROWD => Reply::Crowded,
            reply::DONE => Reply::Done,
            reply::WAITING => Reply::Waiting(number),
            reply::STARTED => Reply::Started(number),
            reply::STARTED_ENLIST => Reply::StartedEnlist { number, worker: other as u8 },
            reply::HELD => Reply::Held,
            reply::FINISHED => Reply::Finished(number),
            reply::SLEPT => Reply::Slept,
            reply::WOKE => Reply::Woke,
            reply::RETIRED => Reply::Retired,
            reply::KEPT => Reply::Kept,
            reply::WIDTH => Reply::Width(number as u32),
            reply::FROZEN => Reply::Frozen,
            reply::THAWED => Reply::Thawed,
            reply::GONE => Reply::Gone,
            _ => Reply::Timers,
        }
    }
}

/// An entry of the history.
#[derive(Clone, Copy, Debug, PartialEq, Eq, Hash)]
pub struct Entry {
    /// Who made the call.
    pub who: Who,
    /// How many entries they had made before.
    pub serial: u64,
    /// The call.
    pub call: Call,
    /// Its reply.
    pub reply: Reply,
}

/// A runtime of one thread. It is closed when it is dropped.
pub struct Book(RawBook);

impl Book {
    /// Opens a book with no entries.
    ///
    /// # Errors
    /// [`Refusal::Refused`], [`Refusal::NoMemory`].
    pub fn open(shape: &Shape, queues: &[QueueOptions]) -> Result<Book, Refusal> {
        let queues: Vec<_> = queues.iter().map(|queue| queue.0).collect();
        RawBook::open(shape, &queues).map(Book).map_err(Refusal::of)
    }

    /// Makes a call.
    ///
    /// # Errors
    /// [`Refusal::Refused`], [`Refusal::Full`], [`Refusal::Crowded`].
    pub fn step(&mut self, who: Who, call: Call) -> Result<Reply, Refusal> {
        self.0.step(&call.raw(who)).map(|raw| Reply::of(&raw)).map_err(Refusal::of)
    }

    /// Returns the reply that the call would get, and makes nothing.
    ///
    /// # Errors
    /// As [`step`](Book::step).
    pub fn would(&mut self, who: Who, call: Call) -> Result<Reply, Refusal> {
        self.0.would(&call.raw(who)).map(|raw| Reply::of(&raw)).map_err(Refusal::of)
    }

    /// Makes the call of a line, such as `c0 queue 0 0 0`, and returns the line of its entry.
    ///
    /// # Errors
    /// As [`step`](Book::step).
    pub fn step_line(&mut self, call: &str) -> Result<String, Refusal> {
        self.0.step_line(call).map_err(Refusal::of)
    }

    /// Whether the ticket waits for nothing any more, so that its [`Call::End`] would be done.
    pub fn is_ready(&mut self, ticket: u64) -> bool {
        self.0.ready(ticket)
    }

    /// Whether the item is pending, and whether it is running. (`work_busy()`)
    ///
    /// # Errors
    /// [`Refusal::Refused`].
    pub fn busy(&mut self, item: u16) -> Result<(bool, bool), Refusal> {
        self.0.bits(item).map(|bits| (bits & 1 != 0, bits & 2 != 0)).map_err(Refusal::of)
    }

    /// How many entries they have made.
    ///
    /// # Errors
    /// [`Refusal::Refused`].
    pub fn serial(&mut self, who: Who) -> Result<u64, Refusal> {
        self.0.serial(&who.raw()).map_err(Refusal::of)
    }

    /// How many entries there are.
    pub fn count(&mut self) -> u64 {
        self.0.len()
    }

    /// The number of the first entry that is kept.
    pub fn first(&mut self) -> u64 {
        self.0.first()
    }

    /// How many more entries there is room for, with those that are owed.
    pub fn room_left(&mut self) -> u64 {
        self.0.room_left()
    }

    /// How many queueings have not ended.
    pub fn open_count(&mut self) -> u32 {
        self.0.open_count()
    }

    /// How many queueings are active.
    pub fn active_count(&mut self) -> u32 {
        self.0.active_count()
    }

    /// Returns the entry of this number, if it is kept.
    ///
    /// # Errors
    /// [`Refusal::Refused`].
    pub fn entry(&mut self, number: u64) -> Result<Entry, Refusal> {
        let ffi::Entry { serial, call, reply } = self.0.entry(number).map_err(Refusal::of)?;
        Ok(Entry { who: Who::of(call.who), serial, call: Call::of(&call), reply: Reply::of(&reply) })
    }

    /// Returns the line of the entry of this number, if it is kept.
    ///
    /// # Errors
    /// [`Refusal::Refused`].
    pub fn entry_line(&mut self, number: u64) -> Result<String, Refusal> {
        self.0.entry_line(number).map_err(Refusal::of)
    }

    /// Forgets all entries that are kept, so that as many more can be kept. The replies remain those of the whole
    /// history.
    pub fn forget(&mut self) {
        self.0.forget();
    }
}

impl fmt::Debug for Book {
    fn fmt(&self, f: &mut fmt::Formatter<'_>) -> fmt::Result {
        f.debug_struct("Book").finish_non_exhaustive()
    }
}
