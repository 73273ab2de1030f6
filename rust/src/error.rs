use crate::ffi::{status, Fault};
use std::sync::Arc;
use std::{fmt, io};

/// Why a call failed. A call that fails changes nothing, unless the error says otherwise.
#[derive(Debug)]
#[non_exhaustive]
pub enum Error {
    /// An argument is outside its limits. The text says which.
    Invalid(&'static str),
    /// There is no queue of this name.
    NoQueue(String),
    /// All items of the builder are in use.
    NoItem,
    /// There is no memory.
    NoMemory,
    /// A thread could not be started.
    Thread(io::Error),
    /// The linked library has another version than this crate.
    Version {
        /// The version of the library.
        library: String,
        /// The version of this crate.
        expected: String,
    },
    /// The workqueues are shut down, or an executor has dropped a task of theirs.
    Closed,
    /// The room for entries is used up.
    Full,
    /// The item runs on another queue.
    Foreign,
    /// The queue is being drained or destroyed.
    Draining,
    /// The queue is destroyed.
    Gone,
    /// An item is delayed on the queue, so the queue can't be destroyed.
    Timers,
    /// A work function would wait for its own run.
    Itself,
    /// A work function would wait for something that can't end before the work function itself.
    Deadlock,
    /// As many calls wait as may ([`Builder::waits`](crate::Builder::waits)).
    TooManyWaits,
    /// The time limit has passed. The wait has begun, and the library ends it later: until then a queue that is being
    /// drained takes no work, and an item that is being cancelled can't be queued.
    TimedOut,
    /// The run has ended whose [`aio::Run`](crate::aio::Run) this is.
    RunEnded,
    /// The item's work function has panicked.
    Poisoned,
    /// So many items were queued and did not run, since the workqueues have failed.
    /// [`Workqueues::shutdown`](crate::Workqueues::shutdown) returns it. They are still
    /// [pending](crate::Item::is_pending).
    NotRun(usize),
    /// So many work functions have panicked. [`Workqueues::shutdown`](crate::Workqueues::shutdown) returns it.
    Panicked(usize),
    /// The history could not be written, and ends where that happened.
    /// [`Workqueues::shutdown`](crate::Workqueues::shutdown) returns it.
    History(io::Error),
    /// The text is not a history.
    NoHistory,
    /// The [builder](crate::Builder::item) has no item of this name.
    UnknownItem(String),
    /// [Durable](crate::Builder::durable) workqueues have the items alone that their builder names.
    Unnamed,
    /// The workqueues are not [durable](crate::Builder::durable).
    NoJournal,
    /// The journal of durable workqueues is not the front of a legal history. Its file stays as it is.
    BadJournal {
        /// The line that is wrong, from 1.
        line: u64,
    },
    /// The journal of durable workqueues has what their builder has not, or has by another name: `item 3 flush_cache`,
    /// `queue 1 disk` or `CPU 2`. Its file stays as it is.
    OtherShape(String),
    /// Other workqueues, of this program or of another one, have the journal.
    InUse,
    /// The disk with the journal has failed, for good: the call was not made, and no later one is.
    DiskFailed(Arc<io::Error>),
    /// The call was made, but the disk failed before that was [durable](crate::Builder::each).
    NotDurable(Arc<io::Error>),
    /// The workqueues are being [left](crate::Workqueues::leave). A wait that returns this in a work function breaks
    /// its run off, so the next life has it again.
    Stopped,
}

/// The result of a call.
pub type Result<T> = std::result::Result<T, Error>;

impl fmt::Display for Error {
    fn fmt(&self, f: &mut fmt::Formatter<'_>) -> fmt::Result {
        match self {
            Error::Invalid(what) => write!(f, "outside its limits: {what}"),
            Error::NoQueue(name) => write!(f, "there is no queue {name:?}"),
            Error::NoItem => f.write_str("all items are in use"),
            Error::NoMemory => f.write_str("out of memory"),
            Error::Thread(why) => write!(f, "a thread could not be started: {why}"),
            Error::Version { library, expected } => {
                write!(f, "libcmwq_c.a has version {library}, and this crate needs {expected}")
            }
            Error::Closed => f.write_str("the workqueues are shut down"),
            Error::Full => f.write_str("the room for entries is used up"),
            Error::Foreign => f.write_str("the item runs on another queue"),
            Error::Draining => f.write_str("the queue is being drained or destroyed"),
            Error::Gone => f.write_str("the queue is destroyed"),
            Error::Timers => f.write_str("an item is delayed on the queue"),
            Error::Itself => f.write_str("a work function would wait for itself"),
            Error::Deadlock => f.write_str("the wait could never end"),
            Error::TooManyWaits => f.write_str("too many calls wait"),
            Error::TimedOut => f.write_str("the time limit has passed"),
            Error::RunEnded => f.write_str("the run has ended"),
            Error::Poisoned => f.write_str("the item's work function has panicked"),
            Error::NotRun(count) => write!(f, "queued items did not run: {count}"),
            Error::Panicked(count) => write!(f, "work functions have panicked: {count}"),
            Error::History(why) => write!(f, "the history could not be written: {why}"),
            Error::NoHistory => f.write_str("the text is not a history"),
            Error::UnknownItem(name) => write!(f, "there is no item {name:?}"),
            Error::Unnamed => f.write_str("durable workqueues have no items but those that the builder names"),
            Error::NoJournal => f.write_str("the workqueues are not durable"),
            Error::BadJournal { line } => write!(f, "the journal is no legal history, because of line {line}"),
            Error::OtherShape(what) => write!(f, "the journal has what the builder has not: {what}"),
            Error::InUse => f.write_str("other workqueues have the journal"),
            Error::DiskFailed(why) => write!(f, "the disk has failed: {why}"),
            Error::NotDurable(why) => write!(f, "the call was made, but the disk failed before it was durable: {why}"),
            Error::Stopped => f.write_str("the workqueues are being left"),
        }
    }
}

impl std::error::Error for Error {
    fn source(&self) -> Option<&(dyn std::error::Error + 'static)> {
        match self {
            Error::Thread(why) | Error::History(why) => Some(why),
            Error::DiskFailed(why) | Error::NotDurable(why) => Some(&**why),
            _ => None,
        }
    }
}

impl Error {
    /// The error of a status of the library.
    pub(crate) fn of(fault: Fault) -> Error {
        match fault {
            status::STOPPED | status::FAILED | status::OVER | status::CLOSED => Error::Closed,
            status::FULL => Error::Full,
            status::NO_MEMORY => Error::NoMemory,
            status::ITSELF => Error::Itself,
            status::DEADLOCK => Error::Deadlock,
            status::NO_CALLER => Error::TooManyWaits,
            _ => Error::Invalid("a number"),
        }
    }
}
