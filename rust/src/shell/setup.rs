//! What the builders of both shells set.
use super::items::Slot;
use super::journal::{kept, Journal};
use super::{State, Tick};
use crate::error::{Error, Result};
use crate::ffi::{self, status, Board, QueueShape, Shape, Who, HIGH_WORKER, WORKER};
use crate::QueueOptions;
use std::fmt;
use std::io::Write;
use std::thread::{self, JoinHandle};
use std::time::Duration;

pub(crate) struct Setup {
    pub(crate) shape: Shape,
    pub(crate) waits: u8,
    pub(crate) names: Vec<String>,
    pub(crate) queues: Vec<QueueShape>,
    pub(crate) tick: Tick,
    pub(crate) history: Option<Box<dyn Write + Send>>,
}

impl Setup {
    /// The defaults, and no queue.
    pub(crate) fn new(workers: u8, waits: u8) -> Setup {
        Setup {
            shape: Shape { room: 1 << 62, keep: 1024, items: 256, cpus: 1, workers, callers: 0 },
            waits,
            names: Vec::new(),
            queues: Vec::new(),
            tick: Tick(Duration::from_millis(1)),
            history: None,
        }
    }

    pub(crate) fn add_queue(&mut self, name: &str, options: QueueOptions) {
        self.names.push(name.to_owned());
        self.queues.push(options.0);
    }

    /// Opens a board, to which the shell adds `own`. Returns the lines that begin the history too.
    pub(crate) fn open<W, O>(&mut self, own: impl FnOnce(&Shape) -> O) -> Result<(State<W, O>, Vec<u8>)> {
        crate::check_version()?;
        if self.waits == 0 || self.waits == 255 {
            return Err(Error::Invalid("waits"));
        }
        if self.tick.0.is_zero() {
            return Err(Error::Invalid("the tick"));
        }
        if (1..self.names.len()).any(|at| self.names[..at].contains(&self.names[at])) {
            return Err(Error::Invalid("two queues of one name"));
        }
        self.shape.callers = 1 + self.waits;
        let most = self.shape.keep.max(1);
        let items = self.shape.items;
        self.shape.keep = kept(most, items);
        let invalid = |fault| match fault {
            status::REFUSED => Error::Invalid("a count of the builder"),
            fault => Error::of(fault),
        };
        let head = ffi::head(&self.shape, &self.queues).map_err(invalid)?;
        let board = Board::open(&self.shape, &self.queues, self.waits).map_err(invalid)?;
        let state = State {
            board,
            slots: (0..items).map(|_| Slot::new(None, 0)).collect(),
            free: (0..items).rev().collect(),
            due: u64::MAX,
            has_timers: false,
            closing: false,
            ended: false,
            panics: 0,
            journal: Journal::new(self.history.is_some(), most),
            own: own(&self.shape),
        };
        Ok((state, head))
    }

    /// The workers that can have something to do: those of high priority are there if a queue has that option.
    pub(crate) fn workers(&self) -> impl Iterator<Item = Who> {
        let Shape { cpus, workers, .. } = self.shape;
        let kinds = 1 + usize::from(self.queues.iter().any(|queue| queue.high != 0));
        (0..cpus).flat_map(move |cpu| {
            let kinds = [WORKER, HIGH_WORKER].into_iter().take(kinds);
            kinds.flat_map(move |kind| (0..workers).map(move |index| Who { kind, index, cpu }))
        })
    }

    pub(crate) fn show<'a, 'b>(&self, shown: &mut fmt::DebugStruct<'a, 'b>) {
        let queues: Vec<_> = self.names.iter().zip(&self.queues).collect();
        shown
            .field("cpus", &self.shape.cpus)
            .field("workers", &self.shape.workers)
            .field("items", &self.shape.items)
            .field("waits", &self.waits)
            .field("queues", &queues)
            .field("tick", &self.tick.0)
            .field("history", &self.history.is_some())
            .field("room", &self.shape.room)
            .field("keep", &self.shape.keep);
    }
}

/// The number of the queue of this name.
pub(crate) fn number_of_queue(names: &[String], name: &str) -> Result<u8> {
    match names.iter().position(|own| own == name) {
        Some(number) => Ok(number as u8),
        None => Err(Error::NoQueue(name.to_owned())),
    }
}

/// The place of a worker among all that a shape has.
#[inline]
pub(crate) fn place_of(shape: &Shape, worker: &Who) -> usize {
    let pool = 2 * usize::from(worker.cpu) + usize::from(worker.kind == HIGH_WORKER);
    pool * usize::from(shape.workers) + usize::from(worker.index)
}

/// How many workers a shape has.
pub(crate) fn workers_of(shape: &Shape) -> usize {
    2 * usize::from(shape.cpus) * usize::from(shape.workers)
}

pub(crate) fn spawn<T: Send + 'static>(name: &str, body: impl FnOnce() -> T + Send + 'static) -> Result<JoinHandle<T>> {
    thread::Builder::new().name(name.to_owned()).spawn(body).map_err(Error::Thread)
}
