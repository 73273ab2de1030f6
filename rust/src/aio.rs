//! The same workqueues over futures, on the executor that the program has. A work function returns a future, which is
//! its *run*, and calls that wait are futures too. Neither a worker nor a wait has a thread.
//!
//! A run whose future is pending sleeps, as a kernel worker that blocks, and a run that is polled is awake. So other
//! runs of a pool start while one awaits, and still one run of a plain queue is awake at a time on a CPU. What blocks
//! the thread instead of awaiting is seen by nobody: the run stays awake, and the executor's thread is held up.
//!
//! [`Builder::build`] hands out the tasks of the workqueues, which the executor must run to their ends:
//!
//! ```
//! use cmwq::{aio, max_active};
//! use std::time::Duration;
//!
//! # fn spawn(task: aio::Task) { std::thread::spawn(move || block_on(task)); }
//! # fn block_on<T>(future: impl std::future::Future<Output = T>) -> T {
//! #     struct Unpark(std::thread::Thread);
//! #     impl std::task::Wake for Unpark {
//! #         fn wake(self: std::sync::Arc<Self>) { self.0.unpark() }
//! #     }
//! #     let waker = std::task::Waker::from(std::sync::Arc::new(Unpark(std::thread::current())));
//! #     let mut future = std::pin::pin!(future);
//! #     loop {
//! #         match future.as_mut().poll(&mut std::task::Context::from_waker(&waker)) {
//! #             std::task::Poll::Ready(value) => return value,
//! #             std::task::Poll::Pending => std::thread::park(),
//! #         }
//! #     }
//! # }
//! # async fn send(_line: &str) {}
//! async fn example() -> cmwq::Result<()> {
//!     // with tokio, `spawn` is `|task| { tokio::spawn(task); }`
//!     let workqueues = aio::Workqueues::builder().workers(8).queue("net", max_active(4)).build(spawn)?;
//!     let net = workqueues.queue("net")?;
//!     let report = net.item(|_run| async { send("a line").await })?; // at most one run at a time
//!     report.queue()?;
//!     net.flush().await?; // what was queued has ended
//!     report.queue_delayed(Duration::from_secs(60))?;
//!     assert!(report.cancel_sync().await?); // it was pending; now it is neither pending nor running
//!     workqueues.shutdown().await
//! }
//! # block_on(example()).unwrap();
//! ```
//!
//! # Who makes a call
//!
//! Calls that a run makes while it is polled are calls of its run, by whatever handle. Tasks that it spawns are others.
//! A wait of a run that could never end is refused as [`Error::Itself`] or [`Error::Deadlock`].
//!
//! # Time limits
//!
//! Calls have none: a wait is left when its future is dropped, for example by `tokio::time::timeout`. See [`Wait`].
mod clock;
mod hub;
mod wait;
mod worker;

pub use clock::{Clock, ThreadClock, Until};
pub use wait::Wait;

use crate::error::{Error, Result};
use crate::ffi::{call, reply, Who};
use crate::shell::{builder_calls, calls_of_all, item_calls, queue_calls, shown};
use crate::shell::{number_of_queue, spawn, Hold as _, Items, Own, QueueOf, Setup, Shell, Tick};
use crate::QueueOptions;
use hub::{Hub, Parties, Work};
use std::fmt;
use std::future::Future;
use std::io::Write;
use std::pin::Pin;
use std::sync::Arc;
use std::time::Duration;
use wait::had_something;

/// What an executor is given to run.
pub type Task = Pin<Box<dyn Future<Output = ()> + Send>>;

/// Makes [`Workqueues`].
#[must_use]
pub struct Builder {
    setup: Setup,
    clock: Option<Box<dyn Clock>>,
}

impl Builder {
    builder_calls!();

    /// How many workers each pool has, 1 to 64. So many of its runs may be going on at once, most of them pending. A
    /// worker is a task, not a thread. By default 64.
    pub fn workers(mut self, workers: u8) -> Self {
        self.setup.shape.workers = workers;
        self
    }

    /// How many waits may go on at once, 1 to 254. Any number of others waits in line to begin. By default 254.
    pub fn waits(mut self, waits: u8) -> Self {
        self.setup.waits = waits;
        self
    }

    /// The time of delays. By default that of a [`ThreadClock`], whose thread is started when an item is delayed first.
    pub fn clock(mut self, clock: impl Clock) -> Self {
        self.clock = Some(Box::new(clock));
        self
    }

    /// Writes the history as text, which [`check`](crate::check) reads. A thread writes each entry within a tenth of a
    /// second, since a writer may block. If it falls behind, calls block for it, so the writer must not call these
    /// workqueues. By default no history is written.
    pub fn history(mut self, writer: impl Write + Send + 'static) -> Self {
        self.setup.history = Some(Box::new(writer));
        self
    }

    /// Makes the workqueues. `spawn` is given their tasks: one that keeps time, and one for each worker of each CPU's
    /// pool, and of its pool of high priority if a queue has that option. If one of them is dropped before its end,
    /// the workqueues fail: all calls and waits return [`Error::Closed`].
    ///
    /// # Errors
    /// [`Error::Invalid`], [`Error::NoMemory`], [`Error::Thread`], [`Error::Version`].
    pub fn build(mut self, mut spawn: impl FnMut(Task)) -> Result<Workqueues> {
        let (mut state, head) = self.setup.open(Parties::new)?;
        let Setup { shape, tick, .. } = self.setup;
        let workers: Vec<Who> = self.setup.workers().collect();
        let intensive = self.setup.queues.iter().map(|queue| queue.intensive != 0).collect();
        if self.setup.history.is_none() {
            state.own.written = Some(Ok(()));
        }
        let clock = self.clock.unwrap_or_else(|| Box::new(ThreadClock::default()));
        let hub = Arc::new(Hub::new(state, shape, intensive, clock, tick));
        let made = Workqueues { hub: hub.clone(), names: self.setup.names, ended: false };
        if let Some(writer) = self.setup.history {
            let own = hub.clone();
            let journal = move || {
                let written = own.guarded.keep_journal(&head, writer);
                let mut hold = own.hold();
                hold.state.own.written = Some(written);
                hold.wake_enders();
            };
            spawn_thread(journal)?;
        }
        spawn(Box::pin(clock::keep_time(hub.clone())));
        workers.into_iter().for_each(|who| spawn(Box::pin(worker::Worker::new(hub.clone(), who))));
        Ok(made)
    }
}

fn spawn_thread(journal: impl FnOnce() + Send + 'static) -> Result<()> {
    spawn("cmwq journal", journal).map(drop)
}

impl fmt::Debug for Builder {
    fn fmt(&self, f: &mut fmt::Formatter<'_>) -> fmt::Result {
        let mut shown = f.debug_struct("Builder");
        self.setup.show(&mut shown);
        shown.finish()
    }
}

/// Queues with their tasks. When they are dropped, nothing new is taken and what is queued runs, but nobody is told how
/// that ends.
pub struct Workqueues {
    hub: Arc<Hub>,
    names: Vec<String>,
    ended: bool,
}

impl Workqueues {
    /// A builder with the defaults, and no queue.
    pub fn builder() -> Builder {
        Builder { setup: Setup::new(64, 254), clock: None }
    }

    calls_of_all!();

    /// Takes no more work, thaws, cancels what is delayed, lets what is queued run, waits until all workers have ended,
    /// and drops all work functions. What a run queues is run too. What it delays is refused. If this future is
    /// dropped, that happens all the same.
    ///
    /// # Errors
    /// [`Error::History`]; [`Error::Closed`] if the executor has dropped a task; [`Error::NotRun`] or
    /// [`Error::Panicked`]; the first of these. In a work function [`Error::Itself`]: it can't wait for its own end, so
    /// the workqueues end as if they were dropped.
    pub async fn shutdown(mut self) -> Result<()> {
        if self.hub.hold().worker().is_some() {
            return Err(Error::Itself);
        }
        self.hub.close();
        let failed = self.hub.until(|own| (own.tasks == 0).then_some(own.failed)).await;
        self.ended = true;
        let told = self.hub.end().discard();
        self.hub.until(|own| own.written.take()).await.map_err(Error::History)?;
        match failed {
            true => Err(Error::Closed),
            false => told,
        }
    }
}

impl Drop for Workqueues {
    fn drop(&mut self) {
        if self.ended {
            return;
        }
        self.hub.close();
        let mut hold = self.hub.hold();
        hold.state.own.detached = true;
        let is_last = hold.state.own.tasks == 0;
        drop(hold);
        if is_last {
            let _ = self.hub.end().discard();
        }
    }
}

/// A handle of a queue.
#[derive(Clone)]
pub struct Queue(QueueOf<Hub>);

impl Queue {
    /// Makes an item of this queue, on a CPU that is chosen once. Each start calls the work function, and polls the
    /// future that it returns to its end. At most one run is going on at a time. The item is gone once its last handle
    /// is dropped and it is neither pending nor running.
    ///
    /// # Errors
    /// [`Error::NoItem`], and [`Error::Closed`] from the beginning of the shutdown on. Work functions make items until
    /// they have ended.
    pub fn item<F>(&self, work: impl FnMut(Run) -> F + Send + 'static) -> Result<Item>
    where
        F: Future<Output = ()> + Send + 'static,
    {
        self.0.add(None, boxed(work)).map(Item)
    }

    /// Makes an item of this queue on this CPU.
    ///
    /// # Errors
    /// As [`item`](Queue::item), and [`Error::Invalid`].
    pub fn item_on<F>(&self, cpu: u8, work: impl FnMut(Run) -> F + Send + 'static) -> Result<Item>
    where
        F: Future<Output = ()> + Send + 'static,
    {
        self.0.add(Some(cpu), boxed(work)).map(Item)
    }

    queue_calls!();

    fn wait(&self, kind: u8) -> Wait<()> {
        Wait::new(&self.0.hub, kind, 0, self.0.number, drop)
    }

    /// Waits until everything that was queued on the queue has ended. (`flush_workqueue()`)
    ///
    /// # Errors
    /// [`Error::Gone`], [`Error::Full`], [`Error::Closed`]. In a work function also [`Error::Itself`],
    /// [`Error::Deadlock`] and [`Error::TooManyWaits`].
    pub fn flush(&self) -> Wait<()> {
        self.wait(call::FLUSH)
    }

    /// Waits until nothing is queued on the queue. Meanwhile only its own runs may queue on it. (`drain_workqueue()`)
    ///
    /// # Errors
    /// As [`flush`](Queue::flush).
    pub fn drain(&self) -> Wait<()> {
        self.wait(call::DRAIN)
    }

    /// Drains the queue, which takes nothing from then on. (`destroy_workqueue()`)
    ///
    /// # Errors
    /// As [`flush`](Queue::flush), [`Error::Timers`] if an item is delayed on the queue, and [`Error::Draining`] if
    /// another call destroys it.
    pub fn destroy(&self) -> Wait<()> {
        self.wait(call::DESTROY)
    }
}

/// A work function, whose futures are boxed.
fn boxed<F>(mut work: impl FnMut(Run) -> F + Send + 'static) -> Work
where
    F: Future<Output = ()> + Send + 'static,
{
    Box::new(move |run| -> hub::Started { Box::pin(work(run)) })
}

/// A handle of an item of work: a `work_struct` with its function. An item that is dropped while it is pending runs.
#[derive(Clone)]
pub struct Item(Arc<Own<Hub>>);

impl Item {
    item_calls!();

    fn wait(&self, kind: u8) -> Wait<bool> {
        Wait::new(&self.0.hub, kind, self.0.number, 0, had_something)
    }

    /// Cancels the item if it is pending, which is returned, and waits until it is not running. Meanwhile it can't be
    /// queued. (`cancel_delayed_work_sync()`)
    ///
    /// # Errors
    /// [`Error::Full`], [`Error::Closed`]. In a work function also [`Error::Itself`], [`Error::Deadlock`] and
    /// [`Error::TooManyWaits`].
    pub fn cancel_sync(&self) -> Wait<bool> {
        self.wait(call::CANCEL_SYNC)
    }

    /// Waits until the item has ended, if it is queued or running. Returns `false` if it is neither. It doesn't wait
    /// for a delay. (`flush_work()`)
    ///
    /// # Errors
    /// As [`cancel_sync`](Item::cancel_sync).
    pub fn flush(&self) -> Wait<bool> {
        self.wait(call::FLUSH_ITEM)
    }

    /// Queues the item at once if it is delayed, and waits as [`flush`](Item::flush) does. (`flush_delayed_work()`)
    ///
    /// # Errors
    /// As [`cancel_sync`](Item::cancel_sync), and [`Error::Draining`].
    pub fn flush_delayed(&self) -> Wait<bool> {
        self.wait(call::FLUSH_DELAYED)
    }
}

shown!(Item, Queue, Workqueues);

/// A run of a work function. It can be used until the run has ended.
pub struct Run {
    hub: Arc<Hub>,
    place: usize,
    /// How many runs of the worker had ended when it began.
    number: u64,
    item: u16,
    queue: u8,
    cpu: u8,
}

impl Run {
    fn held<T>(&self, call: impl FnOnce(&mut hub::Hold<'_>) -> Result<T>) -> Result<T> {
        let mut hold = self.hub.hold();
        if hold.state.own.workers[self.place].ended != self.number {
            return Err(Error::RunEnded);
        }
        call(&mut hold)
    }

    /// Queues the item that is running, on the queue and CPU where it runs. Returns `false` if it is pending.
    ///
    /// # Errors
    /// As [`Item::queue`], and [`Error::RunEnded`].
    pub fn requeue(&self) -> Result<bool> {
        self.held(|hold| hold.put(self.item, self.queue, self.cpu))
    }

    /// Queues the item that is running once this time has passed. Returns `false` if it is pending.
    ///
    /// # Errors
    /// As [`Item::queue_delayed`], and [`Error::RunEnded`].
    pub fn requeue_after(&self, delay: Duration) -> Result<bool> {
        let ticks = self.hub.ticks(delay);
        self.held(|hold| hold.delay(call::DELAY, self.item, self.queue, self.cpu, ticks)).map(|kind| kind != reply::NO)
    }
}

impl fmt::Debug for Run {
    fn fmt(&self, f: &mut fmt::Formatter<'_>) -> fmt::Result {
        let (Run { item, queue, .. }, worker) = (self, self.hub.worker_at(self.place));
        f.debug_struct("Run").field("item", item).field("queue", queue).field("worker", &worker).finish()
    }
}
