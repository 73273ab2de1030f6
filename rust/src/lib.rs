//! Workqueues with threads, as Linux has them: items of work that run one at a time each, queues that limit how many
//! are active, delays, and flushes and cancellations that wait.
//!
//! A CPU's pool runs one *awake* run of a plain queue at a time. So `workers(4)` runs four items at once only if their
//! queue is [CPU intensive](QueueOptions::cpu_intensive), if they are on several CPUs, or if runs sleep, which they do
//! in calls that wait and in [`Run::block`].
//!
//! ```
//! use cmwq::{max_active, Workqueues};
//! use std::time::Duration;
//!
//! # fn main() -> cmwq::Result<()> {
//! let workqueues = Workqueues::builder().cpus(2).workers(4).queue("disk", max_active(2)).build()?;
//! let disk = workqueues.queue("disk")?;
//! let mut lines = Vec::new();
//! let write = disk.item(move |_run| lines.push("a line"))?; // FnMut: at most one run at a time
//! write.queue()?;
//! disk.flush()?; // what was queued has ended
//! write.queue_delayed(Duration::from_secs(60))?;
//! assert!(write.cancel_sync()?); // it was pending; now it is neither pending nor running
//! workqueues.shutdown()
//! # }
//! ```
//!
//! [`aio`] has the same workqueues over futures, for programs that have an executor.
//!
//! # Durable workqueues
//!
//! [`Builder::durable`] keeps the history in a file, so that what is queued or delayed outlives the program. The next
//! workqueues with this file, its next *life*, have what the last one left, and runs that were broken off.
//!
//! Any of their calls may return [`Error::DiskFailed`]. With [`Builder::each`] it may return [`Error::NotDurable`], and
//! while they are [left](Workqueues::leave), calls that queue or wait return [`Error::Stopped`].
//!
//! ```
//! use cmwq::{max_active, Workqueues};
//!
//! # fn main() -> cmwq::Result<()> {
//! # let folder = std::env::temp_dir().join(format!("cmwq-doc-{}", std::process::id()));
//! # std::fs::create_dir_all(&folder).map_err(std::sync::Arc::new).map_err(cmwq::Error::DiskFailed)?;
//! # let journal = folder.join("journal");
//! let workqueues = Workqueues::builder()
//!     .queue("disk", max_active(2))
//!     .item("flush_cache", "disk", |_run| println!("flushed"))
//!     .durable(&journal)
//!     .each()
//!     .build()?; // has what the last life left
//! workqueues.item("flush_cache")?.queue()?; // returns once that is on the disk
//! workqueues.leave()?; // keeps what has not started for the next life
//! # std::fs::remove_dir_all(&folder).map_err(std::sync::Arc::new).map_err(cmwq::Error::DiskFailed)?;
//! # Ok(())
//! # }
//! ```
//!
//! # Who makes a call
//!
//! Calls in a work function are calls of its run, by whatever handle. A run that waits sleeps meanwhile, so that other
//! items of its pool can run. A wait of a run that could never end is refused as [`Error::Itself`] or
//! [`Error::Deadlock`]. Calls of other threads wait for as long as it takes, or up to a time limit.
//!
//! # What is proved
//!
//! The machine behind this crate is proved: each reply, whom each call wakes, and which waits are refused. This crate
//! is tested. It must hold its lock at each call, wake those who are named, and run a work function once for each
//! start.
#![deny(unsafe_code, unsafe_op_in_unsafe_fn, missing_docs, missing_debug_implementations)]

#[cfg(not(all(target_os = "linux", target_arch = "x86_64", target_env = "gnu")))]
compile_error!("cmwq runs on x86_64-unknown-linux-gnu only: its proved library is built for that target");

pub mod aio;
pub mod book;
mod error;
#[allow(unsafe_code, missing_docs)]
mod ffi;
mod hub;
mod shell;
#[cfg(test)]
mod sim;

pub use error::{Error, Result};
use ffi::{call, reply, status, QueueShape, Who, CALLER, WORKER};
use hub::durable::{self, Options};
use hub::{Durable, Hub, Named, Own as OfHub, Work};
use shell::{builder_calls, calls_of_all, item_calls, queue_calls, shown};
use shell::{number_of_queue, spawn, Hold, Items, Own, QueueOf, Setup, Shell, State, Tick};
use std::collections::HashMap;
use std::fmt;
use std::io::{self, Write};
use std::marker::PhantomData;
use std::mem::ManuallyDrop;
use std::path::PathBuf;
use std::sync::Arc;
use std::thread::JoinHandle;
use std::time::Duration;

/// The version of this crate, which is that of its library.
pub const VERSION: &str = env!("CARGO_PKG_VERSION");

/// A version as the library has it.
const fn number_of(version: &str) -> u32 {
    let (bytes, mut parts, mut part, mut at) = (version.as_bytes(), [0; 3], 0, 0);
    while at < bytes.len() {
        if bytes[at] == b'.' {
            part += 1;
        } else {
            parts[part] = 10 * parts[part] + (bytes[at] - b'0') as u32;
        }
        at += 1;
    }
    parts[0] * 1_000_000 + parts[1] * 1000 + parts[2]
}

fn check_version() -> Result<()> {
    let library = ffi::version();
    if library == number_of(VERSION) {
        return Ok(());
    }
    let library = format!("{}.{}.{}", library / 1_000_000, library / 1000 % 1000, library % 1000);
    Err(Error::Version { library, expected: VERSION.to_owned() })
}

/// What [`check`] finds.
#[derive(Clone, Debug, PartialEq, Eq)]
pub enum Verdict {
    /// The history is legal.
    Legal {
        /// How many entries it has.
        entries: u64,
    },
    /// An entry is wrong. The line says which, and what should be there: `illegal at 3: reply no`.
    Illegal {
        /// The line, as `cmwq check` prints it.
        line: String,
    },
}

/// Judges a whole history, of any format, as `cmwq check` does.
///
/// # Errors
/// [`Error::NoHistory`] if the text is not a history, or was cut off, and [`Error::NoMemory`].
pub fn check(history: &[u8]) -> Result<Verdict> {
    match ffi::check(history) {
        Ok((true, line)) => match line.trim().strip_prefix("legal ").and_then(|entries| entries.parse().ok()) {
            Some(entries) => Ok(Verdict::Legal { entries }),
            None => Err(Error::NoHistory),
        },
        Ok((false, line)) => Ok(Verdict::Illegal { line: line.trim().to_owned() }),
        Err(status::NO_MEMORY) => Err(Error::NoMemory),
        Err(_) => Err(Error::NoHistory),
    }
}

/// The options of a queue, as of `alloc_workqueue()`. [`max_active`] makes them.
#[derive(Clone, Copy, Debug, PartialEq, Eq)]
pub struct QueueOptions(QueueShape);

/// Options of a queue of which at most so many items are active on each CPU, 1 to 512.
pub const fn max_active(limit: u16) -> QueueOptions {
    QueueOptions(QueueShape { max_active: limit, high: 0, intensive: 0, freezable: 0 })
}

impl QueueOptions {
    /// Runs the items in the pools of high priority (`WQ_HIGHPRI`).
    pub const fn high_priority(mut self) -> Self {
        self.0.high = 1;
        self
    }

    /// The runs don't hold up other runs of their pool (`WQ_CPU_INTENSIVE`), so the pool is a thread pool for them.
    pub const fn cpu_intensive(mut self) -> Self {
        self.0.intensive = 1;
        self
    }

    /// [`Workqueues::freeze`] stops the queue (`WQ_FREEZABLE`).
    pub const fn freezable(mut self) -> Self {
        self.0.freezable = 1;
        self
    }
}

/// When an entry of [durable](Builder::durable) workqueues counts as durable, so that nobody waits for it any more.
#[derive(Clone, Copy, Debug, Default, PartialEq, Eq)]
pub enum Sync {
    /// Nobody waits. Entries are written within a tenth of a second.
    None,
    /// Once it is written to the file, so it outlives the program.
    Write,
    /// Once the file is synced, as by `fdatasync()`, so it outlives a power failure.
    #[default]
    Data,
}

/// An item that the builder names.
struct OfBuilder {
    name: String,
    queue: String,
    cpu: Option<u8>,
    work: Work,
}

/// Makes [`Workqueues`].
#[must_use]
pub struct Builder {
    setup: Setup,
    spins: u32,
    items: Vec<OfBuilder>,
    durable: Options,
}

impl Builder {
    builder_calls!();

    /// How many threads each pool has, 1 to 64. By default 4.
    pub fn workers(mut self, workers: u8) -> Self {
        self.setup.shape.workers = workers;
        self
    }

    /// How many calls may wait at once, 1 to 254. By default 63.
    pub fn waits(mut self, waits: u8) -> Self {
        self.setup.waits = waits;
        self
    }

    /// Writes the history as text, which [`check`] reads. A thread writes each entry within a tenth of a second. If it
    /// falls behind, calls wait for it, so the writer must not call these workqueues. By default no history is written.
    pub fn history(mut self, writer: impl Write + Send + 'static) -> Self {
        self.setup.history = Some(Box::new(writer));
        self
    }

    /// How often a thread looks whether it was woken before it sleeps. By default 1000.
    pub fn spins(mut self, spins: u32) -> Self {
        self.spins = spins;
        self
    }

    /// Adds an item with a name, of this queue, on a CPU that is chosen once. The workqueues have it until they end.
    /// [`Workqueues::item`] and [`Run::item`] return handles. (`INIT_WORK()`)
    pub fn item(self, name: &str, queue: &str, work: impl FnMut(&mut Run<'_>) + Send + 'static) -> Self {
        self.named(name, queue, None, Box::new(work))
    }

    /// Adds an item with a name, of this queue, on this CPU.
    pub fn item_on(self, name: &str, queue: &str, cpu: u8, work: impl FnMut(&mut Run<'_>) + Send + 'static) -> Self {
        self.named(name, queue, Some(cpu), Box::new(work))
    }

    fn named(mut self, name: &str, queue: &str, cpu: Option<u8>, work: Work) -> Self {
        self.items.push(OfBuilder { name: name.to_owned(), queue: queue.to_owned(), cpu, work });
        self
    }

    /// Makes the workqueues durable: their history is kept in the file of this path, and the next workqueues with this
    /// file, in this program or a later one, have what was queued or delayed, and runs that were broken off. Runs that
    /// had ended may be had again too, if their end was not durable yet.
    ///
    /// Such workqueues have the items alone that [`item`](Builder::item) adds, in the same order in each life, and new
    /// ones last. The same goes for queues. There may be more CPUs than in the last life, but not fewer. Once they were
    /// [shut down](Workqueues::shutdown), nothing is left, and the next life may have any items and queues.
    ///
    /// There are more files in the same folder, whose names begin with that of this one. Some of them stay.
    pub fn durable(mut self, path: impl Into<PathBuf>) -> Self {
        self.durable.path = Some(path.into());
        self
    }

    /// When an entry of durable workqueues counts as durable. By default [`Sync::Data`].
    pub fn sync(mut self, sync: Sync) -> Self {
        self.durable.sync = sync;
        self
    }

    /// Each call of durable workqueues returns once its entry is durable, but not the calls of runs. Those who wait
    /// share one sync. Without this, [`Workqueues::sync`] waits.
    pub fn each(mut self) -> Self {
        self.durable.each = true;
        self
    }

    /// Asked in [`build`](Builder::build), with the name of the item, of each run that was broken off when the last
    /// life ended: whether it is had again. By default all are. So a work function that ends the program each time can
    /// be left out.
    pub fn again(mut self, again: impl FnMut(&str) -> bool + Send + 'static) -> Self {
        self.durable.again = Some(Box::new(again));
        self
    }

    /// Keeps the journal of the last life of durable workqueues, as the file with `.1` after its name.
    pub fn keep_old(mut self) -> Self {
        self.durable.keep_old = true;
        self
    }

    /// Gives the first numbers to the items with names, which keep them.
    fn name_items(&mut self, state: &mut State<Work, OfHub>) -> Result<HashMap<String, Named>> {
        let mut named = HashMap::new();
        for OfBuilder { name, queue, cpu, work } in self.items.drain(..) {
            let queue = number_of_queue(&self.setup.names, &queue)?;
            let number = state.add_named(work, queue);
            let cpu = cpu.unwrap_or((number % u16::from(self.setup.shape.cpus)) as u8);
            if cpu >= self.setup.shape.cpus {
                return Err(Error::Invalid("the CPU"));
            }
            if named.insert(name, Named { number, queue, cpu }).is_some() {
                return Err(Error::Invalid("two items of one name"));
            }
        }
        Ok(named)
    }

    /// Makes the hub, with what the last life left. Returns the lines that begin a history too.
    fn open(&mut self) -> Result<(Hub, Vec<u8>)> {
        let count = u16::try_from(self.items.len()).map_err(|_| Error::Invalid("the items"))?;
        let is_durable = self.durable.path.is_some();
        if is_durable && self.setup.history.is_some() {
            return Err(Error::Invalid("a history beside the journal"));
        }
        if is_durable && count == 0 {
            return Err(Error::Invalid("no item with a name"));
        }
        let items = &mut self.setup.shape.items;
        *items = if is_durable { count } else { count.max(*items) };
        let names: Vec<String> = self.items.iter().map(|item| item.name.clone()).collect();
        let mut all = names.iter().chain(&self.setup.names);
        if is_durable && all.any(|name| name.chars().any(char::is_control)) {
            return Err(Error::Invalid("a name with a control character"));
        }
        let (mut state, head) = self.setup.open(|_| OfHub::default())?;
        let named = self.name_items(&mut state)?;
        if let Some(path) = self.durable.path.clone() {
            let names = (&*names, &*self.setup.names);
            durable::resume(&path, &mut self.durable, &self.setup.shape, names, &head, &mut state)?;
        }
        let hub = Hub::new(state, self.setup.shape, self.setup.tick, self.spins).names(named);
        let Options { sync, each, .. } = self.durable;
        Ok((if is_durable { hub.lasts(Durable::new(sync), each) } else { hub }, head))
    }

    /// Starts the threads: the workers of each CPU's pool, and of its pool of high priority if a queue has that
    /// option; a clock; and a journal if there is a history, or if they are durable.
    ///
    /// # Errors
    /// [`Error::Invalid`], [`Error::NoQueue`], [`Error::NoMemory`], [`Error::Thread`], [`Error::Version`]. Of durable
    /// workqueues also [`Error::BadJournal`], [`Error::OtherShape`], [`Error::InUse`], [`Error::DiskFailed`], and
    /// [`Error::Full`] if there is no room for what the last life left. Then its journal stays as it is.
    pub fn build(mut self) -> Result<Workqueues> {
        let (hub, head) = self.open()?;
        let workers: Vec<Who> = self.setup.workers().collect();
        let Setup { names, history, .. } = self.setup;
        let mut made = Workqueues { hub: Arc::new(hub), names, workers: Vec::new(), clock: None, journal: None };
        if made.hub.is_durable() {
            let hub = made.hub.clone();
            let journal = move || {
                hub.enter();
                hub.keep_disk();
                Ok(())
            };
            made.journal = Some(spawn("cmwq journal", journal)?);
        }
        if let Some(writer) = history {
            let hub = made.hub.clone();
            let journal = move || {
                hub.enter();
                hub.keep_journal(&head, writer)
            };
            made.journal = Some(spawn("cmwq journal", journal)?);
        }
        let hub = made.hub.clone();
        made.clock = Some(spawn("cmwq clock", move || hub.keep_time())?);
        for who in workers {
            let Who { kind, index, cpu } = who;
            let hub = made.hub.clone();
            let work = move || {
                hub.enter();
                hub.work(who);
            };
            made.workers.push(spawn(&format!("cmwq {cpu}{}{index}", if kind == WORKER { 'n' } else { 'h' }), work)?);
        }
        Ok(made)
    }
}

impl fmt::Debug for Builder {
    fn fmt(&self, f: &mut fmt::Formatter<'_>) -> fmt::Result {
        let mut shown = f.debug_struct("Builder");
        self.setup.show(&mut shown);
        let items: Vec<_> = self.items.iter().map(|item| &item.name).collect();
        let Options { path, sync, each, keep_old, again, .. } = &self.durable;
        shown
            .field("spins", &self.spins)
            .field("items with names", &items)
            .field("durable", path)
            .field("sync", sync)
            .field("each", each)
            .field("again", &again.is_some())
            .field("keep_old", keep_old)
            .finish()
    }
}

/// Queues with their threads. When they are dropped, they are shut down, as by [`shutdown`](Workqueues::shutdown), or
/// left, as by [`leave`](Workqueues::leave), if they are [durable](Builder::durable).
pub struct Workqueues {
    hub: Arc<Hub>,
    names: Vec<String>,
    workers: Vec<JoinHandle<()>>,
    clock: Option<JoinHandle<()>>,
    journal: Option<JoinHandle<io::Result<()>>>,
}

impl Workqueues {
    /// A builder with the defaults, and no queue.
    pub fn builder() -> Builder {
        Builder { setup: Setup::new(4, 63), spins: 1000, items: Vec::new(), durable: Options::new() }
    }

    calls_of_all!();

    /// Returns the item that the builder has given this name.
    ///
    /// # Errors
    /// [`Error::UnknownItem`].
    pub fn item(&self, name: &str) -> Result<Item> {
        Item::named(&self.hub, name)
    }

    /// Waits until everything that was called so far, by any thread, is [durable](Builder::sync). Those who wait share
    /// one sync, so many calls and then this one cost one sync. In a work function [`Run::sync`] does the same.
    ///
    /// # Errors
    /// [`Error::NoJournal`], [`Error::NotDurable`], [`Error::DiskFailed`], [`Error::Closed`].
    pub fn sync(&self) -> Result<()> {
        self.hub.sync()
    }

    /// Starts nothing more, waits until the runs that are going on have ended, joins all threads, and drops all work
    /// functions. What is queued or delayed is kept for the next life, also what these runs queue or delay. Other calls
    /// that queue, and waits, return [`Error::Stopped`] meanwhile. A run whose wait returned that is broken off: the
    /// next life has it again.
    ///
    /// # Errors
    /// [`Error::DiskFailed`] or [`Error::Panicked`], the first of these. [`Error::NoJournal`] if the workqueues are not
    /// durable; they are shut down then. In a work function [`Error::Itself`]: another thread leaves them.
    pub fn leave(mut self) -> Result<()> {
        if !self.hub.is_durable() {
            return Err(Error::NoJournal);
        }
        if self.hub.is_own_thread() {
            return Err(Error::Itself);
        }
        self.end(true)
    }

    /// Takes no more work, thaws, cancels what is delayed, lets what is queued run, joins all threads, and drops all
    /// work functions. What a run queues is run too. What it delays is refused. Of durable workqueues nothing is left
    /// then for a next life.
    ///
    /// # Errors
    /// [`Error::History`], [`Error::DiskFailed`], [`Error::NotRun`] or [`Error::Panicked`], the first of these. In a
    /// work function [`Error::Itself`]: it can't join its own thread, so another thread shuts down, or leaves durable
    /// workqueues.
    pub fn shutdown(mut self) -> Result<()> {
        if self.hub.is_own_thread() {
            return Err(Error::Itself);
        }
        self.end(false)
    }

    /// Lets what is queued run, or keeps it; and joins all threads.
    fn end(&mut self, keeps: bool) -> Result<()> {
        self.begin_end(keeps);
        for worker in self.workers.drain(..) {
            let _ = worker.join();
        }
        if let Some(clock) = self.clock.take() {
            let _ = clock.join();
        }
        let told = self.hub.end().discard();
        let journal = self.journal.take().map(JoinHandle::join);
        self.hub.let_go()?;
        match journal {
            Some(Ok(Err(why))) => Err(Error::History(why)),
            _ => told,
        }
    }

    fn begin_end(&self, keeps: bool) {
        if keeps {
            self.hub.keep();
        } else {
            self.hub.stop();
        }
    }
}

impl Drop for Workqueues {
    fn drop(&mut self) {
        if self.workers.is_empty() && self.clock.is_none() && self.journal.is_none() {
            return;
        }
        let keeps = self.hub.is_durable();
        if !self.hub.is_own_thread() {
            let _ = self.end(keeps);
            return;
        }
        self.begin_end(keeps);
        // where no thread can be started for it, the threads are never joined
        let rest = ManuallyDrop::new(Workqueues {
            hub: self.hub.clone(),
            names: Vec::new(),
            workers: std::mem::take(&mut self.workers),
            clock: self.clock.take(),
            journal: self.journal.take(),
        });
        let _ = spawn("cmwq end", move || ManuallyDrop::into_inner(rest).end(keeps));
    }
}

/// A handle of a queue.
#[derive(Clone)]
pub struct Queue(QueueOf<Hub>);

impl Queue {
    /// Makes an item of this queue, on a CPU that is chosen once. At most one run of its work function is going on at
    /// a time. The item is gone once its last handle is dropped and it is neither pending nor running.
    ///
    /// # Errors
    /// [`Error::NoItem`], and [`Error::Closed`] from the beginning of the shutdown on. Work functions make items until
    /// they have ended. [`Error::Unnamed`] of durable workqueues: their builder [names](Builder::item) all items.
    pub fn item(&self, work: impl FnMut(&mut Run<'_>) + Send + 'static) -> Result<Item> {
        self.add(None, Box::new(work))
    }

    /// Makes an item of this queue on this CPU.
    ///
    /// # Errors
    /// As [`item`](Queue::item), and [`Error::Invalid`].
    pub fn item_on(&self, cpu: u8, work: impl FnMut(&mut Run<'_>) + Send + 'static) -> Result<Item> {
        self.add(Some(cpu), Box::new(work))
    }

    fn add(&self, cpu: Option<u8>, work: Work) -> Result<Item> {
        if self.0.hub.is_durable() {
            return Err(Error::Unnamed);
        }
        self.0.add(cpu, work).map(Item)
    }

    queue_calls!();

    fn wait(&self, kind: u8, timeout: Option<Duration>) -> Result<()> {
        self.0.hub.wait(kind, 0, self.0.number, timeout).map(drop)
    }

    /// Waits until everything that was queued on the queue has ended. (`flush_workqueue()`)
    ///
    /// # Errors
    /// [`Error::Gone`], [`Error::TooManyWaits`], [`Error::Full`], [`Error::Closed`]. In a work function also
    /// [`Error::Itself`] and [`Error::Deadlock`].
    pub fn flush(&self) -> Result<()> {
        self.wait(call::FLUSH, None)
    }

    /// As [`flush`](Queue::flush), for at most this time.
    ///
    /// # Errors
    /// Also [`Error::TimedOut`].
    pub fn flush_timeout(&self, timeout: Duration) -> Result<()> {
        self.wait(call::FLUSH, Some(timeout))
    }

    /// Waits until nothing is queued on the queue. Meanwhile only its own runs may queue on it. (`drain_workqueue()`)
    ///
    /// # Errors
    /// As [`flush`](Queue::flush).
    pub fn drain(&self) -> Result<()> {
        self.wait(call::DRAIN, None)
    }

    /// As [`drain`](Queue::drain), for at most this time. After a timeout the queue is drained on.
    ///
    /// # Errors
    /// Also [`Error::TimedOut`].
    pub fn drain_timeout(&self, timeout: Duration) -> Result<()> {
        self.wait(call::DRAIN, Some(timeout))
    }

    /// Drains the queue, which takes nothing from then on. (`destroy_workqueue()`)
    ///
    /// # Errors
    /// As [`flush`](Queue::flush), [`Error::Timers`] if an item is delayed on the queue, and [`Error::Draining`] if
    /// another call destroys it.
    pub fn destroy(&self) -> Result<()> {
        self.wait(call::DESTROY, None)
    }
}

/// A handle of an item of work: a `work_struct` with its function. An item that is dropped while it is pending runs.
#[derive(Clone)]
pub struct Item(Arc<Own<Hub>>);

impl Item {
    item_calls!();

    /// A handle of the item that the builder has given this name.
    fn named(hub: &Arc<Hub>, name: &str) -> Result<Item> {
        let Named { number, queue, cpu } = hub.named.get(name).ok_or_else(|| Error::UnknownItem(name.to_owned()))?;
        Ok(Item(Arc::new(Own { hub: hub.clone(), number: *number, queue: *queue, cpu: *cpu })))
    }

    fn wait(&self, kind: u8, timeout: Option<Duration>) -> Result<bool> {
        let reply = self.0.hub.wait(kind, self.0.number, 0, timeout)?;
        Ok(!matches!(reply.kind, reply::TICKET_NO | reply::IDLE))
    }

    /// Cancels the item if it is pending, which is returned, and waits until it is not running. Meanwhile it can't be
    /// queued. (`cancel_delayed_work_sync()`)
    ///
    /// # Errors
    /// [`Error::TooManyWaits`], [`Error::Full`], [`Error::Closed`]. In a work function also [`Error::Itself`] and
    /// [`Error::Deadlock`].
    pub fn cancel_sync(&self) -> Result<bool> {
        self.wait(call::CANCEL_SYNC, None)
    }

    /// As [`cancel_sync`](Item::cancel_sync), for at most this time. After a timeout the item can't be queued until it
    /// is not running.
    ///
    /// # Errors
    /// Also [`Error::TimedOut`].
    pub fn cancel_sync_timeout(&self, timeout: Duration) -> Result<bool> {
        self.wait(call::CANCEL_SYNC, Some(timeout))
    }

    /// Waits until the item has ended, if it is queued or running. Returns `false` if it is neither. It doesn't wait
    /// for a delay. (`flush_work()`)
    ///
    /// # Errors
    /// As [`cancel_sync`](Item::cancel_sync).
    pub fn flush(&self) -> Result<bool> {
        self.wait(call::FLUSH_ITEM, None)
    }

    /// As [`flush`](Item::flush), for at most this time.
    ///
    /// # Errors
    /// Also [`Error::TimedOut`].
    pub fn flush_timeout(&self, timeout: Duration) -> Result<bool> {
        self.wait(call::FLUSH_ITEM, Some(timeout))
    }

    /// Queues the item at once if it is delayed, and waits as [`flush`](Item::flush) does. (`flush_delayed_work()`)
    ///
    /// # Errors
    /// As [`cancel_sync`](Item::cancel_sync), and [`Error::Draining`].
    pub fn flush_delayed(&self) -> Result<bool> {
        self.wait(call::FLUSH_DELAYED, None)
    }

    /// As [`flush_delayed`](Item::flush_delayed), for at most this time.
    ///
    /// # Errors
    /// Also [`Error::TimedOut`].
    pub fn flush_delayed_timeout(&self, timeout: Duration) -> Result<bool> {
        self.wait(call::FLUSH_DELAYED, Some(timeout))
    }
}

shown!(Item, Queue, Workqueues);

/// A run of a work function.
pub struct Run<'a> {
    hub: &'a Arc<Hub>,
    worker: Who,
    item: u16,
    queue: u8,
    /// It stays on its thread.
    thread: PhantomData<*const ()>,
}

impl<'a> Run<'a> {
    pub(crate) fn new(hub: &'a Arc<Hub>, worker: Who, item: u16, queue: u8) -> Run<'a> {
        Run { hub, worker, item, queue, thread: PhantomData }
    }

    /// Queues the item that is running, on the queue and CPU where it runs. Returns `false` if it is pending.
    ///
    /// # Errors
    /// As [`Item::queue`].
    pub fn requeue(&mut self) -> Result<bool> {
        self.hub.hold().put(self.item, self.queue, self.worker.cpu)
    }

    /// Queues the item that is running once this time has passed. Returns `false` if it is pending.
    ///
    /// # Errors
    /// As [`Item::queue_delayed`].
    pub fn requeue_after(&mut self, delay: Duration) -> Result<bool> {
        let ticks = self.hub.ticks(delay);
        let made = self.hub.hold().delay(call::DELAY, self.item, self.queue, self.worker.cpu, ticks);
        made.map(|kind| kind != reply::NO)
    }

    /// Returns the item that the builder has given this name.
    ///
    /// # Errors
    /// [`Error::UnknownItem`].
    pub fn item(&self, name: &str) -> Result<Item> {
        Item::named(self.hub, name)
    }

    /// Waits until everything that was called so far is durable, as [`Workqueues::sync`] does. The run stays awake
    /// unless it does so in [`block`](Run::block).
    ///
    /// # Errors
    /// As [`Workqueues::sync`].
    pub fn sync(&self) -> Result<()> {
        self.hub.sync()
    }

    /// Does what blocks, such as reading a file. The run sleeps meanwhile, so another item of its pool can run. (In
    /// the kernel a run that blocks sleeps by itself.)
    ///
    /// ```
    /// # use cmwq::{max_active, Workqueues};
    /// # fn main() -> cmwq::Result<()> {
    /// # let workqueues = Workqueues::builder().queue("disk", max_active(2)).build()?;
    /// # let disk = workqueues.queue("disk")?;
    /// let read = disk.item(|run| {
    ///     let text = run.block(|| std::fs::read_to_string("/proc/self/comm"));
    ///     println!("{text:?}");
    /// })?;
    /// # read.queue()?;
    /// # workqueues.shutdown()
    /// # }
    /// ```
    pub fn block<T>(&mut self, blocks: impl FnOnce() -> T) -> T {
        self.hub.block(self.worker, blocks)
    }
}

impl fmt::Debug for Run<'_> {
    fn fmt(&self, f: &mut fmt::Formatter<'_>) -> fmt::Result {
        let Run { worker, item, queue, .. } = self;
        f.debug_struct("Run").field("item", item).field("queue", queue).field("worker", worker).finish()
    }
}

const _: () = assert!(CALLER == 0);

#[test]
fn versions_are_numbers() {
    assert_eq!(number_of("1.2.34"), 1_002_034);
    assert_eq!(number_of(VERSION), ffi::version());
}
