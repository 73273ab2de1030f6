//! Executors of the tests: one in a single thread whose order follows from a seed, with a time of its own, and a pool
//! of threads.
#![allow(dead_code)]
pub mod case;

use crate::common::{number, Random};
use cmwq::aio::{Clock, Task, Until};
use std::collections::{BTreeMap, VecDeque};
use std::future::{poll_fn, Future};
use std::pin::Pin;
use std::sync::atomic::{AtomicBool, Ordering::SeqCst};
use std::sync::{Arc, Condvar, Mutex, MutexGuard, PoisonError};
use std::task::{Context, Poll, Wake, Waker};
use std::thread;
use std::time::Duration;

// ---- a time that stands still while a task can go on ----

#[derive(Default)]
struct Timers {
    now: Duration,
    numbers: u64,
    wakers: BTreeMap<(Duration, u64), Waker>,
}

#[derive(Clone, Default)]
pub struct VirtualClock(Arc<Mutex<Timers>>);

struct Timer {
    clock: VirtualClock,
    when: Duration,
    number: Option<u64>,
}

impl Future for Timer {
    type Output = ();
    fn poll(mut self: Pin<&mut Self>, cx: &mut Context<'_>) -> Poll<()> {
        let (clock, when) = (self.clock.clone(), self.when);
        let mut timers = clock.0.lock().unwrap();
        if timers.now >= when {
            return Poll::Ready(());
        }
        let number = *self.number.get_or_insert(timers.numbers);
        timers.numbers += 1;
        timers.wakers.insert((when, number), cx.waker().clone());
        Poll::Pending
    }
}

impl Drop for Timer {
    fn drop(&mut self) {
        if let Some(number) = self.number {
            self.clock.0.lock().unwrap().wakers.remove(&(self.when, number));
        }
    }
}

impl Clock for VirtualClock {
    fn now(&self) -> Duration {
        self.0.lock().unwrap().now
    }
    fn until(&self, when: Duration) -> Until {
        Box::pin(Timer { clock: self.clone(), when, number: None })
    }
}

impl VirtualClock {
    pub fn sleep(&self, time: Duration) -> Until {
        self.until(self.now() + time)
    }

    /// Goes on to the next timer, if there is one.
    fn jump(&self) -> bool {
        let mut timers = self.0.lock().unwrap();
        let Some(((when, _), waker)) = timers.wakers.pop_first() else {
            return false;
        };
        timers.now = timers.now.max(when);
        drop(timers);
        waker.wake();
        true
    }
}

// ---- one thread, whose order follows from a seed ----

#[derive(Default)]
struct Tasks {
    /// None: it has ended, or is polled now.
    all: Vec<Option<Task>>,
    /// How often each was polled.
    polls: Vec<u64>,
    ready: Vec<usize>,
    over: usize,
}

#[derive(Default)]
struct Shared {
    tasks: Mutex<Tasks>,
    woken: Condvar,
}

/// Wakes its task if it is the one of the last poll: those before are worth nothing.
struct OfPoll {
    at: usize,
    poll: u64,
    shared: Arc<Shared>,
}

impl Wake for OfPoll {
    fn wake(self: Arc<Self>) {
        let mut tasks = self.shared.tasks.lock().unwrap_or_else(PoisonError::into_inner);
        if tasks.polls[self.at] == self.poll && !tasks.ready.contains(&self.at) {
            tasks.ready.push(self.at);
            self.shared.woken.notify_one();
        }
    }
}

/// The executor of a schedule.
#[derive(Clone)]
pub struct Seeded {
    shared: Arc<Shared>,
    random: Arc<Mutex<Random>>,
    /// Now and then time goes on while a task can, or a task is polled that nobody has woken.
    wild: bool,
    pub clock: VirtualClock,
}

impl Seeded {
    pub fn new(seed: u64) -> Seeded {
        Seeded {
            shared: Arc::default(),
            random: Arc::new(Mutex::new(Random::new(seed))),
            wild: false,
            clock: VirtualClock::default(),
        }
    }

    pub fn wild(seed: u64) -> Seeded {
        Seeded { wild: true, ..Seeded::new(seed) }
    }

    fn tasks(&self) -> MutexGuard<'_, Tasks> {
        self.shared.tasks.lock().unwrap_or_else(PoisonError::into_inner)
    }

    pub fn below(&self, most: usize) -> usize {
        self.random.lock().unwrap().below(most)
    }

    pub fn spawn(&self, task: impl Future<Output = ()> + Send + 'static) -> usize {
        let mut tasks = self.tasks();
        let at = tasks.all.len();
        tasks.all.push(Some(Box::pin(task)));
        tasks.polls.push(0);
        tasks.ready.push(at);
        at
    }

    /// How many polls there were.
    pub fn polls(&self) -> u64 {
        self.tasks().polls.iter().sum()
    }

    /// How many tasks have not ended.
    pub fn left(&self) -> usize {
        let tasks = self.tasks();
        tasks.all.len() - tasks.over
    }

    /// Polls until no task can go on. Returns how many tasks have not ended.
    pub fn run(&self) -> usize {
        self.run_while(|| true)
    }

    fn run_while(&self, goes_on: impl Fn() -> bool) -> usize {
        for _ in 0..1_000_000 {
            if !goes_on() {
                return self.left();
            }
            let mut tasks = self.tasks();
            let (count, ready) = (tasks.all.len(), tasks.ready.len());
            if ready == 0 {
                drop(tasks);
                if self.clock.jump() {
                    continue;
                }
                return self.left();
            }
            let at = match if self.wild { self.below(40) } else { 40 } {
                0 => {
                    drop(tasks);
                    self.clock.jump();
                    continue;
                }
                1 => self.below(count),
                _ => tasks.ready.swap_remove(self.below(ready)),
            };
            tasks.polls[at] += 1;
            let (task, poll) = (tasks.all[at].take(), tasks.polls[at]);
            drop(tasks);
            if let Some(task) = task {
                self.poll(at, poll, task);
            }
        }
        panic!("no end");
    }

    fn poll(&self, at: usize, poll: u64, mut task: Task) {
        let waker = Waker::from(Arc::new(OfPoll { at, poll, shared: self.shared.clone() }));
        let polled = task.as_mut().poll(&mut Context::from_waker(&waker));
        match polled {
            Poll::Pending => self.tasks().all[at] = Some(task),
            Poll::Ready(()) => {
                drop(task);
                self.tasks().over += 1;
            }
        }
    }

    /// Runs until this is done. Another thread may wake tasks: of the workqueues, that is the journal.
    fn run_until(&self, is_done: impl Fn() -> bool) {
        let most = Duration::from_secs(number("CMWQ_SECONDS", 60));
        loop {
            let left = self.run_while(|| !is_done());
            if is_done() {
                return;
            }
            let waited = self.shared.woken.wait_timeout_while(self.tasks(), most, |tasks| tasks.ready.is_empty());
            let timed_out = waited.map_or(true, |(_, waited)| waited.timed_out());
            assert!(!timed_out, "{left} tasks hang");
        }
    }

    pub fn run_to_the_end(&self) {
        self.run_until(|| self.left() == 0);
    }

    /// Runs this in a task, with all others, until it has ended.
    pub fn finish<T: Send + 'static>(&self, future: impl Future<Output = T> + Send + 'static) -> T {
        let told = Arc::new(Mutex::new(None));
        let own = told.clone();
        self.spawn(async move {
            let value = future.await;
            *own.lock().unwrap() = Some(value);
        });
        self.run_until(|| told.lock().unwrap().is_some());
        let value = told.lock().unwrap().take();
        value.unwrap()
    }

    /// Drops all tasks, as an executor that is shut down.
    pub fn drop_all(&self) {
        loop {
            let task = self.tasks().all.iter_mut().find_map(Option::take);
            let Some(task) = task else {
                return;
            };
            drop(task);
            self.tasks().over += 1;
        }
    }
}

// ---- futures of futures ----

/// The first of two that ends. The other one is dropped.
pub async fn either<A, B>(one: impl Future<Output = A>, other: impl Future<Output = B>) -> Result<A, B> {
    let (mut one, mut other) = (Box::pin(one), Box::pin(other));
    poll_fn(|cx| match one.as_mut().poll(cx) {
        Poll::Ready(value) => Poll::Ready(Ok(value)),
        Poll::Pending => other.as_mut().poll(cx).map(Err),
    })
    .await
}

/// Both, at once.
pub async fn both<A, B>(one: impl Future<Output = A>, other: impl Future<Output = B>) -> (A, B) {
    fn step<F: Future>(future: &mut Pin<Box<F>>, value: &mut Option<F::Output>, cx: &mut Context<'_>) {
        if value.is_none() {
            if let Poll::Ready(ready) = future.as_mut().poll(cx) {
                *value = Some(ready);
            }
        }
    }
    let (mut one, mut other) = (Box::pin(one), Box::pin(other));
    let (mut first, mut second) = (None, None);
    poll_fn(|cx| {
        step(&mut one, &mut first, cx);
        step(&mut other, &mut second, cx);
        match (first.take(), second.take()) {
            (Some(first), Some(second)) => Poll::Ready((first, second)),
            (left, right) => {
                (first, second) = (left, right);
                Poll::Pending
            }
        }
    })
    .await
}

/// Lets the others go on.
pub async fn yields() {
    let mut done = false;
    poll_fn(|cx| {
        if std::mem::replace(&mut done, true) {
            return Poll::Ready(());
        }
        cx.waker().wake_by_ref();
        Poll::Pending
    })
    .await
}

// ---- a pool of threads ----

struct Pool {
    queue: Mutex<(VecDeque<Arc<OfPool>>, bool)>,
    condvar: Condvar,
}

/// A task of the pool. While it is pending, only its wakers have it.
struct OfPool {
    task: Mutex<Option<Task>>,
    queued: AtomicBool,
    pool: Arc<Pool>,
}

impl Wake for OfPool {
    fn wake(self: Arc<Self>) {
        if !self.queued.swap(true, SeqCst) {
            let pool = self.pool.clone();
            pool.queue.lock().unwrap().0.push_back(self);
            pool.condvar.notify_one();
        }
    }
}

impl Pool {
    fn work(&self) {
        let mut queue = self.queue.lock().unwrap();
        while !queue.1 {
            let Some(task) = queue.0.pop_front() else {
                queue = self.condvar.wait(queue).unwrap();
                continue;
            };
            drop(queue);
            task.queued.store(false, SeqCst);
            let waker = Waker::from(task.clone());
            let mut own = task.task.lock().unwrap();
            if let Some(future) = &mut *own {
                if future.as_mut().poll(&mut Context::from_waker(&waker)).is_ready() {
                    *own = None;
                }
            }
            drop(own);
            queue = self.queue.lock().unwrap();
        }
    }
}

pub struct Threads(Arc<Pool>, Vec<thread::JoinHandle<()>>);

impl Threads {
    pub fn new(count: usize) -> Threads {
        let pool = Arc::new(Pool { queue: Mutex::default(), condvar: Condvar::new() });
        let threads = (0..count).map(|_| {
            let pool = pool.clone();
            thread::spawn(move || pool.work())
        });
        Threads(pool.clone(), threads.collect())
    }

    pub fn spawn(&self, task: impl Future<Output = ()> + Send + 'static) {
        let task = Mutex::new(Some(Box::pin(task) as Task));
        Arc::new(OfPool { task, queued: AtomicBool::new(false), pool: self.0.clone() }).wake();
    }
}

impl Drop for Threads {
    fn drop(&mut self) {
        self.0.queue.lock().unwrap().1 = true;
        self.0.condvar.notify_all();
        self.1.drain(..).for_each(|thread| thread.join().unwrap());
        let left = std::mem::take(&mut self.0.queue.lock().unwrap().0);
        drop(left);
    }
}

struct Unpark(thread::Thread);

impl Wake for Unpark {
    fn wake(self: Arc<Self>) {
        self.0.unpark();
    }
}

pub fn block_on<T>(future: impl Future<Output = T>) -> T {
    let mut future = Box::pin(future);
    let waker = Waker::from(Arc::new(Unpark(thread::current())));
    loop {
        if let Poll::Ready(value) = future.as_mut().poll(&mut Context::from_waker(&waker)) {
            return value;
        }
        thread::park();
    }
}
