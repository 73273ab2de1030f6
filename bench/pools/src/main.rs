//! Thread pools that keep the promises of items, as a yardstick: an item runs once at a time, an item that is pending
//! isn't queued again, and a caller can wait for all that it queued. They keep no history.
//!
//! `pools POOL LOAD ROUNDS WORKERS ITEMS` prints how many runs there are in a second. POOL is `hand`, a queue under a
//! lock; built with the feature `crates` also `threadpool`, `crossbeam`, `rayon` and `tokio`. LOAD is `self`, an item
//! that queues itself, ROUNDS times; `fanout`, four callers, each of which queues its first item, which queues its
//! others, and waits for all, ROUNDS times; or `stream`, four callers, each of which queues all its items and waits for
//! them, ROUNDS times. Each caller has ITEMS items. By a sixth word each run works for so many microseconds.
use std::collections::VecDeque;
use std::sync::atomic::{AtomicU32, AtomicU64, Ordering::SeqCst};
use std::sync::{Arc, Condvar, Mutex};
use std::time::{Duration, Instant};

const CALLERS: usize = 4;

const IDLE: u32 = 0;
const PENDING: u32 = 1;
const RUNNING: u32 = 2;

type Job = Box<dyn FnOnce() + Send>;

/// What one caller queued and waits for.
struct Group {
    open: AtomicU64,
    lock: Mutex<()>,
    done: Condvar,
}

struct Item {
    state: AtomicU32,
    group: usize,
    others: std::ops::Range<usize>,
}

struct World {
    items: Vec<Item>,
    groups: Vec<Group>,
    runs: AtomicU64,
    left: AtomicU64,
    lasts: Option<Duration>,
    pool: Pool,
}

#[derive(Default)]
struct Queue {
    jobs: VecDeque<Job>,
    idle: usize,
}

#[derive(Default)]
struct Hand {
    queue: Mutex<Queue>,
    work: Condvar,
}

impl Hand {
    fn put(&self, job: Job) {
        let mut queue = self.queue.lock().unwrap();
        queue.jobs.push_back(job);
        let is_any_idle = queue.idle > 0;
        drop(queue);
        if is_any_idle {
            self.work.notify_one();
        }
    }

    fn work(&self) {
        let mut queue = self.queue.lock().unwrap();
        loop {
            match queue.jobs.pop_front() {
                Some(job) => {
                    drop(queue);
                    job();
                    queue = self.queue.lock().unwrap();
                }
                None => {
                    queue.idle += 1;
                    queue = self.work.wait(queue).unwrap();
                    queue.idle -= 1;
                }
            }
        }
    }
}

enum Pool {
    Hand(Arc<Hand>),
    #[cfg(feature = "crates")]
    Threadpool(Mutex<threadpool::ThreadPool>),
    #[cfg(feature = "crates")]
    Crossbeam(crossbeam_channel::Sender<Job>),
    #[cfg(feature = "crates")]
    Rayon(rayon::ThreadPool),
    #[cfg(feature = "crates")]
    Tokio(tokio::runtime::Runtime),
}

impl Pool {
    fn new(name: &str, workers: usize) -> Option<Pool> {
        match name {
            "hand" => {
                let hand = Arc::new(Hand::default());
                for _ in 0..workers {
                    let hand = hand.clone();
                    std::thread::spawn(move || hand.work());
                }
                Some(Pool::Hand(hand))
            }
            #[cfg(feature = "crates")]
            "threadpool" => Some(Pool::Threadpool(Mutex::new(threadpool::ThreadPool::new(workers)))),
            #[cfg(feature = "crates")]
            "crossbeam" => {
                let (sender, receiver) = crossbeam_channel::unbounded::<Job>();
                for _ in 0..workers {
                    let receiver = receiver.clone();
                    std::thread::spawn(move || receiver.iter().for_each(|job| job()));
                }
                Some(Pool::Crossbeam(sender))
            }
            #[cfg(feature = "crates")]
            "rayon" => Some(Pool::Rayon(rayon::ThreadPoolBuilder::new().num_threads(workers).build().unwrap())),
            #[cfg(feature = "crates")]
            "tokio" => {
                let mut builder = tokio::runtime::Builder::new_multi_thread();
                Some(Pool::Tokio(builder.worker_threads(workers).build().unwrap()))
            }
            _ => None,
        }
    }

    fn put(&self, job: Job) {
        match self {
            Pool::Hand(hand) => hand.put(job),
            #[cfg(feature = "crates")]
            Pool::Threadpool(pool) => pool.lock().unwrap().execute(job),
            #[cfg(feature = "crates")]
            Pool::Crossbeam(sender) => sender.send(job).unwrap(),
            #[cfg(feature = "crates")]
            Pool::Rayon(pool) => pool.spawn(job),
            #[cfg(feature = "crates")]
            Pool::Tokio(runtime) => drop(runtime.spawn(async move { job() })),
        }
    }
}

/// Queues an item, unless it is pending.
fn queue(world: &Arc<World>, number: usize) {
    let item = &world.items[number];
    loop {
        let state = item.state.load(SeqCst);
        if state & PENDING != 0 {
            return;
        }
        if item.state.compare_exchange(state, state | PENDING, SeqCst, SeqCst).is_ok() {
            world.groups[item.group].open.fetch_add(1, SeqCst);
            if state == IDLE {
                put(world, number);
            }
            return;
        }
    }
}

fn put(world: &Arc<World>, number: usize) {
    let shared = world.clone();
    world.pool.put(Box::new(move || run(&shared, number)));
}

fn run(world: &Arc<World>, number: usize) {
    let item = &world.items[number];
    item.state.store(RUNNING, SeqCst);
    world.runs.fetch_add(1, SeqCst);
    if let Some(lasts) = world.lasts {
        let begun = Instant::now();
        while begun.elapsed() < lasts {}
    }
    for other in item.others.clone() {
        queue(world, other);
    }
    if world.left.fetch_update(SeqCst, SeqCst, |left| left.checked_sub(1)).is_ok() {
        queue(world, number);
    }
    if item.state.compare_exchange(RUNNING, IDLE, SeqCst, SeqCst).is_err() {
        put(world, number);
    }
    let group = &world.groups[item.group];
    if group.open.fetch_sub(1, SeqCst) == 1 {
        drop(group.lock.lock().unwrap());
        group.done.notify_all();
    }
}

fn wait(group: &Group) {
    let mut held = group.lock.lock().unwrap();
    while group.open.load(SeqCst) > 0 {
        held = group.done.wait(held).unwrap();
    }
}

/// What a caller does.
fn call(world: &Arc<World>, caller: usize, items: usize, is_fanout: bool, rounds: u64) {
    let first = caller * items;
    for _ in 0..rounds {
        for number in first..if is_fanout { first + 1 } else { first + items } {
            queue(world, number);
        }
        wait(&world.groups[caller]);
    }
}

fn main() {
    let words: Vec<String> = std::env::args().collect();
    let number = |at: usize| words[at].parse::<usize>().expect("a number");
    let (load, rounds, workers, items) = (words[2].as_str(), number(3) as u64, number(4), number(5));
    let Some(pool) = Pool::new(&words[1], workers) else {
        eprintln!("no pool {}", words[1]);
        std::process::exit(2);
    };
    let (is_self, is_fanout) = (load == "self", load == "fanout");
    let groups = (0..CALLERS).map(|_| Group { open: AtomicU64::new(0), lock: Mutex::new(()), done: Condvar::new() });
    let all = (0..CALLERS * items).map(|number| Item {
        state: AtomicU32::new(IDLE),
        group: number / items,
        others: if is_fanout && number % items == 0 { number + 1..number + items } else { 0..0 },
    });
    let world = Arc::new(World {
        items: all.collect(),
        groups: groups.collect(),
        runs: AtomicU64::new(0),
        left: AtomicU64::new(if is_self { rounds - 1 } else { 0 }),
        lasts: words.get(6).map(|word| Duration::from_micros(word.parse().expect("a number"))),
        pool,
    });
    let begin = Instant::now();
    if is_self {
        queue(&world, 0);
        wait(&world.groups[0]);
    } else {
        std::thread::scope(|scope| {
            for caller in 0..CALLERS {
                let world = &world;
                scope.spawn(move || call(world, caller, items, is_fanout, rounds));
            }
        });
    }
    println!("{:.0}", world.runs.load(SeqCst) as f64 / begin.elapsed().as_secs_f64());
    std::process::exit(0)
}
