//! Random calls on an executor with threads, and futures that are dropped at any time, under a watchdog. Each history
//! is judged. CMWQ_SEEDS says how many.
mod common;
mod executors;

use cmwq::aio::{Clock, Item, Queue, Run, ThreadClock, Workqueues};
use cmwq::{max_active, Error, Result};
use common::{number, watch, Random, Text};
use executors::{block_on, either, yields, Threads};
use std::sync::atomic::{AtomicBool, AtomicUsize, Ordering::SeqCst};
use std::sync::{Arc, Condvar, Mutex, OnceLock};
use std::time::Duration;

const ITEMS: usize = 16;

#[derive(Default)]
struct World {
    items: OnceLock<Vec<Item>>,
    queues: OnceLock<Vec<Queue>>,
    clock: ThreadClock,
    runs: AtomicUsize,
    waits: AtomicUsize,
    left: AtomicUsize,
    refused: AtomicUsize,
}

impl World {
    fn tell<T>(&self, told: Result<T>) {
        match told {
            Ok(_) | Err(Error::Draining | Error::TooManyWaits | Error::Closed) => {}
            Err(Error::Itself | Error::Deadlock) => _ = self.refused.fetch_add(1, SeqCst),
            Err(other) => panic!("{other}"),
        }
    }

    async fn sleep(&self, micros: usize) {
        self.clock.until(self.clock.now() + Duration::from_micros(micros as u64)).await;
    }

    async fn waits(&self, which: usize, item: &Item, queue: &Queue) {
        self.waits.fetch_add(1, SeqCst);
        match which {
            0 => self.tell(item.flush().await),
            1 => self.tell(item.flush_delayed().await),
            2 => self.tell(item.cancel_sync().await),
            _ => self.tell(queue.flush().await),
        }
    }

    async fn act(&self, random: &mut Random, in_run: bool) {
        let item = &self.items.get().unwrap()[random.below(ITEMS)];
        let queue = &self.queues.get().unwrap()[random.below(3)];
        let micros = random.below(300);
        match random.below(12) {
            0..=3 => self.tell(item.queue()),
            4 => self.tell(item.queue_delayed(Duration::from_micros(micros as u64))),
            5 | 6 => self.waits(random.below(4), item, queue).await,
            7 | 8 => {
                if either(self.waits(random.below(4), item, queue), self.sleep(micros)).await.is_err() {
                    self.left.fetch_add(1, SeqCst);
                }
            }
            9 => self.sleep(micros).await,
            10 if !in_run => self.tell(queue.drain().await),
            _ => yields().await,
        }
    }

    async fn run(self: Arc<World>, run: Run, mut random: Random, inside: Arc<AtomicBool>) {
        assert!(!inside.swap(true, SeqCst)); // never twice at once
        self.runs.fetch_add(1, SeqCst);
        for _ in 0..random.below(3) {
            match random.below(6) {
                0 => self.tell(run.requeue()),
                _ => self.act(&mut random, true).await,
            }
        }
        inside.store(false, SeqCst);
    }
}

/// How many parties have not ended.
#[derive(Default)]
struct Left(Mutex<usize>, Condvar);

impl Left {
    fn one_less(&self) {
        *self.0.lock().unwrap() -= 1;
        self.1.notify_all();
    }
}

fn trial(seed: u64) -> Result<[usize; 5]> {
    let mut random = Random::new(seed);
    let (executor, text) = (Threads::new(1 + random.below(4)), Text::default());
    let mut builder = Workqueues::builder()
        .cpus(1 + random.below(2) as u8)
        .workers(1 + random.below(8) as u8)
        .items(ITEMS as u16)
        .waits(2 + random.below(20) as u8)
        .keep(1 + random.below(64) as u32)
        .tick(Duration::from_micros(50))
        .history(text.clone());
    for name in ["a", "b", "c"] {
        let mut options = max_active(1 + random.below(4) as u16);
        options = if random.below(3) == 0 { options.cpu_intensive() } else { options };
        options = if random.below(3) == 0 { options.high_priority() } else { options };
        builder = builder.queue(name, options);
    }
    let all = builder.build(|task| executor.spawn(task))?;
    let world = Arc::new(World::default());
    let queues: Vec<Queue> = ["a", "b", "c"].iter().map(|name| all.queue(name).unwrap()).collect();
    let items = (0..ITEMS).map(|at| {
        let (own, inside, mut random) =
            (world.clone(), Arc::new(AtomicBool::new(false)), Random::new(seed * 100 + at as u64));
        queues[at % 3].item(move |run| own.clone().run(run, Random::new(random.next()), inside.clone())).unwrap()
    });
    assert!(world.items.set(items.collect()).is_ok() && world.queues.set(queues).is_ok());
    let left = Arc::new(Left(Mutex::new(8), Condvar::new()));
    for party in 0..8 {
        let (own, left, mut random) = (world.clone(), left.clone(), Random::new(seed * 1000 + party));
        executor.spawn(async move {
            for _ in 0..20 {
                own.act(&mut random, false).await;
            }
            left.one_less();
        });
    }
    drop(left.1.wait_while(left.0.lock().unwrap(), |left| *left > 0).unwrap());
    block_on(all.shutdown())?;
    let World { runs, waits, left, refused, .. } = &*world;
    let [runs, waits, left, refused] = [runs, waits, left, refused].map(|count| count.load(SeqCst));
    let entries = text.judge() as usize;
    assert_eq!(text.count("started"), runs as u64);
    Ok([entries, runs, waits, left, refused])
}

#[test]
fn all_ends_and_every_history_is_legal() -> Result<()> {
    let (first, seeds) = (number("CMWQ_FIRST", 0), number("CMWQ_SEEDS", 100));
    let at = Arc::new(AtomicUsize::new(0));
    watch(at.clone(), number("CMWQ_SECONDS", 60) as u32);
    let mut sums = [0; 5];
    for seed in first..first + seeds {
        at.store(seed as usize, SeqCst);
        let told = trial(seed)?;
        (0..5).for_each(|k| sums[k] += told[k]);
    }
    let [entries, runs, waits, left, refused] = sums;
    println!("{seeds} trials, {entries} entries, {runs} runs, {waits} waits, {left} left, {refused} refused");
    Ok(())
}
