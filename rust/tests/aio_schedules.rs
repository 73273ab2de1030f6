//! Schedules of `cmwq::aio` in one thread: tasks are polled in an order that follows from a seed, futures are dropped,
//! runs panic, and the hub is shut down, dropped, or loses its tasks. In the end everything has ended, each start was
//! one run, and the history is legal. There are 2,000 seeds with the feature `schedules`, and a few without it.
//! CMWQ_SEEDS says how many there are, CMWQ_FIRST the first.
mod common;
mod executors;

use cmwq::aio::{Item, Queue, Run, Workqueues};
use cmwq::{max_active, Error, Result};
use common::{number, watch, Text};
use executors::{both, either, yields, Seeded};
use std::future::{poll_fn, Future};
use std::pin::Pin;
use std::sync::atomic::{AtomicBool, AtomicUsize, Ordering::SeqCst};
use std::sync::{Arc, Mutex, OnceLock};
use std::task::Poll;
use std::time::Duration;

const ITEMS: usize = 10;

type Sent = Pin<Box<dyn Future<Output = ()> + Send>>;

#[derive(Default)]
struct Counts {
    calls: AtomicUsize,
    ends: AtomicUsize,
    waits: AtomicUsize,
    left: AtomicUsize,
    refused: AtomicUsize,
    panics: AtomicUsize,
    sent: AtomicUsize,
}

/// What tasks and runs have.
#[derive(Clone)]
struct World {
    executor: Seeded,
    items: Arc<OnceLock<Vec<Item>>>,
    runs: Arc<[OfItem; ITEMS]>,
    queues: Arc<Vec<Queue>>,
    widths: Arc<Vec<AtomicUsize>>,
    all: Arc<Mutex<Option<Workqueues>>>,
    counts: Arc<Counts>,
    /// Waits that began in a run, and that others poll or drop.
    sent: Arc<Mutex<Vec<Sent>>>,
    /// So many parties that flushes are in overflow.
    crowd: bool,
}

/// Whether a run of an item is going on, and how many have ended.
#[derive(Default)]
struct OfItem(AtomicBool, AtomicUsize);

/// Counts the end of a run of this item, whatever it ends by.
struct Ends(World, usize);

impl Drop for Ends {
    fn drop(&mut self) {
        let OfItem(inside, ends) = &self.0.runs[self.1];
        assert!(inside.swap(false, SeqCst));
        ends.fetch_add(1, SeqCst);
        self.0.counts.ends.fetch_add(1, SeqCst);
    }
}

impl World {
    fn below(&self, most: usize) -> usize {
        self.executor.below(most)
    }

    fn time(&self, most: usize) -> Duration {
        Duration::from_micros(self.below(most * 1000) as u64)
    }

    fn item(&self) -> &Item {
        &self.items.get().unwrap()[self.below(ITEMS)]
    }

    fn queue(&self) -> &Queue {
        &self.queues[self.below(self.queues.len())]
    }

    fn tell<T>(&self, told: Result<T>) {
        match told {
            Err(Error::Itself | Error::Deadlock) => _ = self.counts.refused.fetch_add(1, SeqCst),
            Ok(_) | Err(Error::Closed | Error::Full | Error::Draining | Error::Gone | Error::Poisoned) => {}
            Err(Error::TooManyWaits | Error::Timers) => {}
            Err(other) => panic!("{other}"),
        }
    }

    async fn sleep(&self, most: usize) {
        let time = self.time(most);
        self.executor.clock.sleep(time).await;
    }

    /// A wait that runs make too.
    async fn waits(self) {
        self.counts.waits.fetch_add(1, SeqCst);
        let at = self.below(ITEMS);
        let (item, OfItem(inside, ends)) = (&self.items.get().unwrap()[at], &self.runs[at]);
        // (a queueing may be taken back later, and what waits for it ends)
        let (was_inside, before) = (inside.load(SeqCst) && !item.is_pending(), ends.load(SeqCst));
        let told = match self.below(4) {
            0 => item.flush().await,
            1 => item.flush_delayed().await,
            2 => item.cancel_sync().await,
            _ => return self.tell(self.queue().flush().await),
        };
        assert!(told.is_err() || !was_inside || ends.load(SeqCst) > before, "its run goes on");
        self.tell(told);
    }

    /// Leaves what takes longer.
    async fn a_while(&self, future: impl Future) {
        if either(future, self.sleep(2)).await.is_err() {
            self.counts.left.fetch_add(1, SeqCst);
        }
    }

    fn calls(&self) {
        let item = self.item();
        match self.below(6) {
            0..=2 => self.tell(item.queue()),
            3 => self.tell(item.queue_delayed(self.time(5))),
            4 => self.tell(item.modify(self.time(5))),
            _ => self.tell(item.cancel()),
        }
    }

    async fn run(self, run: Run, at: usize) {
        self.counts.calls.fetch_add(1, SeqCst);
        assert!(!self.runs[at].0.swap(true, SeqCst)); // never twice at once
        let _ends = Ends(self.clone(), at);
        for _ in 0..self.below(4) {
            match self.below(14) {
                0 => yields().await,
                1..=3 => self.sleep(5).await,
                4 => self.clone().waits().await,
                5 | 6 => self.a_while(self.clone().waits()).await,
                7 => self.tell(run.requeue()),
                8 => self.tell(run.requeue_after(self.time(5))),
                9 => _ = both(self.a_while(self.clone().waits()), self.a_while(self.clone().waits())).await,
                10 => {
                    self.sends(Box::pin(self.clone().waits())).await;
                    return; // the wait may be forgotten, and another one of the run would begin after it
                }
                11 if self.below(8) == 0 => {
                    self.counts.panics.fetch_add(1, SeqCst);
                    panic!("on purpose");
                }
                12 if self.below(4) == 0 => {
                    let own = self.clone();
                    self.executor.spawn(async move { own.a_while(own.clone().waits()).await });
                    // of no run
                }
                _ => self.calls(),
            }
        }
    }

    /// Begins a wait in a run, which others poll, drop or forget.
    async fn sends(&self, mut wait: Sent) {
        let over = poll_fn(|cx| Poll::Ready(wait.as_mut().poll(cx).is_ready())).await;
        if !over {
            self.counts.sent.fetch_add(1, SeqCst);
            match self.below(3) {
                0 => std::mem::forget(wait),
                1 => self.sent.lock().unwrap().push(wait),
                _ => _ = self.executor.spawn(wait),
            }
        }
    }

    fn freezes(&self) {
        if let Some(all) = &*self.all.lock().unwrap() {
            let told = if self.below(2) == 0 { all.freeze() } else { all.thaw() };
            self.tell(told);
        }
    }

    /// Only wider: a smaller width may hold up what runs wait for already.
    fn widens(&self) {
        let at = self.below(self.queues.len());
        let width = self.widths[at].fetch_add(1, SeqCst) + 1;
        self.tell(self.queues[at].set_max_active(width as u32));
    }

    async fn party(self, acts: usize) {
        for _ in 0..acts {
            if self.crowd && self.below(3) > 0 {
                self.tell(self.queues[0].flush().await);
                continue;
            }
            match self.below(13) {
                0..=4 => self.calls(),
                5 => self.clone().waits().await,
                6 => self.a_while(self.clone().waits()).await,
                7 => self.sleep(4).await,
                8 => self.freezes(),
                9 => self.widens(),
                10 if self.below(10) == 0 => self.tell(self.queue().destroy().await),
                10 => self.tell(self.queue().drain().await),
                11 => self.a_while(self.queue().drain()).await,
                _ => {
                    let sent = self.sent.lock().unwrap().pop();
                    drop(sent);
                    yields().await;
                }
            }
        }
    }

    async fn shuts_down(self) {
        let all = self.all.lock().unwrap().take();
        let told = all.unwrap().shutdown().await;
        assert!(matches!(told, Ok(()) | Err(Error::Panicked(_))), "{told:?}");
    }
}

/// Workqueues of any shape.
fn world(executor: &Seeded, text: &Text) -> World {
    let below = |most| executor.below(most);
    let crowd = below(8) == 0;
    let mut builder = Workqueues::builder()
        .cpus(1 + below(2) as u8)
        .workers(1 + below(5) as u8)
        .items(ITEMS as u16)
        .waits(if crowd { 40 } else { 1 + below(6) as u8 })
        .keep(1 + below(60) as u32)
        .clock(executor.clock.clone())
        .history(text.clone());
    if below(6) == 0 {
        builder = builder.room(50 + below(200) as u64);
    }
    let names = &["a", "b", "c"][..1 + below(3)];
    let mut widths = Vec::new();
    for name in names {
        let width = 1 + below(3);
        let mut options = max_active(width as u16);
        options = if below(2) == 0 { options.high_priority() } else { options };
        options = if below(2) == 0 { options.cpu_intensive() } else { options };
        options = if below(2) == 0 { options.freezable() } else { options };
        builder = builder.queue(name, options);
        widths.push(AtomicUsize::new(width));
    }
    let all = builder.build(|task| _ = executor.spawn(task)).unwrap();
    let queues = names.iter().map(|name| all.queue(name).unwrap()).collect();
    let world = World {
        executor: executor.clone(),
        items: Arc::default(),
        runs: Arc::default(),
        queues: Arc::new(queues),
        widths: Arc::new(widths),
        all: Arc::new(Mutex::new(Some(all))),
        counts: Arc::default(),
        sent: Arc::default(),
        crowd,
    };
    let items = (0..ITEMS).map(|at| {
        let own = world.clone();
        let queue = if crowd { &world.queues[0] } else { world.queue() };
        queue.item(move |run| own.clone().run(run, at)).unwrap()
    });
    assert!(world.items.set(items.collect()).is_ok());
    world
}

/// The executor drops all tasks at some time. Whoever waits elsewhere is told.
fn loses_its_tasks(world: &World, seed: u64) {
    let stop = world.below(60);
    let (own, flag) = (world.clone(), Arc::new(AtomicBool::new(false)));
    let is_over = flag.clone();
    world.executor.spawn(async move {
        for _ in 0..stop {
            yields().await;
        }
        flag.store(true, SeqCst);
        own.executor.drop_all();
    });
    world.executor.run();
    assert!(is_over.load(SeqCst));
    world.executor.drop_all();
    world.sent.lock().unwrap().clear();
    let (other, own) = (Seeded::new(seed + 1), world.clone());
    let told = other.finish(async move {
        let waited = own.queues[0].flush().await;
        assert!(matches!(waited, Err(Error::Closed | Error::Gone)), "{waited:?}");
        let all = own.all.lock().unwrap().take();
        all.unwrap().shutdown().await
    });
    assert!(matches!(told, Err(Error::Closed)), "{told:?}");
}

fn play(seed: u64, text: &Text) -> [u64; 8] {
    let executor = Seeded::wild(seed);
    let world = world(&executor, text);
    let parties = if world.crowd { 18 + world.below(8) } else { 1 + world.below(4) };
    for _ in 0..parties {
        executor.spawn(world.clone().party(5 + world.below(25)));
    }
    match world.below(8) {
        0 => {
            let (own, acts) = (world.clone(), world.below(40));
            executor.spawn(async move {
                for _ in 0..acts {
                    yields().await;
                }
                own.shuts_down().await;
            });
            executor.run_to_the_end();
        }
        1 => loses_its_tasks(&world, seed),
        how => {
            // what is frozen goes on, until somebody freezes it again
            let workers = world.all.lock().unwrap().as_ref().map_or(0, |_| executor.left());
            for _ in 0..100 {
                executor.run();
                let told = world.all.lock().unwrap().as_ref().map(Workqueues::thaw);
                if matches!(told, Some(Ok(false)) | None) {
                    break;
                }
            }
            executor.run();
            assert!(executor.left() <= workers - parties, "{} tasks hang", executor.left());
            world.sent.lock().unwrap().clear();
            if how == 2 {
                world.all.lock().unwrap().take();
                executor.run_to_the_end();
                text.wait_for_end();
            } else {
                executor.finish(world.clone().shuts_down());
            }
        }
    }
    text.judge();
    let Counts { calls, ends, waits, left, refused, panics, sent } = &*world.counts;
    let [calls, ends, waits, left, refused, panics, sent] =
        [calls, ends, waits, left, refused, panics, sent].map(|count| count.load(SeqCst) as u64);
    assert_eq!(calls, ends);
    let started = text.count("started");
    // an item that is poisoned and was pending starts without a work function
    assert!(started == calls || (panics > 0 && started > calls), "{started} starts, {calls} runs");
    [calls, waits, left, refused, panics, sent, text.count(""), executor.polls()]
}

/// What is played now, so that a failure can tell.
static NOW: Mutex<Option<(u64, Text)>> = Mutex::new(None);

#[test]
fn everything_ends_in_any_order() {
    let usual = std::panic::take_hook();
    std::panic::set_hook(Box::new(move |info| {
        if info.payload().downcast_ref::<&str>() != Some(&"on purpose") {
            let (seed, text) = NOW.lock().unwrap().clone().unwrap();
            std::thread::sleep(Duration::from_millis(200)); // the journal writes what there is
            let text = String::from_utf8(text.0.lock().unwrap().clone()).unwrap();
            let lines: Vec<&str> = text.lines().collect();
            eprintln!("seed {seed}:\n{}", lines[lines.len().saturating_sub(60)..].join("\n"));
            usual(info);
        }
    }));
    let seeds = if cfg!(feature = "schedules") { 2000 } else { 200 };
    let (first, seeds) = (number("CMWQ_FIRST", 0), number("CMWQ_SEEDS", seeds));
    let at = Arc::new(AtomicUsize::new(0));
    watch(at.clone(), number("CMWQ_SECONDS", 60) as u32);
    let mut sums = [0; 8];
    for seed in first..first + seeds {
        at.store(seed as usize, SeqCst);
        let text = Text::default();
        *NOW.lock().unwrap() = Some((seed, text.clone()));
        let told = play(seed, &text);
        (0..8).for_each(|k| sums[k] += told[k]);
    }
    let [runs, waits, left, refused, panics, sent, entries, polls] = sums;
    println!(
        "{seeds} schedules: {runs} runs, {waits} waits, {left} left, {refused} refused, {panics} panics, {sent} sent \
         elsewhere, {entries} entries, {polls} polls"
    );
}
