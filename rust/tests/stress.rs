//! Random calls of callers and runs on threads, under a watchdog. Each history is judged. CMWQ_SEEDS says how many.
mod common;

use cmwq::{max_active, Error, Item, Queue, Result, Run, Workqueues};
use common::{number, watch, Random, Text};
use std::sync::atomic::{AtomicUsize, Ordering::SeqCst};
use std::sync::{Arc, OnceLock};
use std::time::Duration;

#[derive(Default)]
struct Told {
    waits: AtomicUsize,
    refused: AtomicUsize,
    timed_out: AtomicUsize,
}

/// What all know: the handles.
#[derive(Default)]
struct World {
    items: OnceLock<Vec<Item>>,
    queues: OnceLock<Vec<Queue>>,
    told: Told,
}

impl World {
    fn act(&self, random: &mut Random, in_run: bool) {
        let items = self.items.get().unwrap();
        let queues = self.queues.get().unwrap();
        let item = &items[random.below(items.len())];
        let queue = &queues[random.below(queues.len())];
        let time = Duration::from_micros(random.below(300) as u64);
        let is_timed = !in_run && random.below(4) == 0;
        let waited = match random.below(15) {
            0..=3 => return self.tell(item.queue_on(queue, 0)),
            4 => return self.tell(item.modify(time)),
            5 => return self.tell(item.queue_delayed(time)),
            6 => return self.tell(item.cancel()),
            7 | 8 if is_timed => item.flush_timeout(time),
            7 | 8 => item.flush(),
            9 => item.flush_delayed(),
            10 | 11 if is_timed => item.cancel_sync_timeout(time),
            10 | 11 => item.cancel_sync(),
            12 | 13 if is_timed => queue.flush_timeout(time).map(|()| true),
            12 | 13 => queue.flush().map(|()| true),
            _ if in_run => queue.flush().map(|()| true),
            _ if is_timed => queue.drain_timeout(time).map(|()| true),
            _ => queue.drain().map(|()| true),
        };
        self.told.waits.fetch_add(1, SeqCst);
        self.tell(waited);
    }

    fn tell(&self, told: Result<bool>) {
        match told {
            Ok(_) | Err(Error::Foreign | Error::Draining | Error::Closed | Error::TooManyWaits) => {}
            Err(Error::Deadlock | Error::Itself) => _ = self.told.refused.fetch_add(1, SeqCst),
            Err(Error::TimedOut) => _ = self.told.timed_out.fetch_add(1, SeqCst),
            Err(other) => panic!("{other}"),
        }
    }
}

fn trial(seed: u64) -> Result<[usize; 4]> {
    let mut random = Random::new(seed);
    let text = Text::default();
    let cpus = 1 + random.below(3) as u8;
    let mut builder = Workqueues::builder()
        .cpus(cpus)
        .workers(1 + random.below(5) as u8)
        .items(12)
        .waits(2 + random.below(10) as u8)
        .keep(1 + random.below(64) as u32)
        .tick(Duration::from_micros(50))
        .spins([0, 50, 1000][random.below(3)])
        .history(text.clone());
    let names = ["a", "b", "c"];
    for name in names {
        let mut options = max_active(1 + random.below(3) as u16);
        if random.below(2) == 0 {
            options = options.cpu_intensive();
        }
        if random.below(3) == 0 {
            options = options.high_priority();
        }
        builder = builder.queue(name, options);
    }
    let all = builder.build()?;
    let world = Arc::new(World::default());
    let queues: Vec<Queue> = names.iter().map(|name| all.queue(name).unwrap()).collect();
    let items: Vec<Item> = (0..12)
        .map(|at| {
            let home = &queues[random.below(3)];
            let (world, mut random, mut inside) = (world.clone(), Random::new(seed * 100 + at), 0);
            let work = move |run: &mut Run<'_>| {
                inside += 1;
                assert_eq!(inside, 1); // never twice at once
                for _ in 0..random.below(3) {
                    match random.below(7) {
                        0 => run.block(std::thread::yield_now),
                        1 => run.block(|| world.act(&mut random, true)),
                        2 => world.tell(run.requeue()),
                        _ => world.act(&mut random, true),
                    }
                }
                inside -= 1;
            };
            home.item_on(at as u8 % cpus, work).unwrap()
        })
        .collect();
    let _ = world.items.set(items);
    let _ = world.queues.set(queues);
    std::thread::scope(|scope| {
        for caller in 0..3 {
            let world = &world;
            scope.spawn(move || {
                let mut random = Random::new(seed * 1000 + caller);
                for _ in 0..40 {
                    world.act(&mut random, false);
                }
            });
        }
    });
    all.shutdown()?;
    let told = &world.told;
    let counts = [&told.waits, &told.refused, &told.timed_out].map(|count| count.load(SeqCst));
    Ok([text.judge() as usize, counts[0], counts[1], counts[2]])
}

#[test]
fn all_ends_and_every_history_is_legal() -> Result<()> {
    let (first, seeds) = (number("CMWQ_FIRST", 0), number("CMWQ_SEEDS", 300));
    let at = Arc::new(AtomicUsize::new(0));
    watch(at.clone(), number("CMWQ_SECONDS", 30) as u32);
    let mut sums = [0; 4];
    for seed in first..first + seeds {
        at.store(seed as usize, SeqCst);
        let told = trial(seed)?;
        (0..4).for_each(|k| sums[k] += told[k]);
    }
    let [entries, waits, refused, timed_out] = sums;
    println!("{seeds} trials, {entries} entries, {waits} waits, {refused} refused, {timed_out} timed out");
    Ok(())
}
