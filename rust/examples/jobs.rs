//! Prints how many runs there are in a second: `jobs LOAD ROUNDS WORKERS [ITEMS] [WORD..]`
//!
//! - `self`: an item queues itself, ROUNDS times.
//! - `fanout`: four callers, each of which queues an item and drains its queue, in each round. The item queues 63
//!   others.
//! - `stream`: four callers, each of which queues 64 items and flushes its queue, in each round.
//!
//! With fewer than 256 items the callers have fewer each, and with more each round has the next ones. The words are
//! `intensive`, `batch`, `spins=N`, `work=N` and `history=FILE`. By `work` each run works for N microseconds.
use cmwq::{max_active, Item, Queue, Result, Workqueues};
use std::sync::atomic::{AtomicU64, Ordering::Relaxed};
use std::sync::{Arc, OnceLock};
use std::time::{Duration, Instant};

fn work(lasts: Duration) {
    let begun = Instant::now();
    while begun.elapsed() < lasts {}
}

fn main() -> Result<()> {
    let words: Vec<String> = std::env::args().skip(1).collect();
    let number = |at: usize, otherwise: u64| words.get(at).and_then(|word| word.parse().ok()).unwrap_or(otherwise);
    let load = words.first().map_or("self", String::as_str);
    let (rounds, workers, count) = (number(1, 100_000), number(2, 1) as u8, number(3, 256) as u16);
    let value = |name: &str| words.iter().find_map(|word| word.strip_prefix(name)?.strip_prefix('='));
    let lasts = value("work").map(|work| Duration::from_micros(work.parse().expect("a number")));
    let is_batch = words.iter().any(|word| word == "batch");
    let options = max_active(512);
    let options = if words.iter().any(|word| word == "intensive") { options.cpu_intensive() } else { options };
    let mut builder = Workqueues::builder().workers(workers).items(count).waits(4);
    if let Some(spins) = value("spins") {
        builder = builder.spins(spins.parse().expect("a number"));
    }
    for name in ["0", "1", "2", "3"] {
        builder = builder.queue(name, options);
    }
    if let Some(path) = value("history") {
        builder = builder.history(std::fs::File::create(path).expect("a file"));
    }
    let all = builder.build()?;
    let queues: Vec<Queue> = ["0", "1", "2", "3"].into_iter().map(|name| all.queue(name)).collect::<Result<_>>()?;
    let runs = Arc::new(AtomicU64::new(0));
    let begun;
    if load == "self" {
        let own = runs.clone();
        let item = queues[0].item_on(0, move |run| {
            if own.fetch_add(1, Relaxed) + 1 < rounds {
                run.requeue().unwrap();
            }
        })?;
        begun = Instant::now();
        item.queue()?;
        queues[0].drain()?;
    } else {
        let each = usize::from(count) / 4;
        let block = each.min(64);
        let items: Arc<OnceLock<Vec<Item>>> = Arc::default();
        let made: Vec<Item> = (0..4 * each)
            .map(|at| {
                let (own, known, queue) = (runs.clone(), items.clone(), queues[at / each].clone());
                let is_root = load == "fanout" && at % each % block == 0;
                queues[at / each].item_on(0, move |_| {
                    own.fetch_add(1, Relaxed);
                    lasts.into_iter().for_each(work);
                    if is_root {
                        let others = &known.get().unwrap()[at + 1..at + block];
                        if is_batch {
                            queue.queue_all(others).unwrap();
                        } else {
                            others.iter().for_each(|other| assert!(other.queue().unwrap()));
                        }
                    }
                })
            })
            .collect::<Result<_>>()?;
        let _ = items.set(made);
        begun = Instant::now();
        std::thread::scope(|scope| {
            for (own, queue) in items.get().unwrap().chunks(each).zip(&queues) {
                scope.spawn(move || {
                    let blocks: Vec<&[Item]> = own.chunks_exact(block).collect();
                    for round in 0..rounds as usize {
                        let items = blocks[round % blocks.len()];
                        if load == "fanout" {
                            items[0].queue().unwrap();
                            queue.drain().unwrap();
                            continue;
                        }
                        if is_batch {
                            queue.queue_all(items).unwrap();
                        } else {
                            items.iter().for_each(|item| assert!(item.queue().unwrap()));
                        }
                        queue.flush().unwrap();
                    }
                });
            }
        });
    }
    let spent = begun.elapsed().as_secs_f64();
    println!("{:.0}", runs.load(Relaxed) as f64 / spent);
    all.shutdown()
}
