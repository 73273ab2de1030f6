//! Prints how long an item waits from its queueing to its start, where nothing else goes on: the median and the 99th
//! of a hundred, in microseconds. `latency [SPINS]`
use cmwq::{max_active, Result, Workqueues};
use std::sync::mpsc;
use std::time::{Duration, Instant};

fn main() -> Result<()> {
    let spins = std::env::args().nth(1).map_or(1000, |word| word.parse().expect("a number"));
    for (name, pause) in [("at once", 0), ("after 200 us", 200), ("after 5 ms", 5000)] {
        let all = Workqueues::builder().queue("a", max_active(8)).spins(spins).build()?;
        let queue = all.queue("a")?;
        let (send, receive) = mpsc::channel();
        let item = queue.item(move |_| send.send(Instant::now()).unwrap())?;
        let mut times: Vec<Duration> = (0..if pause > 1000 { 200 } else { 2000 })
            .map(|_| {
                std::thread::sleep(Duration::from_micros(pause));
                let begun = Instant::now();
                item.queue().unwrap();
                let took = receive.recv().unwrap().saturating_duration_since(begun);
                item.flush().unwrap();
                took
            })
            .collect();
        times.sort();
        let at = |percent: usize| times[times.len() * percent / 100].as_nanos() as f64 / 1e3;
        println!("{name}: {:.1} us, {:.1} us", at(50), at(99));
        all.shutdown()?;
    }
    Ok(())
}
