mod common;

use cmwq::{check, max_active, Error, Item, Result, Verdict, Workqueues};
use common::{watchdog, Bomb, Text};
use std::io::{self, Write};
use std::panic::panic_any;
use std::sync::atomic::{AtomicBool, AtomicUsize, Ordering::SeqCst};
use std::sync::{mpsc, Arc, Barrier, Mutex, OnceLock};
use std::thread;
use std::time::{Duration, Instant};

#[test]
fn an_item_runs_once_for_each_queueing() -> Result<()> {
    let _dog = watchdog();
    let text = Text::default();
    let all = Workqueues::builder().cpus(2).workers(2).queue("a", max_active(3)).history(text.clone()).build()?;
    let queue = all.queue("a")?;
    let runs = Arc::new(AtomicUsize::new(0));
    let inside = Arc::new(AtomicBool::new(false));
    let (own, busy) = (runs.clone(), inside.clone());
    let item = queue.item(move |_| {
        assert!(!busy.swap(true, SeqCst));
        own.fetch_add(1, SeqCst);
        busy.store(false, SeqCst);
    })?;
    let mut queued = 0;
    for _ in 0..1000 {
        queued += usize::from(item.queue()?);
        if queued % 7 == 0 {
            queue.flush()?;
        }
    }
    queue.flush()?;
    assert_eq!(runs.load(SeqCst), queued);
    all.shutdown()?;
    assert!(text.judge() > 1000);
    Ok(())
}

#[test]
fn delays_last_as_long_as_they_say() -> Result<()> {
    let _dog = watchdog();
    let text = Text::default();
    let all = Workqueues::builder().queue("a", max_active(8)).history(text.clone()).build()?;
    let queue = all.queue("a")?;
    let (send, receive) = mpsc::channel();
    let mut items = Vec::new();
    for place in 0..20u64 {
        let send = send.clone();
        let begun = Instant::now();
        let item = queue.item(move |_| send.send((place, begun.elapsed())).unwrap())?;
        assert!(item.queue_delayed(Duration::from_millis(place * 3 + 1))?);
        assert!(!item.queue_delayed(Duration::from_millis(1))?);
        items.push(item);
    }
    let later = queue.item(|_| unreachable!())?;
    later.queue_delayed(Duration::from_secs(3600))?;
    for _ in 0..20 {
        let (place, after) = receive.recv().unwrap();
        assert!(after >= Duration::from_millis(place * 3 + 1), "{place} {after:?}");
    }
    assert!(matches!(queue.destroy(), Err(Error::Timers)));
    assert!(later.cancel()?);
    assert!(!later.cancel_sync()?);
    later.queue_delayed(Duration::from_secs(3600))?; // taken back at the end
    all.shutdown()?;
    text.judge();
    Ok(())
}

#[test]
fn circles_are_refused() -> Result<()> {
    let _dog = watchdog();
    let text = Text::default();
    let all = Workqueues::builder().workers(4).queue("a", max_active(8)).history(text.clone()).build()?;
    let queue = all.queue("a")?;
    let gate = Arc::new(Barrier::new(3));
    let others: Arc<Mutex<Vec<cmwq::Item>>> = Arc::default();
    let (send, receive) = mpsc::channel();
    for place in 0..3 {
        let (gate, known, send) = (gate.clone(), others.clone(), send.clone());
        let own = queue.item(move |run| {
            run.block(|| gate.wait());
            let other = known.lock().unwrap()[(place + 1) % 3].clone();
            send.send(other.cancel_sync()).unwrap();
        })?;
        others.lock().unwrap().push(own);
    }
    let items = others.lock().unwrap().clone();
    for item in &items {
        item.queue()?;
    }
    let ends: Vec<_> = (0..3).map(|_| receive.recv().unwrap()).collect();
    assert_eq!(ends.iter().filter(|end| matches!(end, Err(Error::Deadlock))).count(), 1);
    assert_eq!(ends.iter().filter(|end| matches!(end, Ok(false))).count(), 2);
    let own = queue.clone();
    let (send, receive) = mpsc::channel();
    let alone = queue.item(move |_| send.send(own.flush()).unwrap())?;
    alone.queue()?;
    assert!(matches!(receive.recv().unwrap(), Err(Error::Itself)));
    all.shutdown()?;
    text.judge();
    Ok(())
}

#[test]
fn waits_of_runs_end() -> Result<()> {
    let _dog = watchdog();
    let text = Text::default();
    let all = Workqueues::builder()
        .workers(2)
        .queue("a", max_active(2))
        .queue("b", max_active(1))
        .history(text.clone())
        .build()?;
    let (a, b) = (all.queue("a")?, all.queue("b")?);
    let done = Arc::new(AtomicUsize::new(0));
    let own = done.clone();
    let slow = b.item(move |run| {
        run.block(|| thread::sleep(Duration::from_millis(10)));
        own.fetch_add(1, SeqCst);
    })?;
    let (inner, own) = (slow.clone(), done.clone());
    let waits = a.item(move |_| {
        inner.queue().unwrap();
        assert!(inner.flush().unwrap());
        assert_eq!(own.load(SeqCst), 1);
    })?;
    waits.queue()?;
    assert!(waits.flush()?);
    assert_eq!(done.load(SeqCst), 1);
    all.shutdown()?;
    text.judge();
    Ok(())
}

#[test]
fn a_drain_a_freeze_and_a_width() -> Result<()> {
    let _dog = watchdog();
    let text = Text::default();
    let all = Workqueues::builder()
        .workers(3)
        .queue("a", max_active(1).freezable().cpu_intensive())
        .history(text.clone())
        .build()?;
    let queue = all.queue("a")?;
    let mut left = 10;
    let chain = queue.item(move |run| {
        left -= 1;
        if left > 0 {
            assert!(run.requeue().unwrap());
        }
    })?;
    assert!(all.freeze()? && !all.freeze()?);
    chain.queue()?;
    thread::sleep(Duration::from_millis(5));
    assert!(chain.is_pending() && !chain.is_running());
    assert!(all.thaw()?);
    queue.drain()?;
    assert!(!chain.is_pending());
    assert_eq!(queue.set_max_active(1000)?, 512);
    queue.destroy()?;
    assert!(matches!(chain.queue(), Err(Error::Gone)));
    assert!(matches!(queue.flush(), Err(Error::Gone)));
    all.shutdown()?;
    text.judge();
    Ok(())
}

#[test]
fn a_panic_poisons_its_item() -> Result<()> {
    let _dog = watchdog();
    let all = Workqueues::builder().queue("a", max_active(1)).build()?;
    let queue = all.queue("a")?;
    let bad = queue.item(|run| {
        run.requeue().unwrap();
        run.block(|| panic!("on purpose"))
    })?;
    bad.queue()?;
    queue.flush()?;
    queue.flush()?;
    assert!(matches!(bad.queue(), Err(Error::Poisoned)));
    assert!(matches!(all.shutdown(), Err(Error::Panicked(1))));
    assert!(matches!(bad.flush(), Err(Error::Closed)));
    Ok(())
}

#[test]
fn items_come_and_go() -> Result<()> {
    let _dog = watchdog();
    let text = Text::default();
    let all = Workqueues::builder().items(3).queue("a", max_active(1)).history(text.clone()).build()?;
    let queue = all.queue("a")?;
    let ran = Arc::new(AtomicUsize::new(0));
    for _ in 0..100 {
        let own = ran.clone();
        let item = queue.item(move |_| _ = own.fetch_add(1, SeqCst))?;
        item.queue()?;
        drop(item); // it runs all the same
        queue.flush()?;
    }
    let held: Vec<_> = (0..3).map(|_| queue.item(|_| {}).unwrap()).collect();
    assert!(matches!(queue.item(|_| {}), Err(Error::NoItem)));
    drop(held);
    assert_eq!(ran.load(SeqCst), 100);
    drop(all);
    text.judge();
    Ok(())
}

#[test]
fn dropped_in_a_run_of_its_own() -> Result<()> {
    let _dog = watchdog();
    let text = Text::default();
    let all = Workqueues::builder().queue("a", max_active(1)).history(text.clone()).build()?;
    let queue = all.queue("a")?;
    let mut own = Some(all);
    let (send, receive) = mpsc::channel();
    let item = queue.item(move |_| {
        assert!(matches!(own.take().unwrap().shutdown(), Err(Error::Itself)));
        send.send(()).unwrap();
    })?;
    item.queue()?;
    receive.recv().unwrap();
    while !matches!(check(&text.0.lock().unwrap()), Ok(Verdict::Legal { .. })) {
        thread::sleep(Duration::from_millis(1));
    }
    Ok(())
}

#[test]
fn dropped_with_a_work_function() -> Result<()> {
    let _dog = watchdog();
    let text = Text::default();
    let all = Workqueues::builder().queue("a", max_active(1)).history(text.clone()).build()?;
    let queue = all.queue("a")?;
    let item = queue.item(move |_| _ = &all)?;
    item.queue()?;
    drop(item); // a worker drops all then
    while !matches!(check(&text.0.lock().unwrap()), Ok(Verdict::Legal { .. })) {
        thread::sleep(Duration::from_millis(1));
    }
    Ok(())
}

#[test]
fn a_writer_that_fails() -> Result<()> {
    let _dog = watchdog();
    struct Bad(usize);
    impl Write for Bad {
        fn write(&mut self, text: &[u8]) -> io::Result<usize> {
            if self.0 == 0 {
                return Err(io::Error::other("full"));
            }
            self.0 = self.0.saturating_sub(text.len());
            Ok(text.len())
        }
        fn flush(&mut self) -> io::Result<()> {
            Ok(())
        }
    }
    let all = Workqueues::builder().queue("a", max_active(1)).keep(16).history(Bad(1000)).build()?;
    let queue = all.queue("a")?;
    let item = queue.item(|_| {})?;
    for _ in 0..1000 {
        item.queue()?;
        queue.flush()?;
    }
    assert!(matches!(all.shutdown(), Err(Error::History(_))));
    Ok(())
}

#[test]
fn a_writer_that_panics() -> Result<()> {
    let _dog = watchdog();
    struct Bad;
    impl Write for Bad {
        fn write(&mut self, _: &[u8]) -> io::Result<usize> {
            panic!("on purpose")
        }
        fn flush(&mut self) -> io::Result<()> {
            Ok(())
        }
    }
    let all = Workqueues::builder().queue("a", max_active(1)).keep(16).history(Bad).build()?;
    let queue = all.queue("a")?;
    let item = queue.item(|_| {})?;
    for _ in 0..1000 {
        item.queue()?;
        queue.flush()?;
    }
    assert!(matches!(all.shutdown(), Err(Error::History(_))));
    Ok(())
}

#[test]
fn room_that_ends() -> Result<()> {
    let _dog = watchdog();
    let text = Text::default();
    let all = Workqueues::builder().queue("a", max_active(1)).room(40).history(text.clone()).build()?;
    let queue = all.queue("a")?;
    let item = queue.item(|run| {
        run.block(|| {});
    })?;
    let mut full = false;
    for _ in 0..100 {
        match item.queue() {
            Ok(_) => drop(queue.flush()),
            Err(Error::Full) => full = true,
            Err(other) => panic!("{other}"),
        }
    }
    assert!(full);
    all.shutdown()?;
    text.judge();
    Ok(())
}

/// A work function that runs until it is let go.
fn gate() -> (mpsc::Sender<()>, impl FnMut(&mut cmwq::Run<'_>) + Send) {
    let (send, receive) = mpsc::channel();
    (send, move |run: &mut cmwq::Run<'_>| run.block(|| receive.recv().unwrap()))
}

#[test]
fn waits_with_a_time_limit() -> Result<()> {
    let _dog = watchdog();
    let (text, soon, long) = (Text::default(), Duration::from_millis(5), Duration::from_secs(60));
    let all = Workqueues::builder().queue("a", max_active(4)).history(text.clone()).build()?;
    let queue = all.queue("a")?;
    let (go, work) = gate();
    let item = queue.item(work)?;
    item.queue()?;
    for _ in 0..3 {
        assert!(matches!(queue.flush_timeout(soon), Err(Error::TimedOut)));
        assert!(matches!(item.flush_timeout(soon), Err(Error::TimedOut)));
    }
    assert!(matches!(item.cancel_sync_timeout(soon), Err(Error::TimedOut)));
    while !item.is_running() {
        thread::yield_now();
    }
    assert!(!item.queue()?); // it is still being cancelled
    go.send(()).unwrap();
    queue.flush_timeout(long)?;
    assert!(item.queue()?);
    assert!(matches!(queue.drain_timeout(soon), Err(Error::TimedOut)));
    let delayed = queue.item(|_| {})?;
    assert!(matches!(delayed.queue_delayed(soon), Err(Error::Draining)));
    go.send(()).unwrap();
    item.flush_timeout(long)?;
    assert!(delayed.queue_delayed(soon)?);
    while delayed.is_pending() {
        thread::yield_now();
    }
    all.shutdown()?;
    text.judge();
    Ok(())
}

/// A run leaves its wait when the time has passed, and goes on awake. Then what it waited for may wait for it.
#[test]
fn waits_of_runs_with_a_time_limit() -> Result<()> {
    let _dog = watchdog();
    let text = Text::default();
    let all = Workqueues::builder().queue("a", max_active(8)).waits(4).history(text.clone()).build()?;
    let queue = all.queue("a")?;
    let ((go, work), soon) = (gate(), Duration::from_millis(1));
    let slow = queue.item(work)?;
    let (leaves, left): (Arc<OnceLock<Item>>, _) = (Arc::default(), Arc::new(AtomicBool::new(false)));
    let (own, its) = (leaves.clone(), left.clone());
    let (send, receive) = mpsc::channel();
    let awaited = queue.item(move |run| {
        run.block(|| {
            while !its.load(SeqCst) {
                thread::yield_now();
            }
        });
        send.send(own.get().unwrap().flush().is_ok()).unwrap();
    })?;
    let (one, two, tells) = (awaited.clone(), slow.clone(), left.clone());
    let item = queue.item(move |run| {
        for _ in 0..3 {
            assert!(matches!(one.flush_timeout(soon), Err(Error::TimedOut)));
            assert!(matches!(two.cancel_sync_timeout(Duration::ZERO), Err(Error::TimedOut)));
        }
        run.block(|| assert!(matches!(two.flush_timeout(soon), Err(Error::TimedOut))));
        tells.store(true, SeqCst);
        run.block(|| thread::sleep(Duration::from_millis(20)));
        go.send(()).unwrap();
        assert!(two.flush().is_ok());
    })?;
    assert!(leaves.set(item.clone()).is_ok());
    slow.queue()?;
    awaited.queue()?;
    while !slow.is_running() || !awaited.is_running() {
        thread::yield_now();
    }
    item.queue()?;
    assert!(receive.recv().unwrap(), "the old wait is not held against it");
    queue.flush()?;
    all.shutdown()?;
    text.judge();
    Ok(())
}

#[test]
fn waits_that_time_out_take_no_caller() -> Result<()> {
    let _dog = watchdog();
    let text = Text::default();
    let all = Workqueues::builder().queue("a", max_active(4)).waits(2).history(text.clone()).build()?;
    let queue = all.queue("a")?;
    let (go, work) = gate();
    let (slow, idle) = (queue.item(work)?, queue.item(|_| {})?);
    slow.queue()?;
    for _ in 0..500 {
        assert!(matches!(slow.flush_timeout(Duration::ZERO), Err(Error::TimedOut)));
        assert!(matches!(queue.drain_timeout(Duration::ZERO), Err(Error::TimedOut)));
    }
    assert!(!idle.cancel_sync()?);
    go.send(()).unwrap();
    queue.drain()?;
    all.shutdown()?;
    assert!(text.judge() < 40); // a thread that polls makes one entry
    Ok(())
}

#[test]
fn timers_go_on_after_a_drain_that_was_left() -> Result<()> {
    let _dog = watchdog();
    let (text, soon) = (Text::default(), Duration::from_millis(20));
    let all = Workqueues::builder().queue("a", max_active(4)).history(text.clone()).build()?;
    let queue = all.queue("a")?;
    let (go, work) = gate();
    let (item, (send, receive)) = (queue.item(work)?, mpsc::channel());
    let delayed = queue.item(move |_| send.send(()).unwrap())?;
    delayed.queue_delayed(soon)?;
    item.queue()?;
    assert!(matches!(queue.drain_timeout(2 * soon), Err(Error::TimedOut)));
    assert!(delayed.is_pending());
    delayed.cancel()?;
    let other = queue.item(|_| {})?;
    assert!(matches!(other.queue(), Err(Error::Draining)));
    go.send(()).unwrap();
    while !matches!(delayed.queue_delayed(soon), Ok(true)) {
        thread::yield_now();
    }
    receive.recv().unwrap();
    all.shutdown()?;
    text.judge();
    Ok(())
}

#[test]
fn timers_go_on_after_a_drain() -> Result<()> {
    let _dog = watchdog();
    let all = Workqueues::builder().queue("a", max_active(4)).queue("b", max_active(4)).build()?;
    let (a, b) = (all.queue("a")?, all.queue("b")?);
    let (go, work) = gate();
    let item = a.item(work)?;
    item.queue()?;
    let (send, receive) = mpsc::channel();
    let own = send.clone();
    let held = a.item(move |_| own.send("held").unwrap())?;
    held.queue_delayed(Duration::from_millis(100))?;
    let drained = a.clone();
    let drain = thread::spawn(move || drained.drain());
    let other = a.item(|_| {})?;
    while !matches!(other.queue(), Err(Error::Draining)) {
        other.cancel_sync()?;
    }
    let free = b.item(move |_| send.send("free").unwrap())?;
    free.queue_delayed(Duration::from_millis(1))?;
    assert_eq!(receive.recv().unwrap(), "free"); // now the clock knows of no other timer
    thread::sleep(Duration::from_millis(5));
    go.send(()).unwrap();
    drain.join().unwrap()?;
    assert_eq!(receive.recv_timeout(Duration::from_secs(20)), Ok("held"));
    all.shutdown()
}

#[test]
fn the_history_is_written_within_a_time() -> Result<()> {
    let _dog = watchdog();
    let text = Text::default();
    let all = Workqueues::builder().queue("a", max_active(1)).history(text.clone()).build()?;
    let queue = all.queue("a")?;
    let item = queue.item(|_| {})?;
    for count in 1..4 {
        item.queue()?;
        queue.flush()?;
        let begun = Instant::now();
        let is_written =
            |text: &Text| String::from_utf8_lossy(&text.0.lock().unwrap()).matches("= done").count() == count;
        while !is_written(&text) {
            assert!(begun.elapsed() < Duration::from_secs(5));
            thread::sleep(Duration::from_millis(1));
        }
    }
    all.shutdown()
}

#[test]
fn calls_that_wait_end_at_the_shutdown() -> Result<()> {
    let _dog = watchdog();
    for round in 0..50 {
        let all = Workqueues::builder().queue("a", max_active(1)).spins(round % 2 * 1000).build()?;
        let queue = all.queue("a")?;
        let (go, work) = gate();
        let item = queue.item(work)?;
        item.queue()?;
        let waits: Vec<_> = (0..4).map(|_| queue.clone()).map(|queue| thread::spawn(move || queue.flush())).collect();
        thread::sleep(Duration::from_micros(u64::from(round) * 20));
        let ends = thread::spawn(move || all.shutdown());
        go.send(()).unwrap();
        for wait in waits {
            let waited = wait.join().unwrap();
            assert!(matches!(waited, Ok(()) | Err(Error::Closed)), "{waited:?}");
        }
        ends.join().unwrap()?;
        assert!(matches!(item.queue(), Err(Error::Closed)));
        assert!(matches!(queue.flush(), Err(Error::Closed)));
        assert!(!item.is_pending());
    }
    Ok(())
}

#[test]
fn what_is_outside_the_limits() -> Result<()> {
    let one = || Workqueues::builder().queue("a", max_active(1));
    for builder in [
        Workqueues::builder(),
        one().queue("a", max_active(1)),
        one().queue("b", max_active(0)),
        one().queue("b", max_active(513)),
        one().cpus(0),
        one().cpus(65),
        one().workers(0),
        one().workers(65),
        one().items(0),
        one().waits(0),
        one().waits(255),
        one().tick(Duration::ZERO),
    ] {
        assert!(matches!(builder.build(), Err(Error::Invalid(_))));
    }
    let all = one().items(65_535).keep(0).build()?;
    let queue = all.queue("a")?;
    assert!(matches!(all.queue("b"), Err(Error::NoQueue(name)) if name == "b"));
    assert!(matches!(queue.item_on(1, |_| {}), Err(Error::Invalid(_))));
    let item = queue.item(|_| {})?;
    assert!(matches!(item.queue_on(&queue, 1), Err(Error::Invalid(_))));
    assert!(matches!(queue.set_max_active(0), Err(Error::Invalid(_))));
    assert!(matches!(item.queue_delayed(Duration::from_secs(1 << 32)), Err(Error::Invalid(_))));
    assert!(item.queue_delayed(Duration::from_secs(1 << 22))?);
    all.shutdown()
}

#[test]
fn frozen_queues_are_thawed_at_the_end() -> Result<()> {
    let _dog = watchdog();
    let all = Workqueues::builder().queue("a", max_active(1).freezable()).build()?;
    let (send, receive) = mpsc::channel();
    let item = all.queue("a")?.item(move |_| send.send(()).unwrap())?;
    all.freeze()?;
    item.queue()?;
    drop(all);
    assert!(receive.recv().is_ok());
    Ok(())
}

#[test]
fn handles_are_dropped_anywhere() -> Result<()> {
    let _dog = watchdog();
    let all = Workqueues::builder().items(4).workers(2).queue("a", max_active(4)).build()?;
    let queue = all.queue("a")?;
    let ran = Arc::new(AtomicUsize::new(0));
    for _ in 0..100 {
        let (own, inner) = (ran.clone(), queue.item(|_| {})?);
        // the last handle of another item is dropped with the work function
        let outer = queue.item(move |_| {
            inner.queue().unwrap();
            own.fetch_add(1, SeqCst);
        })?;
        outer.queue()?;
        drop(outer);
        queue.flush()?;
        queue.flush()?;
    }
    assert_eq!(ran.load(SeqCst), 100);
    all.shutdown()
}

#[test]
fn a_run_of_other_workqueues_is_a_caller() -> Result<()> {
    let _dog = watchdog();
    let make = || Workqueues::builder().queue("a", max_active(1)).build();
    let (one, other) = (make()?, make()?);
    let (ours, theirs) = (one.queue("a")?, other.queue("a")?);
    let (send, receive) = mpsc::channel();
    let item = ours.item(move |_| {
        let inner = theirs.item(|_| {}).unwrap();
        inner.queue().unwrap();
        send.send(theirs.flush_timeout(Duration::from_secs(60))).unwrap();
    })?;
    item.queue()?;
    receive.recv().unwrap()?;
    one.shutdown()?;
    other.shutdown()
}

#[test]
fn panics_of_panics_kill_no_worker() -> Result<()> {
    let _dog = watchdog();
    for depth in [0, 1, 2, 3, 10, u32::MAX] {
        let text = Text::default();
        let all = Workqueues::builder().workers(1).queue("a", max_active(4)).history(text.clone()).build()?;
        let queue = all.queue("a")?;
        let ran = Arc::new(AtomicUsize::new(0));
        let (bad, own) = (queue.item(move |_| panic_any(Bomb(depth)))?, ran.clone());
        bad.queue()?;
        queue.flush()?;
        assert!(!bad.is_running());
        assert!(matches!(bad.queue(), Err(Error::Poisoned)));
        // a work function that panics when it is dropped: by a worker, beside what it has panicked with, and at the end
        let ((go, work), captured) = (gate(), Bomb(depth));
        let holds = queue.item(work)?;
        holds.queue()?;
        queue.item(move |_| _ = &captured)?.queue()?;
        let captured = Bomb(depth);
        let worse = queue.item(move |_| {
            let _ = &captured;
            panic_any(Bomb(depth));
        })?;
        worse.queue()?;
        go.send(()).unwrap();
        queue.flush()?;
        let captured = Bomb(depth);
        let _kept = queue.item(move |_| _ = &captured)?;
        queue.item(move |_| _ = own.fetch_add(1, SeqCst))?.queue()?;
        queue.flush()?;
        assert_eq!(ran.load(SeqCst), 1);
        assert!(matches!(all.shutdown(), Err(Error::Panicked(2))));
        text.judge();
    }
    Ok(())
}

#[test]
fn a_writer_that_panics_with_a_bomb() -> Result<()> {
    let _dog = watchdog();
    struct Bad;
    impl Write for Bad {
        fn write(&mut self, _: &[u8]) -> io::Result<usize> {
            panic_any(Bomb(3))
        }
        fn flush(&mut self) -> io::Result<()> {
            Ok(())
        }
    }
    let all = Workqueues::builder().queue("a", max_active(1)).history(Bad).build()?;
    all.queue("a")?.item(|_| ())?.queue()?;
    assert!(matches!(all.shutdown(), Err(Error::History(_))));
    Ok(())
}

/// A work function is dropped by the only worker, which would wait for what it runs next.
#[test]
fn drops_wait_for_nothing_in_threads_of_the_workqueues() -> Result<()> {
    let _dog = watchdog();
    struct Waits(cmwq::Queue, cmwq::Item, mpsc::Sender<Vec<Error>>);
    impl Drop for Waits {
        fn drop(&mut self) {
            let Waits(queue, later, send) = self;
            let long = Duration::from_secs(3600);
            let waits = [
                queue.flush(),
                queue.drain_timeout(long),
                later.flush().map(drop),
                later.cancel_sync_timeout(long).map(drop),
            ];
            send.send(waits.into_iter().filter_map(Result::err).collect()).unwrap();
        }
    }
    let all = Workqueues::builder().workers(1).queue("a", max_active(4)).build()?;
    let queue = all.queue("a")?;
    let ((go, work), (send, receive)) = (gate(), mpsc::channel());
    let (slow, later) = (queue.item(work)?, queue.item(|_| ())?);
    slow.queue()?;
    let waits = Waits(queue.clone(), later.clone(), send);
    queue.item(move |_| _ = &waits)?.queue()?;
    later.queue()?;
    go.send(()).unwrap();
    let told = receive.recv().unwrap();
    assert!(told.len() == 4 && told.iter().all(|why| matches!(why, Error::Itself)), "{told:?}");
    later.flush()?;
    all.shutdown()
}

#[test]
fn a_writer_that_panics_when_it_is_dropped() -> Result<()> {
    let _dog = watchdog();
    struct Bad(Text);
    impl Write for Bad {
        fn write(&mut self, text: &[u8]) -> io::Result<usize> {
            self.0.write(text)
        }
        fn flush(&mut self) -> io::Result<()> {
            Ok(())
        }
    }
    impl Drop for Bad {
        fn drop(&mut self) {
            panic_any(Bomb(3));
        }
    }
    let text = Text::default();
    let all = Workqueues::builder().queue("a", max_active(1)).history(Bad(text.clone())).build()?;
    all.queue("a")?.item(|_| ())?.queue()?;
    let ended = all.shutdown();
    assert!(
        matches!(&ended, Err(Error::History(why)) if why.to_string().ends_with("when it was dropped")),
        "{ended:?}"
    );
    text.judge();
    Ok(())
}

#[test]
fn items_after_the_end() -> Result<()> {
    let _dog = watchdog();
    struct Noisy(Arc<AtomicUsize>);
    impl Drop for Noisy {
        fn drop(&mut self) {
            self.0.fetch_add(1, SeqCst);
        }
    }
    let dropped = Arc::new(AtomicUsize::new(0));
    let all = Workqueues::builder().queue("a", max_active(2)).build()?;
    let queue = all.queue("a")?;
    let ((go, goes), (send, receive)) = (mpsc::channel(), mpsc::channel());
    let own = queue.clone();
    let first = queue.item(move |_| {
        goes.recv().unwrap();
        let send = send.clone();
        // of a run: it runs too
        own.item(move |_| send.send(()).unwrap()).unwrap().queue().unwrap();
    })?;
    first.queue()?;
    let ends = thread::spawn(move || all.shutdown());
    let noisy = || Noisy(dropped.clone());
    let mut made = 0;
    loop {
        let own = noisy();
        made += 1;
        match queue.item(move |_| _ = &own) {
            Ok(_) => thread::yield_now(),
            Err(why) => break assert!(matches!(why, Error::Closed)),
        }
    }
    go.send(()).unwrap();
    receive.recv().unwrap();
    ends.join().unwrap()?;
    let own = noisy();
    assert!(matches!(queue.item_on(0, move |_| _ = &own), Err(Error::Closed)));
    assert_eq!(dropped.load(SeqCst), made + 1);
    Ok(())
}

#[test]
fn frozen_items_run_without_room() -> Result<()> {
    let _dog = watchdog();
    for room in 20..60 {
        let text = Text::default();
        let all = Workqueues::builder()
            .items(4)
            .workers(2)
            .room(room)
            .queue("cold", max_active(2).freezable())
            .queue("a", max_active(2))
            .history(text.clone())
            .build()?;
        let (cold, queue) = (all.queue("cold")?, all.queue("a")?);
        let (send, receive) = mpsc::channel();
        let (frozen, other, late) =
            (cold.item(move |_| send.send(()).unwrap())?, queue.item(|_| ())?, queue.item(|_| ())?);
        all.freeze()?;
        frozen.queue()?;
        late.queue_delayed(Duration::from_secs(3600))?;
        while other.queue().and_then(|_| queue.flush()).is_ok() {}
        while other.cancel().is_ok() {}
        all.shutdown()?; // a freeze keeps room for its thaw, and a queueing for its run
        receive.try_recv().unwrap();
        assert!(!frozen.is_pending() && !late.is_pending());
        text.judge();
    }
    Ok(())
}

#[test]
fn everything_is_shown() -> Result<()> {
    let builder = Workqueues::builder().queue("disk", max_active(2).high_priority());
    let shown = format!("{builder:?}");
    assert!(shown.starts_with("Builder { cpus: 1, workers: 4, items: 256, waits: 63, queues: [(\"disk\", "), "{shown}");
    let all = builder.build()?;
    let queue = all.queue("disk")?;
    let (send, receive) = mpsc::channel();
    let item = queue.item(move |run| send.send(format!("{run:?}")).unwrap())?;
    assert_eq!(format!("{all:?} {queue:?} {item:?}"), "Workqueues { queues: [\"disk\"], .. } Queue(0) Item(0)");
    item.queue()?;
    let shown = receive.recv().unwrap();
    assert!(shown.starts_with("Run { item: 0, queue: 0, worker: Who { kind: 2, index: "), "{shown}");
    let book = cmwq::book::Book::open(
        &cmwq::book::Shape { room: 9, keep: 9, items: 1, cpus: 1, workers: 1, callers: 1 },
        &[max_active(1)],
    );
    assert!(format!("{:?}", book.unwrap()).starts_with("Book"));
    all.shutdown()
}

#[test]
fn handles_go_to_other_threads() {
    fn is_send<T: Send>() {}
    fn is_sync<T: Sync>() {}
    is_send::<Workqueues>();
    is_send::<cmwq::book::Book>();
    is_send::<cmwq::Builder>();
    is_send::<cmwq::Queue>();
    is_send::<cmwq::Item>();
    is_sync::<cmwq::Queue>();
    is_sync::<cmwq::Item>();
    is_send::<Error>();
}
