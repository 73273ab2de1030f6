//! Single cases of `cmwq::aio`, most of them in one thread with a time of its own.
mod common;
mod executors;

use cmwq::aio::{Builder, Item, Run, Wait, Workqueues};
use cmwq::{max_active, Error, Result};
use common::{number, watchdog, Bomb, Text};
use executors::case::{Case, Gate, Nosy, MS};
use executors::{block_on, both, either, yields, Seeded, Threads};
use std::future::{pending, Future};
use std::io::{self, Write};
use std::panic::panic_any;
use std::pin::{pin, Pin};
use std::sync::atomic::{AtomicUsize, Ordering::SeqCst};
use std::sync::{Arc, Mutex, OnceLock};
use std::task::{Context, Poll};
use std::time::Duration;

#[test]
fn a_run_that_awaits_lets_others_start() -> Result<()> {
    let _dog = watchdog();
    let case = Case::new(1);
    let items = ["one", "two", "three"].map(|name| case.sleeper(name, MS * 10));
    assert_eq!(case.queue.queue_all(&items)?, 3);
    assert!(items[0].is_pending() && !items[0].queue()?);
    case.executor.finish(async move {
        assert!(items[0].flush().await.unwrap() && !items[0].flush().await.unwrap());
    });
    let text = case.text.clone();
    let log = case.ends();
    assert!(log[..3].iter().all(|line| line.ends_with("begins")), "{log:?}");
    assert_eq!((text.count("slept"), text.count("woke")), (3, 3));
    Ok(())
}

#[test]
fn runs_that_are_cpu_intensive_make_no_entries_where_they_await() -> Result<()> {
    let _dog = watchdog();
    for (intensive, slept) in [(false, 7), (true, 1)] {
        let options = if intensive { max_active(4).cpu_intensive() } else { max_active(4) };
        let case = Case::of(2, |builder| builder.queue("a", options));
        let (slow, own) = (case.sleeper("slow", MS), OnceLock::new());
        assert!(own.set(slow).is_ok());
        let own = Arc::new(own);
        let known = own.clone();
        let item = case.queue.item(move |_| {
            let known = known.clone();
            async move {
                for _ in 0..5 {
                    yields().await;
                }
                let slow = known.get().unwrap();
                assert!(slow.queue().unwrap() && slow.flush().await.unwrap());
            }
        })?;
        item.queue()?;
        let text = case.text.clone();
        case.ends();
        assert_eq!((text.count("slept"), text.count("woke")), (slept, slept), "{intensive}");
    }
    Ok(())
}

#[test]
fn waits_of_runs_that_could_never_end_are_refused() -> Result<()> {
    let _dog = watchdog();
    for seed in 0..50 {
        let case = Case::new(seed);
        let known: Arc<OnceLock<[Item; 2]>> = Arc::default();
        let make = |at: usize| {
            let (known, log) = (known.clone(), case.log.clone());
            case.queue.item(move |_| {
                let (known, log) = (known.clone(), log.clone());
                async move {
                    yields().await;
                    let items = known.get().unwrap();
                    assert!(matches!(items[at].flush().await, Err(Error::Itself)));
                    if let Err(why) = items[1 - at].flush().await {
                        log.add(why.to_string());
                    }
                }
            })
        };
        let items = [make(0)?, make(1)?];
        items.iter().for_each(|item| assert!(item.queue().unwrap()));
        assert!(known.set(items).is_ok());
        let log = case.ends();
        assert!(log.is_empty() || log == ["the wait could never end"], "{log:?}");
    }
    Ok(())
}

#[test]
fn a_wait_that_is_dropped_is_left() -> Result<()> {
    let _dog = watchdog();
    let case = Case::of(3, |builder| builder.waits(2).queue("a", max_active(2)));
    let (item, clock) = (case.sleeper("slow", MS * 100), case.executor.clock.clone());
    item.queue()?;
    let queue = case.queue.clone();
    case.executor.finish(async move {
        for _ in 0..30 {
            assert!(either(queue.flush(), clock.sleep(MS)).await.is_err());
            assert!(either(item.cancel_sync(), clock.sleep(MS)).await.is_err());
        }
        queue.flush().await.unwrap();
        // a cancellation that was left goes on until the run has ended
        assert!(item.queue().unwrap());
    });
    case.ends();
    Ok(())
}

#[test]
fn a_run_that_drops_its_wait_goes_on_and_ends() -> Result<()> {
    let _dog = watchdog();
    for seed in 0..20 {
        let case = Case::new(seed);
        let long = case.sleeper("long", MS * 100);
        let (waits, log) = (long.clone(), case.log.clone());
        let short = case.queue.item(move |_| {
            let (waits, log) = (waits.clone(), log.clone());
            async move {
                assert!(waits.queue().unwrap());
                assert!(either(waits.flush(), log.0.clock.sleep(MS * 5)).await.is_err());
                assert!(log.now() < MS * 90);
                log.add("goes on");
            }
        })?;
        short.queue()?;
        let log = case.log.clone();
        case.executor.finish(async move {
            assert!(short.flush().await.unwrap());
            assert!(log.now() < MS * 90);
        });
        assert_eq!(case.ends(), ["long begins", "goes on", "long ends"]);
    }
    Ok(())
}

#[test]
fn a_run_may_make_waits_at_once() -> Result<()> {
    let _dog = watchdog();
    for seed in 0..20 {
        let case = Case::new(seed);
        let (one, two) = (case.sleeper("one", MS * 10), case.sleeper("two", MS * 20));
        let item = case.queue.item(move |_| {
            let (one, two) = (one.clone(), two.clone());
            async move {
                assert!(one.queue().unwrap() && two.queue().unwrap());
                let (first, second) = both(one.flush(), two.flush()).await;
                assert!(first.unwrap() && second.unwrap());
                let (first, second) = both(two.flush(), one.flush()).await;
                assert!(!first.unwrap() && !second.unwrap());
            }
        })?;
        item.queue()?;
        assert_eq!(case.ends().len(), 4);
    }
    Ok(())
}

/// A wait that another task ends for a run that is pending: the run is not awake from then on.
#[test]
fn a_wait_of_a_run_that_another_task_ends() -> Result<()> {
    let _dog = watchdog();
    let case = Case::new(6);
    let (slow, log) = (case.sleeper("slow", MS * 10), case.log.clone());
    slow.queue()?;
    let item = case.queue.item(move |_| {
        let (slow, log) = (slow.clone(), log.clone());
        async move {
            let mut wait = Box::pin(slow.flush());
            assert!(wait.as_mut().poll(&mut Context::from_waker(&Nosy::waker(None))).is_pending());
            let (executor, own) = (log.0.clone(), log.clone());
            executor.spawn(async move {
                assert!(wait.await.unwrap());
                own.add("ended");
            });
            executor.clock.sleep(MS * 50).await;
            log.add("last");
        }
    })?;
    let (queue, other) = (case.queue.clone(), case.sleeper("other", Duration::ZERO));
    let clock = case.executor.clock.clone();
    case.executor.finish(async move {
        clock.sleep(MS * 5).await;
        item.queue().unwrap();
        clock.sleep(MS * 10).await;
        other.queue().unwrap();
        queue.flush().await.unwrap();
    });
    assert_eq!(case.ends(), ["slow begins", "slow ends", "ended", "other begins", "other ends", "last"]);
    Ok(())
}

#[test]
fn wakers_are_replaced_and_dropped_without_the_lock() -> Result<()> {
    let _dog = watchdog();
    let case = Case::of(7, |builder| builder.waits(1).queue("a", max_active(2)));
    let (slow, idle) = (case.sleeper("slow", MS * 100), case.sleeper("idle", MS));
    slow.queue()?;
    let queue = case.queue.clone();
    let log = case.log.clone();
    case.executor.finish(async move {
        log.0.clock.sleep(MS).await;
        let looks = |mut wait: Pin<&mut Wait<()>>| {
            for _ in 0..3 {
                let waker = Nosy::waker(Some(&idle));
                assert!(wait.as_mut().poll(&mut Context::from_waker(&waker)).is_pending());
            }
        };
        let (mut waits, mut in_line) = (pin!(queue.flush()), Box::pin(queue.flush()));
        looks(waits.as_mut());
        looks(in_line.as_mut());
        drop(in_line);
        waits.await.unwrap(); // by the waker of this task, after others
        log.add("flushed");
    });
    assert_eq!(case.ends(), ["slow begins", "slow ends", "flushed"]);
    Ok(())
}

#[test]
fn work_functions_are_dropped_without_the_lock() -> Result<()> {
    let _dog = watchdog();
    let case = Case::of(8, |builder| builder.items(2).queue("a", max_active(2)));
    let queue = case.queue.clone();
    case.executor.finish(async move {
        for _ in 0..10 {
            let inner = queue.item(|_| async {}).unwrap();
            let (own, more) = (inner.clone(), inner.clone());
            let outer = queue.item(move |_| {
                let own = own.clone();
                async move { assert!(own.queue().unwrap() && own.flush().await.unwrap()) }
            });
            let outer = outer.unwrap();
            let work = move |_| {
                let wait = more.flush();
                async move { _ = wait.await }
            };
            assert!(matches!(queue.item(work), Err(Error::NoItem)));
            outer.queue().unwrap();
            drop((outer, inner)); // they run all the same
            queue.flush().await.unwrap();
            queue.flush().await.unwrap();
        }
    });
    case.ends();
    Ok(())
}

#[test]
fn a_turn_that_is_dropped_is_anothers() -> Result<()> {
    let _dog = watchdog();
    let case = Case::of(9, |builder| builder.waits(1).queue("a", max_active(2)));
    let (gate, waker) = (Gate::default(), Nosy::waker(None));
    let own = gate.clone();
    let item = case.queue.item(move |_| own.pass())?;
    item.queue()?;
    case.executor.run();
    let polls = |wait: &mut Pin<Box<Wait<()>>>| wait.as_mut().poll(&mut Context::from_waker(&waker));
    let [mut first, mut second, mut third] = [(); 3].map(|()| Box::pin(case.queue.flush()));
    for wait in [&mut first, &mut second, &mut third] {
        assert!(polls(wait).is_pending()); // the first has the only caller, and the others are in line
    }
    let last = case.queue.flush();
    case.executor.spawn(async move { last.await.unwrap() });
    let left = case.executor.run();
    gate.open();
    assert_eq!(case.executor.run(), left);
    assert!(matches!(polls(&mut first), Poll::Ready(Ok(())))); // it is the second's turn
    drop(third);
    drop(second);
    assert_eq!(case.executor.run(), left - 1);
    case.ends();
    Ok(())
}

/// A caller has at most 64 tickets that are unended, also of waits that were left.
#[test]
fn a_caller_with_too_many_tickets_is_lent_again() -> Result<()> {
    let _dog = watchdog();
    let case = Case::of(22, |builder| builder.waits(1).items(80).queue("a", max_active(1)));
    let (gate, waker) = (Gate::default(), Nosy::waker(None));
    let items = [(); 70].map(|()| {
        let own = gate.clone();
        case.queue.item(move |_| own.pass()).unwrap()
    });
    case.queue.queue_all(&items)?;
    case.executor.run();
    for item in &items {
        let mut wait = item.flush();
        assert!(Pin::new(&mut wait).poll(&mut Context::from_waker(&waker)).is_pending());
    }
    let last = items[69].flush();
    case.executor.spawn(async move { assert!(last.await.unwrap()) });
    let left = case.executor.run();
    gate.open();
    assert_eq!(case.executor.run(), left - 1);
    case.ends();
    Ok(())
}

/// The worker ends the wait of a run whose future nobody polls. Then its caller is another's.
#[test]
fn a_wait_that_has_ended_is_not_left() -> Result<()> {
    let _dog = watchdog();
    let case = Case::of(23, |builder| builder.waits(1).queue("a", max_active(4)));
    let (slow, log) = (case.sleeper("slow", MS * 10), case.log.clone());
    let sent = Arc::new(Mutex::new(None));
    let (waits, own) = (slow.clone(), sent.clone());
    let item = case.queue.item(move |_| {
        let mut wait = Box::pin(waits.flush());
        assert!(waits.queue().unwrap());
        assert!(wait.as_mut().poll(&mut Context::from_waker(&Nosy::waker(None))).is_pending());
        *own.lock().unwrap() = Some(wait);
        async {}
    })?;
    case.executor.finish(async move {
        item.queue().unwrap();
        log.0.clock.sleep(MS * 50).await;
        assert!(!item.is_running() && slow.queue().unwrap());
        let drops = async {
            log.0.clock.sleep(MS * 5).await;
            drop(sent.lock().unwrap().take());
        };
        assert!(both(slow.flush(), drops).await.0.unwrap());
        log.add("flushed");
    });
    assert_eq!(case.ends(), ["slow begins", "slow ends", "slow begins", "slow ends", "flushed"]);
    Ok(())
}

#[test]
fn ten_thousand_callers_wait() -> Result<()> {
    let _dog = watchdog();
    let case = Case::of(10, |builder| builder.workers(2).waits(100).queue("a", max_active(8)));
    let slow = case.sleeper("slow", MS * 100);
    slow.queue()?;
    let done = Arc::new(AtomicUsize::new(0));
    let callers = number("CMWQ_CALLERS", 10_000) as usize;
    for at in 0..callers {
        let (queue, item, own) = (case.queue.clone(), slow.clone(), done.clone());
        case.executor.spawn(async move {
            if at % 2 == 0 {
                queue.flush().await.unwrap();
            } else {
                item.flush().await.unwrap();
            }
            own.fetch_add(1, SeqCst);
        });
    }
    case.executor.run();
    assert_eq!(done.load(SeqCst), callers);
    case.ends();
    Ok(())
}

#[test]
fn a_panic_ends_the_run_and_poisons_the_item() -> Result<()> {
    let _dog = watchdog();
    let case = Case::new(11);
    let early = case.queue.item(|_| -> std::future::Ready<()> { panic_any(Bomb(2)) })?;
    let late = case.queue.item(|_| async {
        yields().await;
        panic_any(Bomb(2))
    })?;
    let held = case.queue.item(|_| {
        let bomb = Bomb(1);
        async move {
            let _bomb = bomb;
            yields().await;
        }
    })?;
    let (slow, good) = (case.sleeper("slow", MS * 10), case.sleeper("good", MS));
    let waits = slow.clone();
    let waiting = case.queue.item(move |_| {
        let waits = waits.clone();
        async move {
            assert!(waits.queue().unwrap());
            let mut wait = pin!(waits.flush());
            _ = either(wait.as_mut(), yields()).await;
            panic!("on purpose"); // which leaves the wait
        }
    })?;
    let items = [early, late, held, waiting, good];
    let queue = case.queue.clone();
    assert_eq!(queue.queue_all(&items)?, 5);
    case.executor.finish(async move {
        queue.flush().await.unwrap();
        items[..4].iter().for_each(|item| assert!(matches!(item.queue(), Err(Error::Poisoned))));
        assert!(items[4].queue().unwrap());
    });
    let Case { executor, text, all, .. } = case;
    assert!(matches!(executor.finish(all.shutdown()), Err(Error::Panicked(4))));
    text.judge();
    Ok(())
}

#[test]
fn where_the_executor_drops_a_task_all_waits_return() -> Result<()> {
    let _dog = watchdog();
    for seed in 0..50 {
        let case = Case::new(seed);
        let hangs = case.queue.item(|_| pending())?;
        hangs.queue()?;
        let (other, log) = (Seeded::new(seed), case.log.clone());
        for at in 0..20 {
            // some of them in line
            let (item, queue, log) = (hangs.clone(), case.queue.clone(), log.clone());
            other.spawn(async move {
                let waited = if at % 2 == 0 { item.flush().await.map(drop) } else { queue.drain().await };
                assert!(matches!(waited, Err(Error::Closed)));
                log.add("told");
            });
        }
        case.executor.run();
        assert_eq!(other.run(), 20);
        case.executor.drop_all();
        assert_eq!(other.run(), 0);
        assert_eq!(log.1.lock().unwrap().len(), 20);
        assert!(matches!(hangs.queue(), Err(Error::Closed)));
        assert!(matches!(case.queue.item(|_| async {}), Err(Error::Closed)));
        let Case { text, all, .. } = case;
        assert!(matches!(other.finish(all.shutdown()), Err(Error::Closed)));
        text.judge();
    }
    // each task alone, before it is polled
    for at in 0..3 {
        let mut tasks = Vec::new();
        let all = Workqueues::builder().workers(2).queue("a", max_active(1)).build(|task| tasks.push(task))?;
        drop(tasks.remove(at));
        assert!(matches!(all.queue("a")?.item(|_| async {}), Err(Error::Closed)));
        assert!(matches!(block_on(all.queue("a")?.flush()), Err(Error::Closed)));
        drop(tasks);
        assert!(matches!(block_on(all.shutdown()), Err(Error::Closed)));
    }
    Ok(())
}

#[test]
fn workqueues_that_are_dropped_end_by_themselves() -> Result<()> {
    let _dog = watchdog();
    let case = Case::new(12);
    let (item, late) = (case.sleeper("one", MS * 10), case.sleeper("late", MS));
    item.queue()?;
    late.queue_delayed(MS * 1000)?;
    let Case { executor, text, all, queue, log } = case;
    drop(all);
    assert!(matches!(item.queue(), Err(Error::Closed)));
    assert!(matches!(queue.item(|_| async {}), Err(Error::Closed)));
    let own = log.clone();
    executor.spawn(async move {
        assert!(item.flush().await.is_err());
        own.add("told");
    });
    executor.run_to_the_end();
    let log = log.1.lock().unwrap();
    assert!(log.contains(&"told".to_owned()) && log.last().unwrap() == "one ends", "{log:?}");
    assert!(!late.is_pending());
    text.wait_for_end();
    text.judge();
    Ok(())
}

#[test]
fn a_shutdown_that_is_dropped_goes_on() -> Result<()> {
    let _dog = watchdog();
    let case = Case::new(13);
    let item = case.sleeper("one", MS * 10);
    item.queue()?;
    let Case { executor, text, all, log, .. } = case;
    let clock = executor.clock.clone();
    executor.spawn(async move { assert!(either(all.shutdown(), clock.sleep(MS)).await.is_err()) });
    executor.run_to_the_end();
    assert_eq!(*log.1.lock().unwrap(), ["one begins", "one ends"]);
    text.wait_for_end();
    text.judge();
    Ok(())
}

#[test]
fn a_run_does_not_shut_down() -> Result<()> {
    let _dog = watchdog();
    let Case { executor, text, all, queue, log } = Case::new(14);
    let (all, own) = (Arc::new(Mutex::new(Some(all))), log.clone());
    let item = queue.item(move |_| {
        let (all, own) = (all.lock().unwrap().take().unwrap(), own.clone());
        async move {
            assert!(matches!(all.shutdown().await, Err(Error::Itself)));
            own.add("told");
        }
    })?;
    item.queue()?;
    executor.run_to_the_end();
    assert_eq!(*log.1.lock().unwrap(), ["told"]);
    text.wait_for_end();
    text.judge();
    Ok(())
}

#[test]
fn delays_last_as_long_as_they_say() -> Result<()> {
    let _dog = watchdog();
    let case = Case::new(15);
    let items: Vec<Item> = (0..10u32)
        .map(|at| {
            let log = case.log.clone();
            let work = move |_| {
                let now = log.now();
                assert!(now >= MS * (7 * at + 1) && now < MS * (7 * at + 60), "{at} {now:?}");
                log.add(at.to_string());
                async {}
            };
            let item = case.queue.item(work).unwrap();
            assert!(item.queue_delayed(MS * (7 * at + 1)).unwrap());
            item
        })
        .collect();
    let late = case.sleeper("late", MS);
    assert!(late.queue_delayed(MS * 1000)? && !late.queue_delayed(MS)? && late.is_pending());
    let (queue, log) = (case.queue.clone(), case.log.clone());
    case.executor.finish(async move {
        log.0.clock.sleep(MS * 200).await;
        drop(items);
        assert!(matches!(queue.destroy().await, Err(Error::Timers)));
        assert!(late.modify(MS * 2000).unwrap());
        assert!(late.flush_delayed().await.unwrap());
        assert!(late.queue_delayed(MS * 1000).unwrap() && late.cancel().unwrap());
        assert!(!late.cancel_sync().await.unwrap());
        assert!(!late.modify(Duration::ZERO).unwrap()); // at once
        assert!(late.flush().await.unwrap());
        late.queue_delayed(MS * 100_000).unwrap(); // taken back at the end
    });
    assert_eq!(case.ends().len(), 14);
    Ok(())
}

/// A drain holds timers back, and the end of one that was left tells the clock.
#[test]
fn timers_go_on_after_a_drain_that_was_left() -> Result<()> {
    let _dog = watchdog();
    let case = Case::new(16);
    let (slow, late) = (case.sleeper("slow", MS * 100), case.sleeper("late", MS));
    slow.queue()?;
    let (queue, clock) = (case.queue.clone(), case.executor.clock.clone());
    case.executor.finish(async move {
        late.queue_delayed(MS * 20).unwrap();
        assert!(either(queue.drain(), clock.sleep(MS * 10)).await.is_err());
        clock.sleep(MS * 200).await;
        assert!(!late.is_pending());
    });
    assert_eq!(case.ends(), ["slow begins", "slow ends", "late begins", "late ends"]);
    Ok(())
}

#[test]
fn a_run_that_has_ended() -> Result<()> {
    let _dog = watchdog();
    let case = Case::new(17);
    let (kept, left) = (Arc::new(Mutex::new(None::<Run>)), AtomicUsize::new(3));
    let own = kept.clone();
    let item = case.queue.item(move |run| {
        if left.fetch_sub(1, SeqCst) > 1 {
            assert!(run.requeue().unwrap() && !run.requeue_after(MS).unwrap());
        }
        assert!(format!("{run:?}").starts_with("Run { item: 0, queue: 0, worker: Who { kind: 1, index: "));
        *own.lock().unwrap() = Some(run);
        yields()
    })?;
    item.queue()?;
    let queue = case.queue.clone();
    case.executor.finish(async move { queue.drain().await.unwrap() });
    let run = kept.lock().unwrap().take().unwrap();
    assert!(matches!(run.requeue(), Err(Error::RunEnded)));
    assert!(matches!(run.requeue_after(MS), Err(Error::RunEnded)));
    assert_eq!(Error::RunEnded.to_string(), "the run has ended");
    let text = case.text.clone();
    case.ends();
    assert_eq!(text.count("started"), 3);
    Ok(())
}

#[test]
fn a_drain_a_freeze_and_a_width() -> Result<()> {
    let _dog = watchdog();
    let case = Case::of(18, |builder| {
        let builder = builder.cpus(2).room(10_000).keep(10).tick(MS * 2);
        builder.queue("a", max_active(1).freezable()).queue("b", max_active(1).high_priority())
    });
    let (one, two) = (case.sleeper("one", MS), case.sleeper("two", MS));
    let other = case.all.queue("b")?;
    assert!(case.all.freeze()? && !case.all.freeze()?);
    assert!(one.queue()? && two.queue_on(&other, 1)?);
    case.executor.run();
    assert!(one.is_pending() && !one.is_running() && !two.is_pending());
    assert!(case.all.thaw()? && !case.all.thaw()?);
    let (queue, item) = (case.queue.clone(), one.clone());
    case.executor.finish(async move {
        queue.drain().await.unwrap();
        assert!(!item.is_pending());
        assert_eq!(queue.set_max_active(1000).unwrap(), 512);
        queue.destroy().await.unwrap();
        assert!(matches!(item.queue(), Err(Error::Gone)));
        assert!(matches!(queue.flush().await, Err(Error::Gone)));
    });
    assert!(matches!(case.queue.item_on(2, |_| async {}), Err(Error::Invalid("the CPU"))));
    assert!(matches!(case.all.queue("c"), Err(Error::NoQueue(_))));
    case.ends();
    Ok(())
}

/// Each poll of a run takes two entries. Without room for them, a run that waits sleeps on, so that what it waits for
/// can start.
#[test]
fn a_run_that_waits_without_room() -> Result<()> {
    let _dog = watchdog();
    let case = Case::of(24, |builder| {
        let builder = builder.items(2).waits(2).room(400);
        builder.queue("a", max_active(4).freezable()).queue("b", max_active(4))
    });
    let (frozen, log) = (case.sleeper("frozen", MS), case.log.clone());
    let waits = frozen.clone();
    let item = case.all.queue("b")?.item(move |_| {
        let (waits, log) = (waits.clone(), log.clone());
        async move {
            let polls = async {
                for _ in 0..500 {
                    yields().await;
                }
                log.add("polled");
            };
            assert!(both(waits.flush(), polls).await.0.unwrap());
            log.add("ends");
        }
    })?;
    assert!(case.all.freeze()? && frozen.queue()? && item.queue()?);
    case.executor.run();
    assert!(frozen.is_pending() && case.all.thaw()?);
    case.executor.run();
    assert!(!item.is_running());
    assert_eq!(case.ends(), ["polled", "frozen begins", "frozen ends", "ends"]);
    Ok(())
}

#[test]
fn a_history_that_cannot_be_written() -> Result<()> {
    let _dog = watchdog();
    struct Full;
    impl Write for Full {
        fn write(&mut self, _: &[u8]) -> io::Result<usize> {
            Err(io::Error::other("no space"))
        }
        fn flush(&mut self) -> io::Result<()> {
            Ok(())
        }
    }
    let executor = Seeded::new(19);
    let builder = Workqueues::builder().queue("a", max_active(1)).history(Full);
    let all = builder.build(|task| _ = executor.spawn(task))?;
    all.queue("a")?.item(|_| yields())?.queue()?;
    let told = executor.finish(all.shutdown());
    assert!(matches!(&told, Err(Error::History(why)) if why.to_string() == "no space"), "{told:?}");
    Ok(())
}

#[test]
fn what_a_builder_refuses() {
    let none = |builder: Builder| builder.build(|_| unreachable!()).unwrap_err().to_string();
    let builder = || Workqueues::builder().queue("a", max_active(1));
    assert_eq!(none(builder().queue("a", max_active(1))), "outside its limits: two queues of one name");
    assert_eq!(none(builder().waits(255)), "outside its limits: waits");
    assert_eq!(none(builder().tick(Duration::ZERO)), "outside its limits: the tick");
    assert_eq!(none(builder().workers(65)), "outside its limits: a count of the builder");
    let shown = format!("{:?}", builder());
    assert!(shown.starts_with("Builder { cpus: 1, workers: 64, items: 256, waits: 254, queues: [(\"a\", "), "{shown}");
}

#[test]
#[should_panic(expected = "a wait was polled after it had ended")]
fn a_wait_that_has_ended_is_not_polled() {
    let case = Case::new(20);
    let mut wait = pin!(case.queue.flush());
    assert_eq!(
        format!("{wait:?} {:?}", case.all),
        "Wait { stage: \"not begun\", .. } Workqueues { queues: [\"a\"], .. }"
    );
    let mut polls = || wait.as_mut().poll(&mut Context::from_waker(&Nosy::waker(None)));
    assert!(matches!(polls(), Poll::Ready(Ok(()))));
    let _ = polls();
}

#[test]
fn handles_and_waits_go_to_other_threads() {
    fn is_send<T: Send + 'static>(_: &T) {}
    fn is_sync<T: Sync>(_: &T) {}
    let case = Case::new(21);
    let item = case.sleeper("one", MS);
    is_send(&case.all);
    is_send(&item);
    is_sync(&item);
    is_sync(&case.queue);
    is_send(&case.queue.destroy());
    is_send(&item.flush());
    is_send(&case.all.shutdown());
}

/// A run that doesn't await is alone on its CPU, in any number of threads.
#[test]
fn threads_and_a_clock_of_a_thread() -> Result<()> {
    let _dog = watchdog();
    let (executor, text) = (Threads::new(3), Text::default());
    let builder = Workqueues::builder().queue("a", max_active(8)).history(text.clone());
    let all = builder.build(|task| executor.spawn(task))?;
    let (queue, inside, runs) = (all.queue("a")?, Arc::new(AtomicUsize::new(0)), Arc::new(AtomicUsize::new(0)));
    let items: Vec<Item> = (0..8)
        .map(|_| {
            let (inside, runs) = (inside.clone(), runs.clone());
            let work = move |run: Run| {
                assert_eq!(inside.fetch_add(1, SeqCst), 0);
                if runs.fetch_add(1, SeqCst) % 16 < 8 {
                    run.requeue_after(MS).unwrap();
                }
                std::thread::yield_now();
                inside.fetch_sub(1, SeqCst);
                async {}
            };
            queue.item(work).unwrap()
        })
        .collect();
    queue.queue_all(&items)?;
    block_on(async {
        while runs.load(SeqCst) < 200 {
            for item in &items {
                item.flush_delayed().await.unwrap();
                item.queue().unwrap();
            }
        }
        for item in &items {
            item.cancel_sync().await.unwrap();
        }
        all.shutdown().await
    })?;
    text.judge();
    assert_eq!(text.count("started"), runs.load(SeqCst) as u64);
    Ok(())
}
