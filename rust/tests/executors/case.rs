//! What the single cases of `cmwq::aio` have.
use super::Seeded;
use crate::common::Text;
use cmwq::aio::{Builder, Clock, Item, Queue, Workqueues};
use cmwq::max_active;
use std::future::{poll_fn, Future};
use std::sync::{Arc, Mutex};
use std::task::{Poll, Wake, Waker};
use std::time::Duration;

pub const MS: Duration = Duration::from_millis(1);

/// Workqueues on an executor whose order follows from a seed.
pub struct Case {
    pub executor: Seeded,
    pub text: Text,
    pub all: Workqueues,
    pub queue: Queue,
    pub log: Log,
}

impl Case {
    pub fn new(seed: u64) -> Case {
        Case::of(seed, |builder| builder.workers(4).items(16).waits(8).queue("a", max_active(8)))
    }

    pub fn of(seed: u64, shape: impl FnOnce(Builder) -> Builder) -> Case {
        let (executor, text) = (Seeded::new(seed), Text::default());
        let builder = Workqueues::builder().clock(executor.clock.clone()).history(text.clone());
        let all = shape(builder).build(|task| _ = executor.spawn(task)).unwrap();
        let queue = all.queue("a").unwrap();
        Case { log: Log(executor.clone(), Arc::default()), executor, text, all, queue }
    }

    /// An item whose runs last so long, and which it logs.
    pub fn sleeper(&self, name: &'static str, lasts: Duration) -> Item {
        let log = self.log.clone();
        let work = move |_| {
            let log = log.clone();
            async move {
                log.add(format!("{name} begins"));
                log.0.clock.sleep(lasts).await;
                log.add(format!("{name} ends"));
            }
        };
        self.queue.item(work).unwrap()
    }

    /// Ends all, and returns what was logged.
    pub fn ends(self) -> Vec<String> {
        let Case { executor, text, all, log, .. } = self;
        executor.finish(all.shutdown()).unwrap();
        text.judge();
        let lines = log.1.lock().unwrap().clone();
        lines
    }
}

#[derive(Clone)]
pub struct Log(pub Seeded, pub Arc<Mutex<Vec<String>>>);

impl Log {
    pub fn add(&self, line: impl Into<String>) {
        self.1.lock().unwrap().push(line.into());
    }

    pub fn now(&self) -> Duration {
        self.0.clock.now()
    }
}

/// A waker whose drop makes a call, as one does that has the last handle of a task.
pub struct Nosy(Option<Item>);

impl Nosy {
    pub fn waker(item: Option<&Item>) -> Waker {
        Waker::from(Arc::new(Nosy(item.cloned())))
    }
}

impl Wake for Nosy {
    fn wake(self: Arc<Self>) {}
}

impl Drop for Nosy {
    fn drop(&mut self) {
        if let Some(item) = &self.0 {
            assert!(!item.is_pending());
        }
    }
}

/// What passes once it is open.
#[derive(Clone, Default)]
pub struct Gate(Arc<Mutex<(bool, Vec<Waker>)>>);

impl Gate {
    pub fn pass(&self) -> impl Future<Output = ()> + Send + 'static {
        let gate = self.0.clone();
        poll_fn(move |cx| {
            let mut gate = gate.lock().unwrap();
            gate.1.push(cx.waker().clone());
            if gate.0 {
                Poll::Ready(())
            } else {
                Poll::Pending
            }
        })
    }

    pub fn open(&self) {
        let wakers = {
            let mut gate = self.0.lock().unwrap();
            gate.0 = true;
            std::mem::take(&mut gate.1)
        };
        wakers.into_iter().for_each(Waker::wake);
    }
}
