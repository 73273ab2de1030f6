//! Durable workqueues whose program is killed again and again, also while it takes over what was left. Each call that
//! was acknowledged is followed by a run of its item, in that life or in a later one. Then a work function that ends
//! the program each time is left out. `CMWQ_KILLS` says how often the program is killed.
mod common;

use cmwq::{max_active, Builder, Run, Sync, Workqueues};
use common::{number, watch, Folder, Random};
use std::fs::{File, OpenOptions};
use std::io::{Read, Write};
use std::os::unix::process::parent_id;
use std::path::{Path, PathBuf};
use std::process::{exit, Child, Command, Stdio};
use std::sync::atomic::{AtomicUsize, Ordering::SeqCst};
use std::sync::Arc;
use std::thread;
use std::time::{Duration, Instant};

const ITEMS: usize = 32;
const CALLERS: usize = 4;
/// The item whose run ends the program.
const CRASH: usize = 31;

const OPENS: u8 = b'o';
const RESUMED: u8 = b's';
const BEGINS: u8 = b'b';
const ACKNOWLEDGED: u8 = b'a';
const RUNS: u8 = b'r';

/// Where a life tells what it does. What is written here outlives it.
#[derive(Clone)]
struct Events(Arc<File>);

impl Events {
    fn tell(&self, what: u8, item: usize, caller: usize) {
        let event = [what, item as u8, caller as u8, b'\n'];
        assert_eq!((&*self.0).write(&event).unwrap(), event.len());
    }
}

fn name(item: usize) -> String {
    format!("item{item}")
}

fn builder(journal: &Path, events: &Events) -> Builder {
    let mut builder = Workqueues::builder()
        .cpus(2)
        .workers(2)
        .queue("plain", max_active(1))
        .queue("intensive", max_active(2).cpu_intensive())
        .queue("other", max_active(3))
        .durable(journal)
        .each();
    for item in 0..ITEMS {
        let events = events.clone();
        let work = move |run: &mut Run<'_>| {
            if item == CRASH {
                exit(if run.sync().is_ok() { 9 } else { 8 }); // so it is known that it was queued
            }
            events.tell(RUNS, item, 0);
            thread::sleep(Duration::from_micros(item as u64 % 4 * 100));
        };
        builder = builder.item_on(&name(item), ["plain", "intensive", "other"][item % 3], item as u8 % 2, work);
    }
    builder
}

/// A life that is killed.
fn live(journal: &Path, events: &Events, sync: Sync) {
    events.tell(OPENS, 0, 0);
    let all = builder(journal, events).sync(sync).build().unwrap();
    events.tell(RESUMED, 0, 0);
    let all = &all;
    thread::scope(|scope| {
        for caller in 0..CALLERS {
            scope.spawn(move || {
                let mut random = Random::new(caller as u64 * 77 + u64::from(std::process::id()));
                loop {
                    let number = random.below(CRASH);
                    let item = all.item(&name(number)).unwrap();
                    events.tell(BEGINS, number, caller);
                    let made = match random.below(2) {
                        0 => item.queue(),
                        _ => item.modify(Duration::from_millis(random.below(30) as u64)),
                    };
                    made.unwrap();
                    events.tell(ACKNOWLEDGED, number, caller);
                }
            });
        }
    });
}

/// A last one, until nothing is left to do.
fn live_on(journal: &Path, events: &Events) {
    let all = builder(journal, events).build().unwrap();
    for item in 0..ITEMS {
        let item = all.item(&name(item)).unwrap();
        while item.is_pending() || item.is_running() {
            thread::sleep(Duration::from_millis(1));
        }
    }
    all.shutdown().unwrap();
}

/// One that ends in a run, at once or of what it takes over; or not, where that run is left out.
fn live_and_crash(journal: &Path, events: &Events, queues: bool, leaves_out: bool) {
    let mut builder = builder(journal, events);
    if leaves_out {
        builder = builder.again(|item| item != name(CRASH));
    }
    let all = builder.build().unwrap();
    let item = all.item(&name(CRASH)).unwrap();
    if queues {
        item.queue().unwrap();
    }
    if !leaves_out {
        loop {
            thread::park();
        }
    }
    assert!(!item.is_pending() && !item.is_running());
    all.shutdown().unwrap();
}

/// What a process does that `begin` has started.
#[test]
fn life() {
    let (Some(folder), Ok(how)) = (std::env::var_os("CMWQ_FOLDER"), std::env::var("CMWQ_LIFE")) else {
        return;
    };
    let (folder, parent) = (PathBuf::from(folder), parent_id());
    thread::spawn(move || {
        while parent_id() == parent {
            thread::sleep(Duration::from_millis(100));
        }
        exit(7); // the test was broken off
    });
    let (journal, events) = (folder.join("journal"), folder.join("events"));
    let events = Events(Arc::new(OpenOptions::new().append(true).create(true).open(events).unwrap()));
    match how.as_str() {
        "write" => live(&journal, &events, Sync::Write),
        "data" => live(&journal, &events, Sync::Data),
        "on" => live_on(&journal, &events),
        "crash" => live_and_crash(&journal, &events, true, false),
        "crash again" => live_and_crash(&journal, &events, false, false),
        _ => live_and_crash(&journal, &events, false, true),
    }
}

fn begin(folder: &Folder, how: &str) -> Child {
    let program = std::env::current_exe().unwrap();
    let mut begins = Command::new(program);
    begins.args(["life", "--exact", "--nocapture"]).env("CMWQ_FOLDER", &folder.0).env("CMWQ_LIFE", how);
    begins.stdin(Stdio::null()).stdout(Stdio::null()).spawn().unwrap()
}

/// What the lives have told so far.
struct Told {
    file: File,
    text: Vec<u8>,
}

impl Told {
    /// Reads what is new. Returns where that begins.
    fn read(&mut self) -> usize {
        let before = self.text.len() / 4;
        self.file.read_to_end(&mut self.text).unwrap();
        before
    }

    /// The event, the item and the caller.
    fn events(&self) -> impl Iterator<Item = (u8, usize, usize)> + '_ {
        self.text.chunks_exact(4).map(|event| (event[0], usize::from(event[1]), usize::from(event[2])))
    }

    fn count(&self, what: u8) -> usize {
        self.events().filter(|(event, ..)| *event == what).count()
    }
}

#[test]
fn a_program_is_killed_again_and_again() {
    let steps = Arc::new(AtomicUsize::new(0));
    watch(steps.clone(), number("CMWQ_SECONDS", 120) as u32);
    let (folder, mut random) = (Folder::new(), Random::new(1));
    let kills = number("CMWQ_KILLS", 15) as usize;
    let mut told = Told {
        file: OpenOptions::new().read(true).append(true).create(true).open(folder.path("events")).unwrap(),
        text: Vec::new(),
    };
    for kill in 0..kills {
        let (what, micros) = if kill % 3 == 0 { (OPENS, 3000) } else { (RESUMED, 40_000) };
        told.read();
        let mut life = begin(&folder, if kill % 4 > 0 { "write" } else { "data" });
        loop {
            let before = told.read();
            if told.events().skip(before).any(|(event, ..)| event == what) {
                break;
            }
            assert!(life.try_wait().unwrap().is_none(), "life {kill} has ended");
            thread::sleep(Duration::from_micros(200));
        }
        let end = Instant::now() + Duration::from_micros(random.below(micros) as u64);
        while Instant::now() < end {
            thread::yield_now();
        }
        life.kill().unwrap();
        assert_eq!(life.wait().unwrap().code(), None);
        steps.fetch_add(1, SeqCst);
    }
    assert!(begin(&folder, "on").wait().unwrap().success());
    told.read();
    let (mut begun, mut wanted, mut ran) = ([0; CALLERS], [0; ITEMS], [0; ITEMS]);
    for (at, (what, item, caller)) in told.events().enumerate() {
        match what {
            BEGINS => begun[caller] = at,
            RUNS => ran[item] = at,
            ACKNOWLEDGED => wanted[item] = wanted[item].max(begun[caller]),
            _ => {}
        }
    }
    for item in 0..ITEMS {
        assert!(ran[item] >= wanted[item], "a call of item {item} is lost");
    }
    assert!(kills < 15 || told.count(ACKNOWLEDGED) > 0);
    for (how, status) in [("crash", 9), ("crash again", 9), ("crash again", 9), ("left out", 0)] {
        let ended = begin(&folder, how).wait().unwrap();
        assert_eq!(ended.code(), Some(status), "{how}");
        steps.fetch_add(1, SeqCst);
    }
    let inside = told.count(OPENS) - told.count(RESUMED);
    println!("{kills} kills, {inside} of them in the resume, {} calls acknowledged", told.count(ACKNOWLEDGED));
}
