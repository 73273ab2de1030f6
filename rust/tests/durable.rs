//! Durable workqueues on a real disk. What they do on one that fails is tested in `src/hub/durable/tests.rs`, and with
//! programs that are killed in `tests/lives.rs`.
mod common;

use cmwq::{check, max_active, Builder, Error, Result, Sync, Verdict, Workqueues};
use common::{watchdog, Folder};
use std::path::{Path, PathBuf};
use std::process::Command;
use std::sync::atomic::{AtomicUsize, Ordering::SeqCst};
use std::sync::{mpsc, Arc, Mutex};
use std::time::Duration;

const LONG: Duration = Duration::from_secs(3600);

/// Two items that count their runs, on a queue that can be frozen.
fn builder(journal: &Path, runs: &Arc<[AtomicUsize; 2]>) -> Builder {
    let mut builder = Workqueues::builder().queue("disk", max_active(2).freezable()).durable(journal);
    for (number, name) in ["flush_cache", "report"].into_iter().enumerate() {
        let runs = runs.clone();
        builder = builder.item(name, "disk", move |_| {
            runs[number].fetch_add(1, SeqCst);
        });
    }
    builder
}

fn counts(runs: &Arc<[AtomicUsize; 2]>) -> [usize; 2] {
    [runs[0].load(SeqCst), runs[1].load(SeqCst)]
}

#[test]
fn work_outlives_its_workqueues() -> Result<()> {
    let _dog = watchdog();
    let (folder, runs) = (Folder::new(), Arc::default());
    let journal = folder.path("journal");
    let all = builder(&journal, &runs).each().build()?;
    let item = all.item("flush_cache")?;
    all.freeze()?;
    assert!(item.queue()?);
    assert!(all.item("report")?.queue_delayed(LONG)?);
    assert!(!all.item("report")?.queue_delayed(LONG)?);
    all.leave()?;
    assert!(matches!(item.queue(), Err(Error::Closed)));
    assert_eq!(counts(&runs), [0, 0]);
    // a handle keeps nobody from the journal
    let all = builder(&journal, &runs).keep_old().build()?;
    assert!(all.item("flush_cache")?.is_pending() && all.item("report")?.is_pending());
    assert!(all.thaw()?);
    all.item("flush_cache")?.flush()?;
    all.item("report")?.flush_delayed()?;
    assert_eq!(counts(&runs), [1, 1]);
    all.sync()?;
    all.shutdown()?;
    let text = std::fs::read(&journal).unwrap();
    assert!(
        matches!(check(&text), Ok(Verdict::Legal { entries }) if entries > 5),
        "{}",
        String::from_utf8_lossy(&text)
    );
    assert_eq!(folder.names(), ["journal", "journal.1", "journal.lock", "journal.notes"]);
    let names = std::fs::read_to_string(folder.path("journal.notes")).unwrap();
    assert_eq!(names, "item 0 flush_cache\nitem 1 report\nqueue 0 disk\n");
    // nothing is left, so anything may be new
    Workqueues::builder().queue("net", max_active(1)).item("one", "net", |_| ()).durable(&journal).build()?.leave()
}

/// In a work function too.
#[test]
fn a_drop_leaves() -> Result<()> {
    let _dog = watchdog();
    let (folder, runs) = (Folder::new(), Arc::default());
    let journal = folder.path("journal");
    let all = builder(&journal, &runs).build()?;
    all.freeze()?;
    all.item("report")?.queue()?;
    drop(all);
    let own = Arc::new(Mutex::new(None::<Workqueues>));
    let (tell, told) = mpsc::channel();
    let drops = own.clone();
    let all = builder(&journal, &runs)
        .queue("net", max_active(1))
        .item("drops", "net", move |run| {
            drop(drops.lock().unwrap().take());
            tell.send(run.item("flush_cache").and_then(|item| item.queue())).unwrap();
        })
        .build()?;
    let drops = all.item("drops")?;
    *own.lock().unwrap() = Some(all);
    drops.queue()?;
    assert!(told.recv().unwrap()?);
    // another thread ends them soon
    let all = loop {
        match builder(&journal, &runs).queue("net", max_active(1)).item("drops", "net", |_| ()).build() {
            Err(Error::InUse) => std::thread::sleep(Duration::from_millis(1)),
            made => break made?,
        }
    };
    assert_eq!(counts(&runs), [0, 0]);
    assert!(all.item("report")?.is_pending() && all.item("flush_cache")?.is_pending());
    all.shutdown()?;
    assert_eq!(counts(&runs), [1, 1]);
    Ok(())
}

#[test]
fn what_is_refused() -> Result<()> {
    let _dog = watchdog();
    let (folder, runs) = (Folder::new(), Arc::default());
    let journal = folder.path("journal");
    let all = builder(&journal, &runs).build()?;
    assert!(matches!(all.queue("disk")?.item(|_| ()), Err(Error::Unnamed)));
    assert!(matches!(all.queue("disk")?.item_on(0, |_| ()), Err(Error::Unnamed)));
    assert!(matches!(all.item("net"), Err(Error::UnknownItem(name)) if name == "net"));
    assert!(matches!(builder(&journal, &runs).build(), Err(Error::InUse)));
    all.leave()?;
    let plain = || Workqueues::builder().queue("disk", max_active(1));
    let refused = |builder: Builder| match builder.build() {
        Err(Error::Invalid(what)) => what,
        other => panic!("{other:?}"),
    };
    assert_eq!(refused(builder(&journal, &runs).history(std::io::sink())), "a history beside the journal");
    assert_eq!(refused(builder(&journal, &runs).item("report", "disk", |_| ())), "two items of one name");
    assert_eq!(refused(builder(&journal, &runs).item("a\nb", "disk", |_| ())), "a name with a control character");
    assert_eq!(refused(builder(&journal, &runs).item_on("a", "disk", 1, |_| ())), "the CPU");
    assert_eq!(refused(plain().durable(&journal)), "no item with a name");
    assert_eq!(refused(plain().item("a", "disk", |_| ()).durable("/")), "the path of the journal");
    let unknown = builder(&journal, &runs).item("a", "net", |_| ()).build();
    assert!(matches!(unknown, Err(Error::NoQueue(name)) if name == "net"));
    let nowhere = builder(&folder.path("none/journal"), &runs).build();
    assert!(matches!(nowhere, Err(Error::DiskFailed(why)) if why.kind() == std::io::ErrorKind::NotFound));
    std::fs::create_dir(folder.path("folder")).unwrap();
    assert!(matches!(builder(&folder.path("folder"), &runs).build(), Err(Error::DiskFailed(_))));
    std::fs::write(folder.path("text"), "no journal\n").unwrap();
    assert!(matches!(builder(&folder.path("text"), &runs).build(), Err(Error::BadJournal { line: 1 })));
    let fewer = plain().item("flush_cache", "disk", |_| ()).durable(&journal).build();
    assert!(matches!(fewer, Err(Error::OtherShape(what)) if what == "item 1 report"));
    // which are not durable
    let all = plain().item("a", "disk", |_| ()).build()?;
    assert!(matches!(all.sync(), Err(Error::NoJournal)));
    assert!(matches!(all.leave(), Err(Error::NoJournal)));
    Ok(())
}

/// Without a journal too, and beside items without names.
#[test]
fn items_with_names_come_from_the_builder() -> Result<()> {
    let _dog = watchdog();
    let runs = Arc::new(AtomicUsize::new(0));
    let (one, two) = (runs.clone(), runs.clone());
    let all = Workqueues::builder()
        .cpus(2)
        .items(2)
        .queue("disk", max_active(1))
        .item("one", "disk", move |run| {
            one.fetch_add(1, SeqCst);
            run.item("two").unwrap().queue().unwrap();
            assert!(matches!(run.item("three"), Err(Error::UnknownItem(_))));
            assert!(matches!(run.sync(), Err(Error::NoJournal)));
        })
        .item_on("two", "disk", 1, move |_| {
            two.fetch_add(10, SeqCst);
        })
        .build()?;
    let queue = all.queue("disk")?;
    assert!(matches!(queue.item(|_| ()), Err(Error::NoItem)));
    for round in 1..4 {
        all.item("one")?.queue()?;
        queue.flush()?;
        all.item("two")?.flush()?;
        assert_eq!(runs.load(SeqCst), 11 * round);
    }
    all.shutdown()
}

/// A panic ends a run. The next life has no poisoned items.
#[test]
fn panics_are_of_one_life() -> Result<()> {
    let _dog = watchdog();
    let folder = Folder::new();
    let lives = Arc::new(AtomicUsize::new(0));
    let made = || {
        let lives = lives.clone();
        Workqueues::builder().queue("disk", max_active(1)).durable(folder.path("journal")).item(
            "a",
            "disk",
            move |_| {
                assert!(lives.fetch_add(1, SeqCst) > 0, "the first of all runs panics");
            },
        )
    };
    let all = made().build()?;
    let item = all.item("a")?;
    item.queue()?;
    item.flush()?;
    assert!(matches!(item.queue(), Err(Error::Poisoned)));
    assert!(matches!(all.leave(), Err(Error::Panicked(1))));
    let all = made().build()?;
    assert!(!all.item("a")?.is_pending());
    all.item("a")?.queue()?;
    all.item("a")?.flush()?;
    assert_eq!(lives.load(SeqCst), 2);
    all.leave()
}

/// Work functions queue other items, and may wait for the disk. Delays go on in the next life.
#[test]
fn runs_make_calls() -> Result<()> {
    let _dog = watchdog();
    let folder = Folder::new();
    let (tell, told) = mpsc::channel();
    let made = |sync: Sync| {
        let (first, last) = (tell.clone(), tell.clone());
        Workqueues::builder()
            .queue("disk", max_active(1))
            .durable(folder.path("journal"))
            .sync(sync)
            .item("first", "disk", move |run| {
                run.item("last").unwrap().queue_delayed(Duration::from_millis(300)).unwrap();
                first.send(run.sync().is_ok()).unwrap();
            })
            .item("last", "disk", move |_| last.send(true).unwrap())
    };
    for sync in [Sync::None, Sync::Write, Sync::Data] {
        let all = made(sync).build()?;
        all.item("first")?.queue()?;
        assert!(told.recv().unwrap());
        all.leave()?;
        let all = made(sync).build()?;
        assert!(told.recv().unwrap()); // its delay is over
        all.leave()?;
    }
    Ok(())
}

/// A hub in C takes over what Rust has left, and Rust what C has.
#[test]
fn lives_in_c_and_rust_follow_each_other() -> Result<()> {
    let home = PathBuf::from(env!("CARGO_MANIFEST_DIR"));
    let library = std::env::var_os("CMWQ_LIB").filter(|it| !it.is_empty()).map_or(home.join("lib"), PathBuf::from);
    let folder = Folder::new();
    let program = folder.path("life");
    let compiled = Command::new("cc")
        .arg("-I")
        .arg(home.join("../c"))
        .arg(home.join("tests/c/life.c"))
        .arg(library.join("libcmwq_c.a"))
        .args(["-lpthread", "-o"])
        .arg(&program)
        .output();
    if !home.join("../c/cmwq_hub.h").is_file() || compiled.is_err() {
        eprintln!("skipped: there is no C compiler, or not the rest of the repository");
        return Ok(());
    }
    let compiled = compiled.unwrap();
    assert!(compiled.status.success(), "{}", String::from_utf8_lossy(&compiled.stderr));
    let journal = folder.path("journal");
    let lives = |how: &str| {
        let status = Command::new(&program).arg(&journal).arg(how).status().unwrap();
        assert_eq!(status.code(), Some(0), "{how}");
    };
    lives("begin");
    let all = Workqueues::builder()
        .queue("a", max_active(2))
        .queue("b", max_active(1).freezable())
        .item("zero", "b", |_| unreachable!())
        .item("one", "b", |_| ())
        .item("two", "a", |_| ())
        .item("three", "a", |_| unreachable!())
        .durable(&journal)
        .build()?;
    assert!(all.item("one")?.is_pending() && all.item("two")?.is_pending());
    assert!(!all.freeze()?); // it is frozen already
    assert!(all.item("one")?.cancel()?);
    all.item("two")?.flush_delayed()?;
    all.item("zero")?.queue()?;
    all.item("three")?.queue_delayed(LONG)?;
    all.leave()?;
    lives("go_on");
    let text = std::fs::read(&journal).unwrap();
    assert!(matches!(check(&text), Ok(Verdict::Legal { .. })));
    Ok(())
}
