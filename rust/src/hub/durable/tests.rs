//! Durable workqueues on a disk in memory, whose power fails before each operation. What was not synced is dropped,
//! cut, zeros or garbage then. Each operation fails by itself too. What a call has told is so in the next life, and
//! nobody waits for ever.
use super::disk::{Folder, Output};
use crate::{max_active, Builder, Error, Item, Result, Run, Sync, Workqueues};
use std::any::Any;
use std::ffi::OsStr;
use std::io::{self, Write};
use std::sync::atomic::{AtomicUsize, Ordering::SeqCst};
use std::sync::{mpsc, Arc, Mutex, MutexGuard};
use std::thread;
use std::time::Duration;

const ITEMS: usize = 8;
const LONG: Duration = Duration::from_secs(1000);
const EIO: i32 = 5;
const ENOSPC: i32 = 28;

// ---- the disk: files, of which so many bytes are synced, and what became of names, of which so much is

#[derive(Clone, Default)]
struct Content {
    text: Vec<u8>,
    synced: usize,
}

#[derive(Clone)]
struct Move {
    set: String,
    unset: String,
    file: usize,
}

#[derive(Clone, Default)]
struct Media {
    files: Vec<Content>,
    moves: Vec<Move>,
    moves_synced: usize,
}

impl Media {
    /// A disk with this journal.
    fn with(text: &[u8]) -> Media {
        let mut media = Media::default();
        media.files.push(Content { text: text.to_vec(), synced: text.len() });
        media.moves("journal", "", 0);
        media.moves_synced = 1;
        media
    }

    fn moves(&mut self, set: &str, unset: &str, file: usize) {
        self.moves.push(Move { set: set.to_owned(), unset: unset.to_owned(), file });
    }

    fn found(&self, name: &str) -> Option<usize> {
        let last = self.moves.iter().rev().find(|it| it.set == name || it.unset == name)?;
        (last.set == name).then_some(last.file)
    }

    fn text(&self, name: &str) -> String {
        let file = &self.files[self.found(name).unwrap()];
        String::from_utf8_lossy(&file.text).into_owned()
    }

    /// What is there when the power is back.
    fn after_cut(&self, how: How, random: &mut Random) -> Media {
        let mut kept = self.clone();
        let least = self.moves_synced;
        kept.moves.truncate(match how {
            How::Dropped => least,
            How::Kept => self.moves.len(),
            _ => least + random.below(self.moves.len() - least + 1),
        });
        kept.moves_synced = kept.moves.len();
        kept.files.iter_mut().for_each(|file| spoil(file, how, random));
        kept
    }
}

#[derive(Clone, Copy, PartialEq, Debug)]
enum How {
    Dropped,
    Kept,
    Cut,
    Zeros,
    Garbage,
    /// Garbage with line feeds.
    Lines,
}

const ALL: [How; 6] = [How::Dropped, How::Kept, How::Cut, How::Zeros, How::Garbage, How::Lines];

fn spoil(file: &mut Content, how: How, random: &mut Random) {
    let (from, rest) = (file.synced, file.text.len() - file.synced);
    match how {
        How::Dropped => file.text.truncate(from),
        How::Kept => {}
        _ => file.text.truncate(from + random.below(rest + 1)),
    }
    let len = file.text.len();
    if how == How::Zeros {
        let mut at = from;
        while at < len {
            let end = len.min((at / 512 + 1) * 512);
            if random.below(2) == 0 {
                file.text[at..end].fill(0);
            }
            at = end;
        }
    }
    if let How::Garbage | How::Lines = how {
        let begin = from + random.below(len - from + 1);
        for byte in &mut file.text[begin..] {
            *byte = 1 + random.below(255) as u8;
            if how == How::Garbage && *byte == b'\n' {
                *byte = b'x';
            }
            if how == How::Lines && random.below(8) == 0 {
                *byte = b'\n';
            }
        }
    }
    file.synced = len;
}

struct Random(u64);

impl Random {
    fn below(&mut self, most: usize) -> usize {
        self.0 ^= self.0 << 13;
        self.0 ^= self.0 >> 7;
        self.0 ^= self.0 << 17;
        (self.0 >> 16) as usize % most
    }
}

/// What a caller knows of an item.
#[derive(Clone, Copy, Default, PartialEq, Debug)]
enum Promise {
    #[default]
    Nothing,
    Pending,
    Unknown,
}

/// A disk, with what was promised of the items.
struct Power {
    media: Media,
    locked: bool,
    operations: usize,
    syncs: usize,
    /// The power fails before this operation, so; and then the disk and the promises were these.
    cut_at: usize,
    how: How,
    cut: Option<(Media, [Promise; ITEMS])>,
    random: Random,
    /// This operation fails, so; and later ones too if the disk is full.
    fail_at: usize,
    fail_with: i32,
    /// So many bytes are written at most by one call.
    at_once: usize,
    promises: [Promise; ITEMS],
    /// The next sync sends on one of these, and waits for the other.
    gate: Option<(mpsc::Sender<()>, mpsc::Receiver<()>)>,
}

#[derive(Clone)]
struct Memory(Arc<Mutex<Power>>);

impl Memory {
    fn on(media: Media) -> Memory {
        Memory(Arc::new(Mutex::new(Power {
            media,
            locked: false,
            operations: 0,
            syncs: 0,
            cut_at: 0,
            how: How::Kept,
            cut: None,
            random: Random(88_172_645_463_325_252),
            fail_at: 0,
            fail_with: EIO,
            at_once: usize::MAX,
            promises: [Promise::Nothing; ITEMS],
            gate: None,
        })))
    }

    fn now(&self) -> MutexGuard<'_, Power> {
        self.0.lock().unwrap()
    }

    /// An operation begins.
    fn begin(&self) -> io::Result<MutexGuard<'_, Power>> {
        let mut power = self.now();
        power.operations += 1;
        if power.operations == power.cut_at {
            let Power { media, how, random, promises, .. } = &mut *power;
            power.cut = Some((media.after_cut(*how, random), *promises));
        }
        let Power { operations, fail_at, fail_with, .. } = *power;
        if fail_at > 0 && (operations == fail_at || (operations > fail_at && fail_with == ENOSPC)) {
            return Err(io::Error::from_raw_os_error(fail_with));
        }
        Ok(power)
    }

    fn text(&self, name: &str) -> String {
        self.now().media.text(name)
    }

    fn promise(&self, item: usize, what: Promise) {
        self.now().promises[item] = what;
    }
}

fn word(name: &OsStr) -> &str {
    name.to_str().unwrap()
}

fn not_found() -> io::Error {
    io::ErrorKind::NotFound.into()
}

impl Folder for Memory {
    fn read(&self, name: &OsStr) -> io::Result<Vec<u8>> {
        let power = self.begin()?;
        let file = power.media.found(word(name)).ok_or_else(not_found)?;
        Ok(power.media.files[file].text.clone())
    }

    fn create(&self, name: &OsStr) -> io::Result<Box<dyn Output>> {
        let media = &mut self.begin()?.media;
        let file = media.files.len();
        media.files.push(Content::default());
        media.moves(word(name), "", file);
        Ok(Box::new(InMemory { memory: self.clone(), file }))
    }

    fn lock(&self, _name: &OsStr) -> io::Result<Box<dyn Any + Send>> {
        struct Locks(Memory);
        impl Drop for Locks {
            fn drop(&mut self) {
                self.0.now().locked = false;
            }
        }
        let mut power = self.begin()?;
        if power.locked {
            return Err(io::ErrorKind::WouldBlock.into());
        }
        power.locked = true;
        Ok(Box::new(Locks(self.clone())))
    }

    fn rename(&self, from: &OsStr, to: &OsStr) -> io::Result<()> {
        let media = &mut self.begin()?.media;
        let file = media.found(word(from)).ok_or_else(not_found)?;
        media.moves(word(to), word(from), file);
        Ok(())
    }

    fn link(&self, from: &OsStr, to: &OsStr) -> io::Result<()> {
        let media = &mut self.begin()?.media;
        assert_eq!(media.found(word(to)), None);
        let file = media.found(word(from)).ok_or_else(not_found)?;
        media.moves(word(to), "", file);
        Ok(())
    }

    fn remove(&self, name: &OsStr) -> io::Result<()> {
        let media = &mut self.begin()?.media;
        media.found(word(name)).ok_or_else(not_found)?;
        media.moves("", word(name), usize::MAX);
        Ok(())
    }

    fn sync(&self) -> io::Result<()> {
        self.now().syncs += 1;
        let media = &mut self.begin()?.media;
        media.moves_synced = media.moves.len();
        Ok(())
    }
}

struct InMemory {
    memory: Memory,
    file: usize,
}

impl Write for InMemory {
    fn write(&mut self, text: &[u8]) -> io::Result<usize> {
        let begun = self.memory.begin();
        let mut len = text.len();
        let mut power = match begun {
            Ok(power) => power,
            Err(why) => {
                let power = self.memory.now();
                if why.raw_os_error() != Some(ENOSPC) || power.operations > power.fail_at {
                    return Err(why);
                }
                len /= 2; // the disk is full, as the next write says
                power
            }
        };
        len = len.min(power.at_once);
        power.media.files[self.file].text.extend_from_slice(&text[..len]);
        Ok(len)
    }

    fn flush(&mut self) -> io::Result<()> {
        Ok(())
    }
}

impl Output for InMemory {
    fn sync_data(&self) -> io::Result<()> {
        let gate = self.memory.now().gate.take();
        let mut power = self.memory.begin()?;
        power.syncs += 1;
        let upto = power.media.files[self.file].text.len();
        if let Some((begins, ends)) = gate {
            drop(power);
            begins.send(()).unwrap();
            ends.recv().unwrap();
            power = self.memory.now();
        }
        power.media.files[self.file].synced = upto;
        Ok(())
    }

    fn sync_all(&self) -> io::Result<()> {
        self.sync_data()
    }
}

/// Ends the process if a test takes longer than `CMWQ_SECONDS` says.
struct Watchdog {
    _ends: mpsc::Sender<()>,
}

impl Watchdog {
    fn new() -> Watchdog {
        let seconds = std::env::var("CMWQ_SECONDS").ok().and_then(|word| word.parse().ok()).unwrap_or(300);
        let (_ends, ended) = mpsc::channel();
        thread::spawn(move || {
            if ended.recv_timeout(Duration::from_secs(seconds)) == Err(mpsc::RecvTimeoutError::Timeout) {
                eprintln!("a test hangs");
                std::process::abort();
            }
        });
        Watchdog { _ends }
    }
}

// ---- a life

type Runs = Arc<[AtomicUsize; ITEMS]>;

fn count(runs: &Runs, item: usize) -> usize {
    runs[item].load(SeqCst)
}

/// Workqueues of two or three queues, and eight items that count their runs, with these functions in place of some.
fn builder(memory: &Memory, queues: usize, own: Vec<(usize, crate::hub::Work)>) -> (Builder, Runs) {
    let runs = Runs::default();
    let mut builder = Workqueues::builder().workers(1).waits(2).durable("some/journal").each();
    builder.durable.opens = opens(memory);
    builder = builder.queue("a", max_active(2).freezable());
    builder = if queues == 2 {
        builder.queue("b", max_active(1).freezable())
    } else {
        builder.queue("b", max_active(1)).queue("c", max_active(1))
    };
    let mut works: Vec<Option<crate::hub::Work>> = (0..ITEMS).map(|_| None).collect();
    own.into_iter().for_each(|(item, work)| works[item] = Some(work));
    for (item, work) in works.into_iter().enumerate() {
        let (runs, mut work) = (runs.clone(), work);
        let counts = move |run: &mut Run<'_>| {
            if let Some(work) = &mut work {
                work(run);
            }
            runs[item].fetch_add(1, SeqCst);
        };
        builder = builder.item(&format!("item{item}"), if item % 2 == 0 { "a" } else { "b" }, counts);
    }
    (builder, runs)
}

fn opens(memory: &Memory) -> super::Opens {
    let memory = memory.clone();
    Box::new(move |path| {
        assert_eq!(path.to_str(), Some("some"));
        drop(memory.begin()?);
        Ok(Box::new(memory.clone()))
    })
}

fn item(all: &Workqueues, number: usize) -> Item {
    all.item(&format!("item{number}")).unwrap()
}

/// A call after which an item is pending, or is not. Once the disk has failed, no call is made.
struct Makes<'a> {
    memory: &'a Memory,
    broken: bool,
}

impl Makes<'_> {
    fn call<T>(&mut self, item: usize, after: Promise, call: impl FnOnce() -> Result<T>) {
        let before = self.memory.now().promises[item];
        self.memory.promise(item, Promise::Unknown);
        let may_fail = self.memory.now().fail_at > 0;
        match call() {
            Ok(_) if !self.broken => self.memory.promise(item, after),
            Err(Error::DiskFailed(_)) if may_fail => {
                self.memory.promise(item, before);
                self.broken = true;
            }
            Err(Error::NotDurable(_)) if may_fail && !self.broken => self.broken = true,
            Ok(_) => panic!("a call was made after the disk has failed"),
            Err(why) => panic!("{why}"),
        }
    }
}

/// A first life, in which nothing runs, since all queues are frozen.
fn live(memory: &Memory) -> Result<()> {
    use Promise::{Nothing, Pending, Unknown};
    let (builder, _) = builder(memory, 2, Vec::new());
    let all = builder.keep_old().build()?;
    let (a, b) = (all.queue("a")?, all.queue("b")?);
    let items: Vec<Item> = (0..ITEMS).map(|number| item(&all, number)).collect();
    let mut makes = Makes { memory, broken: false };
    makes.call(0, Nothing, || all.freeze());
    makes.call(0, Pending, || items[0].queue());
    makes.call(1, Pending, || items[1].queue_on(&b, 0));
    makes.call(2, Pending, || items[2].queue_delayed(LONG));
    makes.call(3, Pending, || items[3].queue());
    makes.call(3, Nothing, || items[3].cancel());
    makes.call(2, Pending, || items[2].modify(2 * LONG));
    makes.call(4, Nothing, || b.set_max_active(5));
    makes.call(5, Pending, || items[5].queue_delayed(LONG));
    makes.call(5, Nothing, || items[5].cancel_sync());
    memory.promise(6, Unknown);
    makes.call(7, Pending, || a.queue_all(&items[6..]));
    let told = memory.now().promises[7];
    memory.promise(6, told);
    if told == Nothing {
        memory.promise(6, Unknown); // the disk may have failed between the two
    }
    all.leave()
}

/// The next life, where items are as they were promised. Returns whether it had the journal.
fn live_again(memory: &Memory, how: How, promises: &[Promise; ITEMS]) -> bool {
    let (mut builder, runs) = builder(memory, 2, Vec::new());
    if memory.now().random.below(2) == 0 {
        builder = builder.keep_old();
    }
    let all = match builder.build() {
        Ok(all) => all,
        // garbage with lines is no history
        Err(Error::BadJournal { .. }) if how == How::Lines => return false,
        Err(why) => panic!("{how:?}: {why}"),
    };
    for (number, promise) in promises.iter().enumerate() {
        let item = item(&all, number);
        let is_busy = item.is_pending() || item.is_running();
        let has_run = count(&runs, number) > 0;
        match promise {
            Promise::Pending => assert!(is_busy || has_run, "{how:?}: item {number} is lost"),
            Promise::Nothing => assert!(!is_busy && !has_run, "{how:?}: item {number} is back"),
            Promise::Unknown => {}
        }
    }
    all.leave().unwrap();
    true
}

/// Whether all is tried, or what takes some seconds.
fn all_is_tried() -> bool {
    std::env::var_os("CMWQ_ALL_CUTS").is_some()
}

/// The power fails before each operation of a life, and then before some, or each, of the next.
#[test]
fn the_power_fails() {
    let _dog = Watchdog::new();
    let mut cuts = 0;
    let mut random = Random(1);
    for how in ALL {
        for at in 1.. {
            let memory = Memory::on(Media::default());
            (memory.now().cut_at, memory.now().how) = (at, how);
            memory.now().random = Random(at as u64 * 977 + how as u64 + 1);
            live(&memory).unwrap();
            let Some((found, promises)) = memory.now().cut.take() else {
                break;
            };
            let mut then = 0;
            loop {
                let memory = Memory::on(found.clone());
                (memory.now().cut_at, memory.now().how) = (then, how);
                memory.now().random = Random((at * 1000 + then) as u64 + 1);
                let had = live_again(&memory, how, &promises);
                let cut = memory.now().cut.take();
                if !had || (then > 0 && cut.is_none()) {
                    break;
                }
                cuts += 1;
                if let Some((found, _)) = cut {
                    live_again(&Memory::on(found), how, &promises);
                }
                then += if all_is_tried() || then == 0 { 1 } else { 1 + random.below(16) };
            }
        }
    }
    assert!(cuts > 500, "{cuts}");
}

/// Each operation of a life fails; then the power does, or only the program ends.
#[test]
fn operations_fail() {
    let _dog = Watchdog::new();
    for why in [EIO, ENOSPC] {
        for at in 1.. {
            let memory = Memory::on(Media::default());
            (memory.now().fail_at, memory.now().fail_with) = (at, why);
            let told = live(&memory);
            let mut power = memory.now();
            if power.operations < at {
                told.unwrap();
                assert!(at > 30);
                break;
            }
            assert!(matches!(told, Err(Error::DiskFailed(_))), "operation {at}: {told:?}");
            for how in [How::Dropped, How::Kept] {
                let promises = power.promises;
                let found = power.media.after_cut(how, &mut Random(1));
                live_again(&Memory::on(found), how, &promises);
            }
            power.fail_at = 0;
        }
    }
}

/// A disk may write a part of what it is given.
#[test]
fn writes_are_short() {
    let _dog = Watchdog::new();
    let memory = Memory::on(Media::default());
    memory.now().at_once = 7;
    live(&memory).unwrap();
    let promises = memory.now().promises;
    let found = memory.now().media.clone();
    live_again(&Memory::on(found), How::Kept, &promises);
}

// ---- what else a journal may hold

/// Item 0 runs, 1 is queued, 2 is due, 3 and 4 are booked for later, the width of queue 0 is 3, and queue 2 is gone. As
/// a hub in C writes it.
const LEFT: &str = "history 3\nshape 1 1 3 8 100000\nwq 2 f\nwq 1 -\nwq 1 -\nc0 0 set_max 0 3 = width 3\n\
    c0 1 queue 0 0 0 = yes 1\nw0n0 0 take = started 1\nc0 2 queue 1 0 0 = yes 3\nc0 3 delay 2 0 0 3 = booked 3\n\
    c0 4 delay 3 1 0 5000 = booked 5000\nc0 5 tick 5 = now 5\nc0 6 delay 4 0 0 9000 = booked 9005\n\
    c1 0 destroy 2 = ticket 8\nc1 1 end 8 = done\n";

/// What the next life has of it, but for the counts in its shape.
const TAKEN: &str = "wq 2 f\nwq 1 -\nwq 1 -\nc0 0 set_max 0 3 = width 3\nc1 0 destroy 2 = ticket 1\n\
    c1 1 end 1 = done\nc0 1 queue 0 0 0 = yes 3\nc0 2 queue 1 0 0 = yes 4\nc0 3 delay 2 0 0 1 = booked 1\n\
    c0 4 tick 1 = now 1\nc0 5 fire = fired 2 7\nc0 6 fire = nothing\nc0 7 delay 3 1 0 4995 = booked 4996\n\
    c0 8 delay 4 0 0 9000 = booked 9001\n";

#[test]
fn what_was_left_is_taken_over() -> Result<()> {
    let _dog = Watchdog::new();
    let memory = Memory::on(Media::with(LEFT.as_bytes()));
    let asked = Arc::new(Mutex::new(Vec::new()));
    let again = |answer: bool| {
        let asked = asked.clone();
        move |name: &str| {
            asked.lock().unwrap().push(name.to_owned());
            answer
        }
    };
    let (made, runs) = builder(&memory, 3, Vec::new());
    let all = made.again(again(true)).build()?;
    assert!(memory.text("journal").contains(TAKEN), "{}", memory.text("journal"));
    assert!(matches!(item(&all, 5).queue_on(&all.queue("c")?, 0), Err(Error::Gone)));
    all.queue("a")?.flush()?;
    assert_eq!((0..5).map(|item| count(&runs, item)).collect::<Vec<_>>(), [1, 1, 1, 0, 0]);
    assert!(item(&all, 3).is_pending() && item(&all, 4).is_pending());
    all.leave()?;
    // a run that makes the program crash each time is left out, and nothing else
    let memory = Memory::on(Media::with(LEFT.as_bytes()));
    let (made, runs) = builder(&memory, 3, Vec::new());
    let all = made.again(again(false)).build()?;
    all.queue("a")?.flush()?;
    assert_eq!((0..5).map(|item| count(&runs, item)).collect::<Vec<_>>(), [0, 1, 1, 0, 0]);
    assert!(item(&all, 3).is_pending());
    all.leave()?;
    assert_eq!(*asked.lock().unwrap(), ["item0", "item0"]);
    Ok(())
}

/// A run that was taken over queues its item where it was.
#[test]
fn what_is_taken_over_runs_on_its_queue() -> Result<()> {
    let _dog = Watchdog::new();
    let left = "history 3\nshape 2 1 3 8 100\nwq 2 f\nwq 1 -\nwq 1 -\nc0 0 queue 0 1 1 = yes 0\n";
    let memory = Memory::on(Media::with(left.as_bytes()));
    let requeues = |run: &mut Run<'_>| assert!(run.requeue_after(LONG).unwrap());
    let (made, runs) = builder(&memory, 3, vec![(0, Box::new(requeues))]);
    let all = made.cpus(2).build()?;
    all.queue("b")?.flush()?;
    assert_eq!(count(&runs, 0), 1);
    all.leave()?;
    let text = memory.text("journal");
    assert!(text.contains("w1n0 2 delay 0 1 1 ") || text.contains(" delay 0 1 1 "), "{text}");
    Ok(())
}

fn shape_told(told: Result<Workqueues>) -> String {
    match told {
        Err(Error::OtherShape(what)) => what,
        other => panic!("{other:?}"),
    }
}

#[test]
fn the_shape_may_only_grow() -> Result<()> {
    let _dog = Watchdog::new();
    let memory = Memory::on(Media::with(LEFT.as_bytes()));
    let (two, _) = builder(&memory, 2, Vec::new());
    assert_eq!(shape_told(two.build()), "queue 2");
    let (mut seven, _) = builder(&memory, 3, Vec::new());
    seven.items.pop();
    assert_eq!(shape_told(seven.build()), "item 7");
    assert_eq!(memory.text("journal"), LEFT);
    assert_eq!(memory.now().media.found("journal.notes"), None);
    builder(&memory, 3, Vec::new()).0.cpus(2).build()?.leave()?;
    assert_eq!(shape_told(builder(&memory, 3, Vec::new()).0.build()), "CPU 1");
    // names are kept since the last life
    let (mut other, _) = builder(&memory, 3, Vec::new());
    other.items.swap(1, 2);
    assert_eq!(shape_told(other.cpus(2).build()), "item 1 item1");
    let (mut other, _) = builder(&memory, 3, Vec::new());
    other.items.pop();
    assert_eq!(shape_told(other.cpus(2).build()), "item 7 item7");
    let (mut other, _) = builder(&memory, 3, Vec::new());
    other.setup.names[2].push('d');
    assert_eq!(shape_told(other.cpus(2).build()), "queue 2 c");
    // new ones come last
    let (more, _) = builder(&memory, 3, Vec::new());
    let all = more.cpus(2).queue("d", max_active(1)).item("item8", "d", |_| ()).build()?;
    all.shutdown()?;
    assert_eq!(memory.text("journal.notes").lines().nth(8), Some("item 8 item8"));
    assert_eq!(memory.text("journal.notes").lines().last(), Some("queue 3 d"));
    // after its end nothing is left, so all may be otherwise; and the last journal is kept
    let (mut other, _) = builder(&memory, 2, Vec::new());
    other.items.swap(1, 2);
    other.items.pop();
    other.keep_old().build()?.leave()?;
    assert!(memory.text("journal.1").contains("\nend "));
    assert!(!memory.text("journal").contains("\nc0 0"));
    Ok(())
}

/// The names are of the journal, whatever was done between two lives.
#[test]
fn names_without_a_journal_are_of_nothing() -> Result<()> {
    let _dog = Watchdog::new();
    let memory = Memory::on(Media::default());
    builder(&memory, 3, Vec::new()).0.build()?.leave()?;
    memory.now().media.moves("", "journal", 0);
    let (mut other, _) = builder(&memory, 3, Vec::new());
    other.items.swap(1, 2);
    other.build()?.leave()?;
    assert_eq!(memory.text("journal.notes").lines().nth(1), Some("item 1 item2"));
    Ok(())
}

/// What a builder has.
fn opened(memory: &Memory, queues: usize) -> Result<()> {
    builder(memory, queues, Vec::new()).0.build()?.leave()
}

#[test]
fn a_journal_of_nothing_leaves_nothing() {
    let _dog = Watchdog::new();
    for text in [&b""[..], &[0; 600]] {
        let memory = Memory::on(Media::with(text));
        opened(&memory, 2).unwrap();
        assert!(!memory.text("journal").contains("\nc0 0"));
    }
}

#[test]
fn what_is_no_journal_stays() {
    let _dog = Watchdog::new();
    const HEAD: &str = "history 3\nshape 1 1 3 8 100\nwq 2 f\n";
    let long = format!("c0 0 queue 0 0 0 = yes 0{}\n", " ".repeat(110));
    let wrong: &[(&str, u64)] = &[
        ("c0 0 queue 0 0 0 = yes 0\nbad\nc0 1 queue 1 0 0 = yes 1\n", 5),
        ("c0 0 queue 0 0 0 = yes 0\nc0 0 queue 1 0 0 = yes 1\nbad\n", 6),
        ("c0 0 queue 0 0 0 = yes 0\nc0 0 queue 1 0 0 = yes 1\n", 5),
        ("c0 0 queue 0 0 0 = yes 0\nc0 1 queue 1 0 0 = yes 2\n", 5),
        ("c0 0 queue 9 0 0 = yes 0\n", 4),
        ("end 0\nc0 0 queue 1 0 0 = yes 0\n", 5),
        (&long, 4),
    ];
    let refused = |text: &[u8], wrong: u64| {
        let memory = Memory::on(Media::with(text));
        match opened(&memory, 3) {
            Err(Error::BadJournal { line }) => assert_eq!(line, wrong, "{}", String::from_utf8_lossy(text)),
            other => panic!("{other:?}"),
        }
        assert_eq!(memory.text("journal").as_bytes(), text);
        assert_eq!(memory.now().media.found("journal.notes"), None);
    };
    for (rest, line) in wrong {
        refused(format!("{HEAD}{rest}").as_bytes(), *line);
    }
    refused(b"no journal", 1);
    // a zero is as wrong as any other byte, but in what a disk had not written
    let mut text = HEAD.as_bytes().to_vec();
    text.extend_from_slice(b"\0\0\0bad\n");
    refused(&text, 4);
    text.resize(512, 0);
    refused(&text, 4);
    let taken = |text: &[u8], queues: usize| {
        let memory = Memory::on(Media::with(text));
        opened(&memory, queues).unwrap();
        memory.text("journal")
    };
    let mut text = HEAD.as_bytes().to_vec();
    text.resize(512, 0);
    text.extend_from_slice(b"bad\n");
    taken(&text, 3);
    // what is torn may be long, and may follow the end
    taken(&LEFT.as_bytes()[..LEFT.len() - 4], 3);
    assert!(taken(format!("{LEFT}{}", "x".repeat(300)).as_bytes(), 3).contains(TAKEN));
    taken(format!("{HEAD}end 0\nend").as_bytes(), 3);
}

// ---- calls of durable workqueues

/// Waits for something that will be so.
fn until(mut is_so: impl FnMut() -> bool) {
    while !is_so() {
        thread::sleep(Duration::from_millis(1));
    }
}

/// A run goes on while workqueues are left, and nothing else begins.
#[test]
fn leave_starts_nothing_and_keeps_the_rest() -> Result<()> {
    let _dog = Watchdog::new();
    let memory = Memory::on(Media::default());
    let (began, has_begun) = mpsc::channel();
    let (go_on, goes_on) = mpsc::channel::<()>();
    let (tell, told) = mpsc::channel();
    let work = move |run: &mut Run<'_>| {
        began.send(()).unwrap();
        goes_on.recv().unwrap();
        let delayed = run.item("item3").and_then(|item| item.queue_delayed(LONG));
        tell.send((run.item("item1").and_then(|item| item.queue()), delayed, run.sync())).unwrap();
    };
    let (made, runs) = builder(&memory, 2, vec![(0, Box::new(work))]);
    let all = made.workers(2).build()?;
    let (b, one, hub) = (all.queue("b")?, item(&all, 1), all.hub.clone());
    item(&all, 0).queue()?;
    has_begun.recv().unwrap();
    item(&all, 2).queue()?;
    item(&all, 5).queue()?;
    item(&all, 5).flush_timeout(Duration::ZERO).unwrap_err();
    let waits = thread::spawn(move || b.flush());
    until(|| hub.guarded.lock().own.waits == 1);
    let leaves = thread::spawn(move || all.leave());
    assert!(matches!(waits.join().unwrap(), Err(Error::Stopped)));
    until(|| hub.guarded.lock().own.keeps);
    assert!(matches!(one.queue(), Err(Error::Stopped)));
    assert!(matches!(one.queue_delayed(LONG), Err(Error::Stopped)));
    go_on.send(()).unwrap();
    let (queued, delayed, synced) = told.recv().unwrap();
    assert!(queued? && delayed?);
    synced?;
    leaves.join().unwrap()?;
    assert!(matches!(one.queue(), Err(Error::Closed)));
    assert!(matches!(hub.sync(), Err(Error::Closed)));
    assert_eq!((0..ITEMS).map(|item| count(&runs, item)).sum::<usize>(), 1);
    assert!(!memory.text("journal").contains("\nend "));
    // the next life has the rest
    let (made, runs) = builder(&memory, 2, Vec::new());
    let all = made.build()?;
    all.queue("a")?.flush()?;
    all.queue("b")?.flush()?;
    assert!(item(&all, 3).is_pending());
    assert_eq!((0..ITEMS).map(|item| count(&runs, item)).collect::<Vec<_>>(), [0, 1, 1, 0, 0, 1, 0, 0]);
    all.shutdown()?;
    assert!(memory.text("journal").contains("\nend "));
    Ok(())
}

/// What a run waits for doesn't come any more, so the run is broken off, and the next life has it again.
#[test]
fn a_run_whose_wait_was_cut_off_is_had_again() -> Result<()> {
    let _dog = Watchdog::new();
    for blocks in [false, true] {
        let memory = Memory::on(Media::default());
        let (tell, told) = mpsc::channel();
        let work = move |run: &mut Run<'_>| {
            let (other, queued) = (run.item("item4").unwrap(), run.item("item3").unwrap());
            let waited = if blocks { run.block(|| other.flush()) } else { other.flush() };
            tell.send((waited, queued.queue())).unwrap();
        };
        let (made, runs) = builder(&memory, 3, vec![(1, Box::new(work))]);
        let all = made.workers(2).build()?;
        all.freeze()?;
        item(&all, 4).queue()?; // is frozen
        item(&all, 1).queue()?;
        let hub = all.hub.clone();
        until(|| hub.guarded.lock().own.waits == 1);
        all.leave()?;
        let (waited, queued) = told.recv().unwrap();
        assert!(matches!(waited, Err(Error::Stopped)), "{waited:?}");
        assert!(queued?);
        assert_eq!(count(&runs, 1), 1);
        let (made, runs) = builder(&memory, 3, Vec::new());
        let all = made.build()?;
        all.queue("b")?.flush()?;
        assert_eq!((0..5).map(|item| count(&runs, item)).collect::<Vec<_>>(), [0, 1, 0, 1, 0]);
        assert!(item(&all, 4).is_pending());
        all.shutdown()?;
    }
    Ok(())
}

#[test]
fn syncs_are_as_many_as_the_level_says() -> Result<()> {
    let _dog = Watchdog::new();
    let memory = Memory::on(Media::default());
    let syncs = || memory.now().syncs;
    let made = || builder(&memory, 2, Vec::new()).0;
    let has = |words: &str| memory.text("journal").contains(words);
    let all = made().build()?;
    assert!(matches!(made().build(), Err(Error::InUse)));
    all.freeze()?;
    all.leave()?;
    let before = syncs();
    let all = made().sync(Sync::Write).build()?;
    item(&all, 0).queue()?;
    assert!(has("queue 0 0 0"));
    all.sync()?;
    all.leave()?;
    assert_eq!(syncs(), before + 2);
    let all = made().sync(Sync::None).build()?;
    item(&all, 2).queue()?;
    all.sync()?;
    all.leave()?;
    assert!(has("queue 2 0 0"));
    assert_eq!(syncs(), before + 2);
    let mut without = made();
    without.durable.each = false;
    let all = without.build()?;
    assert_eq!(syncs(), before + 4);
    item(&all, 4).queue()?;
    item(&all, 6).queue()?;
    all.sync()?;
    let media = memory.now().media.clone();
    let file = &media.files[media.found("journal").unwrap()];
    assert!(String::from_utf8_lossy(&file.text[..file.synced]).contains("queue 6 0 0"));
    all.leave()
}

/// Entries that nobody waits for are synced soon.
#[test]
fn what_nobody_waits_for_is_synced() -> Result<()> {
    let _dog = Watchdog::new();
    let memory = Memory::on(Media::default());
    let (mut made, _) = builder(&memory, 2, Vec::new());
    made.durable.each = false;
    let all = made.build()?;
    all.freeze()?;
    item(&all, 0).queue()?;
    let synced = || {
        let media = &memory.now().media;
        let file = &media.files[media.found("journal").unwrap()];
        file.synced == file.text.len() && String::from_utf8_lossy(&file.text).contains("queue 0 0 0")
    };
    until(synced);
    all.leave()
}

/// One sync serves all who wait.
#[test]
fn many_share_a_sync() -> Result<()> {
    let _dog = Watchdog::new();
    const CALLERS: usize = 16;
    let memory = Memory::on(Media::default());
    let all = builder(&memory, 2, Vec::new()).0.build()?;
    let hub = all.hub.clone();
    all.freeze()?;
    let (begins, begun) = mpsc::channel();
    let (ends, ended) = mpsc::channel();
    let before = memory.now().syncs;
    memory.now().gate = Some((begins, ended));
    let callers: Vec<_> = (0..CALLERS)
        .map(|caller| {
            let item = item(&all, caller % ITEMS);
            thread::spawn(move || item.modify(LONG))
        })
        .collect();
    begun.recv().unwrap();
    until(|| hub.guarded.lock().own.waits == CALLERS);
    assert!(callers.iter().all(|caller| !caller.is_finished()));
    ends.send(()).unwrap();
    for caller in callers {
        caller.join().unwrap()?;
    }
    assert_eq!(memory.now().syncs, before + 2);
    all.leave()
}

/// Nobody waits for ever for a disk that has failed, and each call says what it knows.
#[test]
fn nobody_waits_for_a_disk_that_has_failed() -> Result<()> {
    let _dog = Watchdog::new();
    for after in [1, 2, 3, 4, 20] {
        let memory = Memory::on(Media::default());
        let all = builder(&memory, 2, Vec::new()).0.build()?;
        all.freeze()?;
        item(&all, 1).queue()?;
        let told: Arc<[AtomicUsize; 3]> = Arc::default();
        let synced = {
            let memory = memory.clone();
            move || {
                let media = &memory.now().media;
                let file = &media.files[media.found("journal").unwrap()];
                String::from_utf8_lossy(&file.text[..file.synced]).matches(" modify ").count()
            }
        };
        {
            let mut power = memory.now();
            power.fail_at = power.operations + after;
        }
        let callers: Vec<_> = (0..8)
            .map(|caller| {
                let (item, told, synced) = (item(&all, 2 + caller % (ITEMS - 2)), told.clone(), synced.clone());
                thread::spawn(move || {
                    for _ in 0..20 {
                        let what = match item.modify(LONG) {
                            Ok(_) => 0,
                            Err(Error::NotDurable(_)) => 1,
                            Err(Error::DiskFailed(_)) => 2,
                            Err(why) => panic!("{why}"),
                        };
                        let count = 1 + told[what].fetch_add(1, SeqCst);
                        assert!(what > 0 || count <= synced());
                    }
                })
            })
            .collect();
        let waited = all.queue("b")?.flush();
        assert!(matches!(waited, Err(Error::DiskFailed(_))), "{waited:?}");
        callers.into_iter().for_each(|caller| caller.join().unwrap());
        assert!(told[2].load(SeqCst) > 0);
        all.sync().unwrap_err();
        let (one, hub) = (item(&all, 1), all.hub.clone());
        assert!(matches!(all.leave(), Err(Error::DiskFailed(why)) if why.raw_os_error() == Some(EIO)));
        assert!(matches!(one.queue(), Err(Error::DiskFailed(_))));
        assert!(matches!(one.flush(), Err(Error::DiskFailed(_))));
        assert!(matches!(one.queue_delayed(LONG), Err(Error::DiskFailed(_))));
        assert!(matches!(hub.sync(), Err(Error::DiskFailed(_))));
    }
    Ok(())
}

/// Runs end on a disk that has failed, with what their calls are told.
#[test]
fn runs_end_on_a_disk_that_has_failed() -> Result<()> {
    let _dog = Watchdog::new();
    let memory = Memory::on(Media::default());
    let (tell, told) = mpsc::channel();
    let own = memory.clone();
    let work = move |run: &mut Run<'_>| {
        {
            let mut power = own.now();
            power.fail_at = power.operations + 1;
        }
        let other = run.item("item1").unwrap();
        let (queued, synced) = (other.queue(), run.sync());
        let then = run.block(|| other.queue());
        tell.send((queued, synced, then)).unwrap();
    };
    let (mut made, runs) = builder(&memory, 2, vec![(0, Box::new(work))]);
    made.durable.each = false;
    let all = made.build()?;
    item(&all, 0).queue()?;
    all.sync().ok();
    let (queued, synced, then) = told.recv().unwrap();
    assert!(matches!(queued, Ok(true) | Err(Error::DiskFailed(_))), "{queued:?}");
    assert!(matches!(synced, Err(Error::NotDurable(_) | Error::DiskFailed(_))), "{synced:?}");
    assert!(matches!(then, Err(Error::DiskFailed(_))), "{then:?}");
    assert!(matches!(all.shutdown(), Err(Error::DiskFailed(_))));
    assert_eq!(count(&runs, 0), 1);
    Ok(())
}
