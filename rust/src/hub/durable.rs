//! Durable workqueues: the journal is a file on the disk, and one file is one life. The next life reads it, makes the
//! calls that resume it, and puts its own file in its place. Whoever waits for the disk writes and syncs for all who
//! wait.
mod disk;
mod left;
#[cfg(test)]
mod tests;

pub(crate) use disk::{open, Opens};

use super::{Hold, Hub, Own, Work};
use crate::error::{Error, Result};
use crate::ffi::{call, status, Begun, Board, Call, Ended, Fault, Lines, Shape, Wakes};
use crate::shell::{Hold as _, Shell, State, QUIET};
use crate::Sync;
use disk::{Folder, Output};
use left::{calls, names_text, Names};
use std::any::Any;
use std::ffi::{OsStr, OsString};
use std::io::{self, ErrorKind};
use std::path::{Path, PathBuf};
use std::sync::{Arc, PoisonError};
use std::time::Instant;

/// Asks of the item with this name whether its run that was broken off is had again.
pub(crate) type Again = Box<dyn FnMut(&str) -> bool + Send>;

/// What the builder sets.
pub(crate) struct Options {
    pub(crate) path: Option<PathBuf>,
    pub(crate) sync: Sync,
    pub(crate) each: bool,
    pub(crate) keep_old: bool,
    pub(crate) again: Option<Again>,
    pub(crate) opens: Opens,
}

impl Options {
    pub(crate) fn new() -> Options {
        Options { path: None, sync: Sync::Data, each: false, keep_old: false, again: None, opens: Box::new(open) }
    }
}

/// How far the journal has come. The lock guards it.
#[derive(Default)]
pub(crate) struct Progress {
    /// Whoever writes has it.
    file: Option<Box<dyn Output>>,
    /// How many entries are durable, and how many somebody waits for.
    synced: u64,
    wanted: u64,
    pub(super) failed: Option<Arc<io::Error>>,
    lock: Option<Box<dyn Any + Send>>,
}

/// Something on the disk has failed.
fn failed(why: io::Error) -> Error {
    Error::DiskFailed(Arc::new(why))
}

/// The folder and the name of the file of this path.
fn parts(path: &Path) -> Result<(&Path, &OsStr)> {
    let name = path.file_name().ok_or(Error::Invalid("the path of the journal"))?;
    let folder = path.parent().filter(|folder| !folder.as_os_str().is_empty());
    Ok((folder.unwrap_or(Path::new(".")), name))
}

/// All of a file. None: there is none.
fn read(folder: &dyn Folder, name: &OsStr) -> Result<Option<Vec<u8>>> {
    match folder.read(name) {
        Ok(text) => Ok(Some(text)),
        Err(why) if why.kind() == ErrorKind::NotFound => Ok(None),
        Err(why) => Err(failed(why)),
    }
}

/// Resumes the journal of this path, and begins that of this life.
pub(crate) fn resume(
    path: &Path,
    options: &mut Options,
    shape: &Shape,
    names: (&[String], &[String]),
    head: &[u8],
    state: &mut State<Work, Own>,
) -> Result<()> {
    let (folder, name) = parts(path)?;
    let folder = &*(options.opens)(folder).map_err(failed)?;
    let names = Names { items: names.0, queues: names.1 };
    let with = |ending: &str| {
        let mut name = name.to_owned();
        name.push(ending);
        name
    };
    let lock = folder.lock(&with(".lock")).map_err(|why| match why.kind() {
        ErrorKind::WouldBlock => Error::InUse,
        _ => failed(why),
    })?;
    let old = read(folder, name)?;
    let named = read(folder, &with(".notes"))?.unwrap_or_default();
    let calls = match &old {
        Some(text) => calls(text, shape, &names, &String::from_utf8_lossy(&named), options.again.as_mut())?,
        None => Vec::new(),
    };
    let text = names_text(&names);
    if text.as_bytes() != named {
        // before the journal: what the last one left has the same names, so they go with either
        put_names(folder, &text, &with(".notes.new"), &with(".notes")).map_err(failed)?;
    }
    let fresh = with(".new");
    let mut file = folder.create(&fresh).map_err(failed)?;
    begin(&mut *file, head, &calls, state)?;
    if options.sync != Sync::None {
        file.sync_all().map_err(failed)?;
    }
    let old = (old.is_some() && options.keep_old).then(|| with(".1"));
    replace(folder, name, &fresh, old, options.sync).map_err(failed)?;
    state.own.disk =
        Progress { file: Some(file), synced: state.board.len(), wanted: 0, failed: None, lock: Some(lock) };
    Ok(())
}

fn put_names(folder: &dyn Folder, text: &str, fresh: &OsStr, name: &OsStr) -> io::Result<()> {
    let mut file = folder.create(fresh)?;
    file.write_all(text.as_bytes())?;
    file.sync_all()?;
    folder.rename(fresh, name)?;
    folder.sync()
}

/// Writes the journal of this life: its head, and the calls that resume the last one, which are made.
fn begin(file: &mut dyn Output, head: &[u8], calls: &[Call], state: &mut State<Work, Own>) -> Result<()> {
    state.journal.begin();
    file.write_all(head).map_err(failed)?;
    for call in calls {
        if state.journal.next <= state.board.len() {
            put(file, state).map_err(failed)?;
        }
        make(state, call).map_err(Error::of)?;
    }
    put(file, state).map_err(failed)
}

/// Writes the entries that the board keeps.
fn put(file: &mut dyn Output, state: &mut State<Work, Own>) -> io::Result<()> {
    let mut all = state.take_all();
    all.iter_mut().try_for_each(|lines| write(lines, file))?;
    state.journal.spare.extend(all);
    Ok(())
}

fn write(lines: &mut Lines, file: &mut dyn Output) -> io::Result<()> {
    let mut text = [0; 1 << 14];
    loop {
        match lines.write(&mut text) {
            Ok(len) if len > 0 => file.write_all(&text[..len])?,
            _ => return Ok(()),
        }
    }
}

/// Makes a call that resumes. No thread sleeps yet, so nobody is woken.
fn make(state: &mut State<Work, Own>, call: &Call) -> std::result::Result<(), Fault> {
    let mut wakes = Wakes::NOBODY;
    let board = &mut state.board;
    match call.kind {
        call::TICK => board.advance(0, call.number, &mut wakes).map(drop),
        call::END => Ok(()), // it was made with its destroy
        call::DESTROY => {
            let Begun::Waits(party, _) = board.begin(call, &mut wakes)? else {
                return Ok(());
            };
            loop {
                match board.end(party, &mut wakes)? {
                    Ended::Done => return Ok(()),
                    Ended::Over => return Err(status::OVER),
                    Ended::Waits | Ended::LookAgain => {}
                }
            }
        }
        kind => {
            board.call(call, &mut wakes)?;
            if let call::QUEUE | call::DELAY = kind {
                state.slots[usize::from(call.item)].queue = call.queue;
            }
            if kind == call::DELAY {
                (state.has_timers, state.due) = (true, 0);
            }
            Ok(())
        }
    }
}

/// Puts the new journal in the place of the last one, which stays by another name if that is wanted.
fn replace(folder: &dyn Folder, name: &OsStr, fresh: &OsStr, old: Option<OsString>, sync: Sync) -> io::Result<()> {
    if let Some(old) = old {
        match folder.remove(&old) {
            Err(why) if why.kind() != ErrorKind::NotFound => return Err(why),
            _ => folder.link(name, &old)?,
        }
    }
    folder.rename(fresh, name)?;
    if sync == Sync::None {
        return Ok(());
    }
    folder.sync()
}

impl Hold<'_> {
    /// The disk has failed, for good: nobody makes an entry any more, and nobody waits.
    fn fail(&mut self, why: io::Error) {
        self.state.own.disk.failed = Some(Arc::new(why));
        self.state.journal.forget();
        let _ = self.make(Board::fail);
    }
}

impl Hub {
    /// Ends a call of workqueues each of whose calls is durable.
    #[cold]
    pub(super) fn settle_each<T>(&self, hold: Hold<'_>, made: Result<T>) -> Result<T> {
        let is_made = matches!(made, Ok(_) | Err(Error::TimedOut));
        if is_made && !self.is_in_run() {
            self.wait_for_disk(hold)?;
        }
        made
    }

    /// Waits until all entries that there are now are durable.
    pub(crate) fn sync(&self) -> Result<()> {
        if self.durable.is_none() {
            return Err(Error::NoJournal);
        }
        let mut hold = self.hold();
        if hold.state.ended {
            return Err(hold.error_of(status::CLOSED));
        }
        self.wait_for_disk(hold)?;
        match &self.guarded.lock().own.disk.failed {
            Some(why) => Err(Error::DiskFailed(why.clone())),
            None => Ok(()),
        }
    }

    /// Waits until all entries that there are now are durable. Who comes first writes and syncs for all who wait.
    fn wait_for_disk(&self, mut hold: Hold<'_>) -> Result<()> {
        if self.durable.as_ref().map_or(true, |durable| durable.sync == Sync::None) {
            return Ok(());
        }
        let mine = hold.state.board.len();
        let own = &mut hold.state.own;
        own.disk.wanted = own.disk.wanted.max(mine);
        own.waits += 1;
        drop(hold); // those who were named are woken first
        let mut hold = self.hold_of(self.guarded.lock());
        let made = loop {
            let disk = &hold.state.own.disk;
            if disk.synced >= mine {
                break Ok(());
            }
            if let Some(why) = &disk.failed {
                break Err(Error::NotDurable(why.clone()));
            }
            hold = if disk.file.is_some() { self.commit(hold, false) } else { self.wait_for_writer(hold) };
        };
        hold.is_over();
        made
    }

    /// Sleeps until somebody has written.
    fn wait_for_writer<'a>(&'a self, hold: Hold<'a>) -> Hold<'a> {
        let Some(durable) = &self.durable else {
            return hold;
        };
        let Hold { state, woken } = hold;
        debug_assert!(woken.is_empty());
        self.hold_of(durable.written.wait(state).unwrap_or_else(PoisonError::into_inner))
    }

    /// Writes what there is, and syncs if somebody waits for that, or always. Nobody else does so meanwhile. The lock
    /// is let go for the disk.
    fn commit<'a>(&'a self, mut hold: Hold<'a>, always: bool) -> Hold<'a> {
        let (Some(durable), Some(mut file)) = (&self.durable, hold.state.own.disk.file.take()) else {
            return hold;
        };
        let mut all = hold.state.take_all();
        let upto = hold.state.board.len();
        let disk = &hold.state.own.disk;
        let syncs = durable.sync == Sync::Data && upto > disk.synced && (always || disk.wanted > disk.synced);
        drop(hold);
        self.guarded.space.notify_all();
        let written = all.iter_mut().try_for_each(|lines| write(lines, &mut *file));
        let written = written.and_then(|()| if syncs { file.sync_data() } else { Ok(()) });
        let mut hold = self.hold_of(self.guarded.lock());
        match written {
            Ok(()) => {
                hold.state.journal.spare.extend(all);
                let disk = &mut hold.state.own.disk;
                disk.file = Some(file);
                if syncs || durable.sync != Sync::Data {
                    disk.synced = upto;
                }
            }
            Err(why) => hold.fail(why),
        }
        durable.written.notify_all();
        self.guarded.space.notify_all();
        hold
    }

    /// What the journal's thread does: it writes and syncs what nobody waits for.
    pub(crate) fn keep_disk(&self) {
        let mut last = Instant::now();
        let mut hold = self.hold_of(self.guarded.lock());
        loop {
            let (slept, quiet) = self.sleep_for_entries(hold);
            hold = slept;
            let over = hold.state.journal.over;
            if hold.state.own.disk.failed.is_some() {
                if over {
                    return;
                }
                continue;
            }
            if hold.state.own.disk.file.is_none() {
                hold = self.wait_for_writer(hold);
                continue;
            }
            let always = over || quiet || last.elapsed() >= 2 * QUIET;
            if always {
                hold.state.journal.armed = false;
                last = Instant::now();
            }
            hold = self.commit(hold, always);
            if over {
                return self.end_journal(hold);
            }
            drop(hold); // those who were named are woken
            hold = self.hold_of(self.guarded.lock());
        }
    }

    /// Sleeps until there are entries to write, some have been kept for long enough, or nothing more is made. Returns
    /// whether it is the second of these.
    fn sleep_for_entries<'a>(&'a self, hold: Hold<'a>) -> (Hold<'a>, bool) {
        let Hold { mut state, woken } = hold;
        debug_assert!(woken.is_empty());
        while state.journal.full.is_empty() && !state.journal.over {
            if !state.journal.armed || state.own.disk.failed.is_some() {
                state = self.guarded.journal.wait(state).unwrap_or_else(PoisonError::into_inner);
                continue;
            }
            let waited = self.guarded.journal.wait_timeout(state, QUIET).unwrap_or_else(PoisonError::into_inner);
            state = waited.0;
            if waited.1.timed_out() && state.journal.full.is_empty() {
                return (self.hold_of(state), true);
            }
        }
        (self.hold_of(state), false)
    }

    /// Ends the journal, by its last line if nothing is kept for the next life.
    fn end_journal(&self, mut hold: Hold<'_>) {
        let Some(mut file) = hold.state.own.disk.file.take() else {
            return;
        };
        let (keeps, len) = (hold.state.own.keeps, hold.state.board.len());
        drop(hold);
        if keeps {
            return; // all is synced
        }
        let ended = writeln!(file, "end {len}").and_then(|()| match &self.durable {
            Some(durable) if durable.sync == Sync::Data => file.sync_data(),
            _ => Ok(()),
        });
        if let Err(why) = ended {
            self.guarded.lock().own.disk.failed = Some(Arc::new(why));
        }
    }

    /// Lets the journal go, after its thread. Returns whether all of it was written.
    pub(crate) fn let_go(&self) -> Result<()> {
        let mut state = self.guarded.lock();
        let gone = (state.own.disk.file.take(), state.own.disk.lock.take());
        let failed = state.own.disk.failed.clone();
        drop(state);
        drop(gone);
        failed.map_or(Ok(()), |why| Err(Error::DiskFailed(why)))
    }
}
