//! The history: entries are handed out in buffers, and a thread writes them.
use super::{discard, Guarded, State};
use crate::ffi::Lines;
use std::collections::VecDeque;
use std::io::{self, Write};
use std::panic::{catch_unwind, AssertUnwindSafe};
use std::sync::PoisonError;
use std::time::Duration;

/// How long entries are kept at most before they are written.
pub(crate) const QUIET: Duration = Duration::from_millis(50);

/// How many full buffers of entries may wait to be written before calls wait for the journal.
pub(super) const MOST_FULL: usize = 4;

pub(crate) struct Journal {
    pub(crate) writes: bool,
    /// Whether an entry was made since the last look.
    pub(crate) armed: bool,
    pub(crate) over: bool,
    /// How many entries are handed out at a time, and how many there are at the next time.
    pub(super) most: u64,
    pub(crate) next: u64,
    pub(crate) spare: Vec<Lines>,
    pub(crate) full: VecDeque<Lines>,
}

/// How many entries a board keeps at most of which so many are handed out at a time. There is space for those of the
/// next call, and for the ends of all waits that were left.
pub(super) fn kept(most: u32, items: u16) -> u32 {
    most.saturating_add(2 * (u32::from(items) + 2) + 256)
}

impl Journal {
    pub(super) fn new(writes: bool, most: u32) -> Journal {
        let most = u64::from(most);
        Journal { writes, armed: !writes, over: false, most, next: most, spare: Vec::new(), full: VecDeque::new() }
    }

    /// Entries are written from now on.
    pub(crate) fn begin(&mut self) {
        (self.writes, self.armed) = (true, false);
    }

    /// Nothing is written any more.
    pub(crate) fn forget(&mut self) {
        (self.writes, self.armed) = (false, true);
        self.full.clear();
    }
}

impl<W, O> State<W, O> {
    /// Hands out what the board keeps: to the journal, or to nobody.
    pub(crate) fn hand_out(&mut self) {
        let spare = self.journal.spare.pop().map_or_else(|| Lines::open(&mut self.board), Ok);
        let Ok(mut lines) = spare else {
            panic!("out of memory");
        };
        let handed = self.board.hand_out(&mut lines);
        debug_assert!(handed.is_ok());
        self.journal.next = self.board.len() + self.journal.most;
        if self.journal.writes {
            self.journal.full.push_back(lines);
        } else {
            lines.forget();
            self.journal.spare.push(lines);
        }
    }

    /// All entries that are still to be written, those among them that the board keeps.
    pub(crate) fn take_all(&mut self) -> VecDeque<Lines> {
        if self.board.len() > self.journal.next - self.journal.most {
            self.hand_out();
        }
        std::mem::take(&mut self.journal.full)
    }
}

impl<W, O> Guarded<W, O> {
    /// What the journal's thread does. After a fault of the writer the history is dropped.
    pub(crate) fn keep_journal(&self, head: &[u8], mut writer: Box<dyn Write + Send>) -> io::Result<()> {
        let written = catch_unwind(AssertUnwindSafe(|| self.write_all(head, &mut *writer)));
        let mut state = self.lock();
        state.journal.forget();
        self.space.notify_all();
        drop(state);
        let dropped = discard(writer);
        match written {
            Ok(written) if !dropped || written.is_err() => written,
            Ok(_) => Err(io::Error::other("the writer has panicked when it was dropped")),
            Err(payload) => {
                discard(payload);
                Err(io::Error::other("the writer has panicked"))
            }
        }
    }

    fn write_all(&self, head: &[u8], writer: &mut dyn Write) -> io::Result<()> {
        writer.write_all(head)?;
        let mut text = vec![0; 1 << 16];
        loop {
            let mut state = self.lock();
            while state.journal.full.is_empty() && !state.journal.over {
                if !state.journal.armed {
                    state = self.journal.wait(state).unwrap_or_else(PoisonError::into_inner);
                    continue;
                }
                let waited = self.journal.wait_timeout(state, QUIET).unwrap_or_else(PoisonError::into_inner);
                state = waited.0;
                if waited.1.timed_out() && state.journal.full.is_empty() {
                    state.hand_out();
                    state.journal.armed = false;
                }
            }
            let Some(mut lines) = state.journal.full.pop_front() else {
                writeln!(writer, "end {}", state.board.len())?;
                return writer.flush();
            };
            let is_last = state.journal.full.is_empty();
            drop(state);
            loop {
                match lines.write(&mut text) {
                    Ok(len) if len > 0 => writer.write_all(&text[..len])?,
                    _ => break,
                }
            }
            if is_last {
                writer.flush()?;
            }
            self.lock().journal.spare.push(lines);
            self.space.notify_all();
        }
    }
}
