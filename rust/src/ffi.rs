//! The calls of `cmwq.h`, and types that close what they open. All `unsafe` code of the crate is in this file.
use std::alloc::{alloc, dealloc, realloc, Layout};
use std::ffi::{c_int, c_void};
use std::fs::File;
use std::io;
use std::os::fd::AsRawFd;
use std::ptr::null_mut;

/// The counts of a [`Book`](crate::book::Book): how many items, CPUs, workers and callers there are, and how long its
/// history may be.
#[repr(C)]
#[derive(Clone, Copy, Debug, Default, PartialEq, Eq)]
pub struct Shape {
    /// How many entries the history may have, with those that are owed: up to 2^62.
    pub room: u64,
    /// How many entries are kept at once.
    pub keep: u32,
    /// 1 to 65,535.
    pub items: u16,
    /// 1 to 64.
    pub cpus: u8,
    /// How many workers each of a CPU's two pools has: 1 to 64.
    pub workers: u8,
    /// 1 to 255.
    pub callers: u8,
}

#[repr(C)]
#[derive(Clone, Copy, Debug, Default, PartialEq, Eq)]
pub struct QueueShape {
    pub max_active: u16,
    pub high: u8,
    pub intensive: u8,
    pub freezable: u8,
}

#[repr(C)]
#[derive(Clone, Copy, Debug, Default, PartialEq, Eq)]
pub struct Who {
    pub kind: u8,
    pub index: u8,
    pub cpu: u8,
}

pub const CALLER: u8 = 0;
pub const WORKER: u8 = 1;
pub const HIGH_WORKER: u8 = 2;

#[repr(C)]
#[derive(Clone, Copy, Debug, Default)]
pub struct Call {
    pub ticket: u64,
    pub number: u32,
    pub item: u16,
    pub kind: u8,
    pub queue: u8,
    pub cpu: u8,
    pub who: Who,
}

#[repr(C)]
#[derive(Clone, Copy, Debug, Default)]
pub struct Reply {
    pub number: u64,
    pub other: u64,
    pub item: u16,
    pub kind: u8,
}

#[repr(C)]
#[derive(Clone, Copy, Debug, Default)]
pub struct Entry {
    pub serial: u64,
    pub call: Call,
    pub reply: Reply,
}

const NAMED: usize = 8;
const NOBODY: u8 = 255;

/// Whom to wake.
#[repr(C)]
#[derive(Clone, Copy, Debug)]
pub struct Wakes {
    workers: [Who; NAMED],
    callers: [u8; NAMED],
    all_workers: u8,
    all_callers: u8,
    clock: u8,
}

impl Wakes {
    pub const NOBODY: Wakes = Wakes {
        workers: [Who { kind: NOBODY, index: NOBODY, cpu: NOBODY }; NAMED],
        callers: [NOBODY; NAMED],
        all_workers: 0,
        all_callers: 0,
        clock: 0,
    };

    #[inline]
    pub fn workers(&self) -> impl Iterator<Item = &Who> {
        self.workers.iter().take_while(|worker| worker.kind != NOBODY)
    }

    #[inline]
    pub fn callers(&self) -> impl Iterator<Item = &u8> {
        self.callers.iter().take_while(|caller| **caller != NOBODY)
    }

    /// Whether all workers, or all callers, are named in place of those.
    #[inline]
    pub fn all(&self) -> bool {
        self.all_workers != 0 || self.all_callers != 0
    }

    /// Whether the clock is named: a timer may fire earlier than was known.
    #[inline]
    pub fn clock(&self) -> bool {
        self.clock != 0
    }
}

/// What an item does.
#[repr(C)]
#[derive(Clone, Copy, Debug, Default)]
pub struct ItemState {
    /// Of its queueing that has not started; or the tick at which its timer is due.
    pub number: u64,
    pub run: u64,
    pub pending: u8,
    pub queue: u8,
    pub cpu: u8,
    pub runs: u8,
    pub worker: Who,
}

pub const PENDING_TIMER: u8 = 1;

const _: () = {
    use std::mem::size_of;
    assert!(size_of::<Shape>() == 24 && size_of::<QueueShape>() == 6 && size_of::<Who>() == 3);
    assert!(size_of::<Call>() == 24 && size_of::<Reply>() == 24 && size_of::<Entry>() == 56);
    assert!(size_of::<Wakes>() == 35 && size_of::<ItemState>() == 24 && size_of::<Handle>() == 16);
};

macro_rules! numbered {
    ($type:ty: $($name:ident)*) => { numbered!(@ $type, 0; $($name)*); };
    (@ $type:ty, $number:expr; $name:ident $($rest:ident)*) => {
        #[allow(dead_code)]
        pub const $name: $type = $number;
        numbered!(@ $type, $number + 1; $($rest)*);
    };
    (@ $type:ty, $number:expr;) => {};
}

/// `enum cmwq_kind`
pub mod call {
    numbered!(u8: QUEUE DELAY MODIFY CANCEL TICK FIRE FLUSH DRAIN FLUSH_ITEM FLUSH_DELAYED CANCEL_SYNC END TAKE FINISH
        SLEEP WAKE RETIRE SET_MAX FREEZE THAW DESTROY);
    const _: () = assert!(DESTROY == 20);
}

/// `enum cmwq_reply_kind`
pub mod reply {
    numbered!(u8: YES BOOKED AGAIN REBOOKED NO FOREIGN DRAINING MISUSE CANCELLED UNBOOKED NOW FIRED NOTHING TICKET
        TICKET_QUEUED TICKET_CANCELLED TICKET_UNBOOKED TICKET_NO IDLE CROWD DONE WAITING STARTED STARTED_ENLIST HELD
        FINISHED SLEPT WOKE RETIRED KEPT WIDTH FROZEN THAWED GONE TIMERS);
    const _: () = assert!(TIMERS == 34);
}

/// `enum cmwq_status`
pub mod status {
    numbered!(u32: OK REFUSED CLOSED FULL NO_MEMORY SHORT CROWDED ILLEGAL STOPPED FAILED NOT_NOW ITSELF DEADLOCK
        NO_CALLER WAITS RESTS OVER LOOK_AGAIN);
    const _: () = assert!(LOOK_AGAIN == 17);
}

/// `enum cmwq_news`
pub mod news {
    pub const LEFT_ENDED: u32 = 1;
}

/// A status other than that the call was made.
pub type Fault = u32;

/// No line that the library writes is longer.
pub const LINE: usize = 256;

#[repr(C)]
struct Handle {
    at: *mut c_void,
    live: bool,
}

impl Handle {
    const NONE: Handle = Handle { at: null_mut(), live: false };
}

type Text = *const u8;

extern "C" {
    fn cmwq_version() -> u32;
    fn cmwq_check(text: Text, len: usize, out: *mut u8, out_len: usize, written: *mut usize) -> u32;

    fn cmwq_open(book: *mut Handle, shape: *const Shape, queues: *const QueueShape, len: usize) -> u32;
    fn cmwq_close(book: *mut Handle);
    fn cmwq_step(book: *mut Handle, call: *const Call, reply: *mut Reply) -> u32;
    fn cmwq_would(book: *mut Handle, call: *const Call, reply: *mut Reply) -> u32;
    fn cmwq_step_line(b: *mut Handle, line: Text, len: usize, out: *mut u8, out_len: usize, w: *mut usize) -> u32;
    fn cmwq_ready(book: *mut Handle, ticket: u64) -> bool;
    fn cmwq_bits(book: *mut Handle, item: u16, bits: *mut u8) -> u32;
    fn cmwq_serial(book: *mut Handle, who: *const Who, serial: *mut u64) -> u32;
    fn cmwq_len(book: *mut Handle) -> u64;
    fn cmwq_room_left(book: *mut Handle) -> u64;
    fn cmwq_first(book: *mut Handle) -> u64;
    fn cmwq_open_count(book: *mut Handle) -> u32;
    fn cmwq_active_count(book: *mut Handle) -> u32;
    fn cmwq_entry(book: *mut Handle, number: u64, entry: *mut Entry) -> u32;
    fn cmwq_entry_line(book: *mut Handle, number: u64, out: *mut u8, out_len: usize, written: *mut usize) -> u32;
    fn cmwq_forget(book: *mut Handle) -> u32;

    fn cmwq_board_open(b: *mut Handle, shape: *const Shape, queues: *const QueueShape, len: usize, lent: u8) -> u32;
    fn cmwq_board_close(board: *mut Handle);
    fn cmwq_board_call(board: *mut Handle, call: *const Call, reply: *mut Reply, wakes: *mut Wakes) -> u32;
    fn cmwq_board_start(b: *mut Handle, worker: *const Who, item: *mut u16, number: *mut u64, w: *mut Wakes) -> u32;
    fn cmwq_board_finish(board: *mut Handle, worker: *const Who, wakes: *mut Wakes) -> u32;
    fn cmwq_board_begin(b: *mut Handle, call: *const Call, party: *mut u8, reply: *mut Reply, w: *mut Wakes) -> u32;
    fn cmwq_board_end(board: *mut Handle, party: u8, wakes: *mut Wakes) -> u32;
    fn cmwq_board_leave(board: *mut Handle, party: u8, wakes: *mut Wakes) -> u32;
    fn cmwq_board_advance(board: *mut Handle, caller: u8, ticks: u32, now: *mut u64, wakes: *mut Wakes) -> u32;
    fn cmwq_board_time(board: *mut Handle) -> u64;
    fn cmwq_board_due(board: *mut Handle) -> u64;
    fn cmwq_board_news(board: *mut Handle) -> u32;
    fn cmwq_board_item(board: *mut Handle, item: u16, state: *mut ItemState) -> u32;
    fn cmwq_board_stop(board: *mut Handle, wakes: *mut Wakes) -> u32;
    fn cmwq_board_fail(board: *mut Handle, wakes: *mut Wakes) -> u32;
    fn cmwq_board_len(board: *mut Handle) -> u64;
    fn cmwq_board_hand_out(board: *mut Handle, lines: *mut Handle) -> u32;
    fn cmwq_lines_open(lines: *mut Handle, board: *mut Handle) -> u32;
    fn cmwq_lines_close(lines: *mut Handle);
    fn cmwq_lines_write(lines: *mut Handle, out: *mut u8, out_len: usize, written: *mut usize) -> u32;
    fn cmwq_lines_forget(lines: *mut Handle) -> u32;
    fn cmwq_resume(
        text: Text,
        len: usize,
        left_out: *const u8,
        left_out_len: usize,
        shape: *mut Shape,
        queues: *mut usize,
        calls: *mut Call,
        calls_len: usize,
        count: *mut usize,
        line: *mut u64,
    ) -> u32;
    fn cmwq_head(s: *const Shape, q: *const QueueShape, len: usize, out: *mut u8, out_len: usize, w: *mut usize)
        -> u32;
}

/// `Ok` of a value where the status is that the call was made.
#[inline]
fn made<T>(status: u32, value: T) -> Result<T, Fault> {
    if status == status::OK {
        Ok(value)
    } else {
        Err(status)
    }
}

/// The version of the library.
pub fn version() -> u32 {
    // SAFETY: it takes nothing
    unsafe { cmwq_version() }
}

/// Judges a history. The status is `OK` or `ILLEGAL`, with the line that says so.
pub fn check(history: &[u8]) -> Result<(bool, String), Fault> {
    let (mut out, mut written) = ([0; LINE], 0);
    // SAFETY: the lengths are those of the slices
    let status = unsafe { cmwq_check(history.as_ptr(), history.len(), out.as_mut_ptr(), LINE, &mut written) };
    match status {
        status::OK | status::ILLEGAL => Ok((status == status::OK, text(&out[..written]))),
        fault => Err(fault),
    }
}

fn text(line: &[u8]) -> String {
    String::from_utf8_lossy(line).into_owned()
}

/// The lines that begin a history of this shape.
pub fn head(shape: &Shape, queues: &[QueueShape]) -> Result<Vec<u8>, Fault> {
    let (mut out, mut written) = (vec![0; LINE * (2 + queues.len())], 0);
    // SAFETY: the lengths are those of the slices
    let status = unsafe { cmwq_head(shape, queues.as_ptr(), queues.len(), out.as_mut_ptr(), out.len(), &mut written) };
    out.truncate(written);
    made(status, out)
}

/// What an old history left: the calls that resume it, and the shape that it has.
pub struct Left {
    pub shape: Shape,
    pub queues: usize,
    pub calls: Vec<Call>,
}

/// No history leaves more calls.
const MOST_LEFT: usize = 3 * u8::MAX as usize + u16::MAX as usize + 2;

/// The calls that resume this history, or the front of one, without the runs of these items that were broken off. At a
/// fault there is the number of the line that is wrong, or 0.
pub fn resume(history: &[u8], left_out: &[u8]) -> Result<Left, (Fault, u64)> {
    let (mut shape, mut queues, mut count, mut line) = (Shape::default(), 0, 0, 0);
    let mut calls = vec![Call::default(); MOST_LEFT];
    // SAFETY: the lengths are those of the slices, and the other pointers are of references
    let status = unsafe {
        cmwq_resume(
            history.as_ptr(),
            history.len(),
            left_out.as_ptr(),
            left_out.len(),
            &mut shape,
            &mut queues,
            calls.as_mut_ptr(),
            calls.len(),
            &mut count,
            &mut line,
        )
    };
    made(status, ()).map_err(|fault| (fault, line))?;
    calls.truncate(count);
    Ok(Left { shape, queues, calls })
}

// ---- the system ----

extern "C" {
    fn flock(fd: c_int, operation: c_int) -> c_int;
}

const LOCK_EX: c_int = 2;
const LOCK_NB: c_int = 4;

/// Locks a file, by `flock()`, until it is closed. An error of kind `WouldBlock` says that somebody else has it locked.
pub fn lock(file: &File) -> io::Result<()> {
    // SAFETY: the file is open, and the call takes numbers alone
    match unsafe { flock(file.as_raw_fd(), LOCK_EX | LOCK_NB) } {
        0 => Ok(()),
        _ => Err(io::Error::last_os_error()),
    }
}

// ---- the heap ----

#[repr(C)]
pub struct Block {
    ok: bool,
    at: *mut c_void,
}

impl Block {
    fn of(at: *mut u8, size: usize, or: *mut c_void) -> Block {
        if at.is_null() {
            return Block { ok: false, at: or };
        }
        // SAFETY: the block begins with its head, and has `size` bytes after it
        let at = unsafe {
            at.cast::<usize>().write(size);
            at.add(HEAD)
        };
        Block { ok: true, at: at.cast() }
    }
}

/// The size of a block stands before it. This keeps the alignment, which is at most 16.
const HEAD: usize = 16;

fn layout(size: usize) -> Option<Layout> {
    Layout::from_size_align(size.checked_add(HEAD)?, 16).ok()
}

#[no_mangle]
extern "C" fn rattle_alloc(size: usize, _align: usize) -> Block {
    // SAFETY: no layout is of size 0
    let at = layout(size).map_or(null_mut(), |layout| unsafe { alloc(layout) });
    Block::of(at, size, null_mut())
}

#[no_mangle]
extern "C" fn rattle_realloc(old: *mut c_void, _kept: usize, size: usize, _align: usize) -> Block {
    // SAFETY: the library gives back what `rattle_alloc` gave, whose size stands before it
    let at = unsafe {
        let whole = old.cast::<u8>().sub(HEAD);
        let before = whole.cast::<usize>().read();
        match (layout(before), layout(size)) {
            (Some(before), Some(after)) => realloc(whole, before, after.size()),
            _ => null_mut(),
        }
    };
    Block::of(at, size, old)
}

#[no_mangle]
extern "C" fn rattle_dealloc(at: *mut c_void) {
    // SAFETY: the library gives back what `rattle_alloc` gave, whose size stands before it
    unsafe {
        let whole = at.cast::<u8>().sub(HEAD);
        if let Some(layout) = layout(whole.cast::<usize>().read()) {
            dealloc(whole, layout);
        }
    }
}

// ---- a hub without threads ----

/// A hub without threads. It is closed when it is dropped.
pub struct Board(Handle);

// SAFETY: the library has no state of its own, and `&mut self` says that there is one call at a time
unsafe impl Send for Board {}

/// What a worker does next.
pub enum Start {
    /// It runs this item.
    Runs(u16),
    /// It sleeps until it is named.
    Rests,
    Over,
}

/// What becomes of a wait.
pub enum Begun {
    Ended(Reply),
    /// It goes on, by this caller.
    Waits(u8, Reply),
}

#[derive(PartialEq)]
pub enum Ended {
    Done,
    /// The party sleeps until it is named.
    Waits,
    LookAgain,
    Over,
}

impl Board {
    pub fn open(shape: &Shape, queues: &[QueueShape], lent: u8) -> Result<Board, Fault> {
        let mut handle = Handle::NONE;
        // SAFETY: the handle is all zeros, and the length is that of the slice
        let status = unsafe { cmwq_board_open(&mut handle, shape, queues.as_ptr(), queues.len(), lent) };
        made(status, Board(handle))
    }

    #[inline]
    pub fn call(&mut self, call: &Call, wakes: &mut Wakes) -> Result<Reply, Fault> {
        let mut reply = Reply::default();
        // SAFETY: the handle has a board, and the pointers are of references; so in all calls below
        let status = unsafe { cmwq_board_call(&mut self.0, call, &mut reply, wakes) };
        made(status, reply)
    }

    #[inline]
    pub fn start(&mut self, worker: &Who, wakes: &mut Wakes) -> Result<Start, Fault> {
        let (mut item, mut number) = (0, 0);
        // SAFETY: see `call`
        match unsafe { cmwq_board_start(&mut self.0, worker, &mut item, &mut number, wakes) } {
            status::OK => Ok(Start::Runs(item)),
            status::RESTS => Ok(Start::Rests),
            status::OVER => Ok(Start::Over),
            fault => Err(fault),
        }
    }

    #[inline]
    pub fn finish(&mut self, worker: &Who, wakes: &mut Wakes) -> Result<(), Fault> {
        // SAFETY: see `call`
        made(unsafe { cmwq_board_finish(&mut self.0, worker, wakes) }, ())
    }

    pub fn begin(&mut self, call: &Call, wakes: &mut Wakes) -> Result<Begun, Fault> {
        let (mut party, mut reply) = (0, Reply::default());
        // SAFETY: see `call`
        match unsafe { cmwq_board_begin(&mut self.0, call, &mut party, &mut reply, wakes) } {
            status::OK => Ok(Begun::Ended(reply)),
            status::WAITS => Ok(Begun::Waits(party, reply)),
            fault => Err(fault),
        }
    }

    pub fn end(&mut self, party: u8, wakes: &mut Wakes) -> Result<Ended, Fault> {
        // SAFETY: see `call`
        match unsafe { cmwq_board_end(&mut self.0, party, wakes) } {
            status::OK => Ok(Ended::Done),
            status::WAITS => Ok(Ended::Waits),
            status::LOOK_AGAIN => Ok(Ended::LookAgain),
            status::OVER => Ok(Ended::Over),
            fault => Err(fault),
        }
    }

    pub fn leave(&mut self, party: u8, wakes: &mut Wakes) -> Result<(), Fault> {
        // SAFETY: see `call`
        made(unsafe { cmwq_board_leave(&mut self.0, party, wakes) }, ())
    }

    pub fn advance(&mut self, caller: u8, ticks: u32, wakes: &mut Wakes) -> Result<u64, Fault> {
        let mut now = 0;
        // SAFETY: see `call`
        let status = unsafe { cmwq_board_advance(&mut self.0, caller, ticks, &mut now, wakes) };
        made(status, now)
    }

    pub fn time(&mut self) -> u64 {
        // SAFETY: see `call`
        unsafe { cmwq_board_time(&mut self.0) }
    }

    /// The least tick at which a timer may fire.
    pub fn due(&mut self) -> u64 {
        // SAFETY: see `call`
        unsafe { cmwq_board_due(&mut self.0) }
    }

    /// Whether a ticket that was left has ended since this was asked last.
    pub fn has_ended_left(&mut self) -> bool {
        // SAFETY: see `call`
        unsafe { cmwq_board_news(&mut self.0) & news::LEFT_ENDED != 0 }
    }

    pub fn item(&mut self, item: u16) -> ItemState {
        let mut state = ItemState::default();
        // SAFETY: see `call`
        unsafe { cmwq_board_item(&mut self.0, item, &mut state) };
        state
    }

    pub fn stop(&mut self, wakes: &mut Wakes) -> Result<(), Fault> {
        // SAFETY: see `call`
        made(unsafe { cmwq_board_stop(&mut self.0, wakes) }, ())
    }

    pub fn fail(&mut self, wakes: &mut Wakes) -> Result<(), Fault> {
        // SAFETY: see `call`
        made(unsafe { cmwq_board_fail(&mut self.0, wakes) }, ())
    }

    pub fn len(&mut self) -> u64 {
        // SAFETY: see `call`
        unsafe { cmwq_board_len(&mut self.0) }
    }

    /// The lines take all entries that are kept, if they have none themselves.
    pub fn hand_out(&mut self, lines: &mut Lines) -> Result<(), Fault> {
        // SAFETY: see `call`; the lines are of this handle
        made(unsafe { cmwq_board_hand_out(&mut self.0, &mut lines.0) }, ())
    }
}

impl Drop for Board {
    fn drop(&mut self) {
        // SAFETY: the handle is one that `cmwq_board_open` made
        unsafe { cmwq_board_close(&mut self.0) }
    }
}

/// Entries that were handed out.
pub struct Lines(Handle);

// SAFETY: as of `Board`
unsafe impl Send for Lines {}

impl Lines {
    pub fn open(board: &mut Board) -> Result<Lines, Fault> {
        let mut handle = Handle::NONE;
        // SAFETY: the handle is all zeros, and the other has a board
        let status = unsafe { cmwq_lines_open(&mut handle, &mut board.0) };
        made(status, Lines(handle))
    }

    /// Writes as many whole lines as fit, and returns their length: 0 if none are left.
    pub fn write(&mut self, out: &mut [u8]) -> Result<usize, Fault> {
        let mut written = 0;
        // SAFETY: the handle has lines, and the length is that of the slice
        let status = unsafe { cmwq_lines_write(&mut self.0, out.as_mut_ptr(), out.len(), &mut written) };
        made(status, written)
    }

    pub fn forget(&mut self) {
        // SAFETY: the handle has lines
        unsafe { cmwq_lines_forget(&mut self.0) };
    }
}

impl Drop for Lines {
    fn drop(&mut self) {
        // SAFETY: the handle is one that `cmwq_lines_open` made
        unsafe { cmwq_lines_close(&mut self.0) }
    }
}

// ---- the Book ----

/// A book. It is closed when it is dropped.
pub struct RawBook(Handle);

// SAFETY: as of `Board`
unsafe impl Send for RawBook {}

impl RawBook {
    pub fn open(shape: &Shape, queues: &[QueueShape]) -> Result<RawBook, Fault> {
        let mut handle = Handle::NONE;
        // SAFETY: the handle is all zeros, and the length is that of the slice
        let status = unsafe { cmwq_open(&mut handle, shape, queues.as_ptr(), queues.len()) };
        made(status, RawBook(handle))
    }

    #[inline]
    pub fn step(&mut self, call: &Call) -> Result<Reply, Fault> {
        let mut reply = Reply::default();
        // SAFETY: the handle has a book, and the pointers are of references; so in all calls below
        made(unsafe { cmwq_step(&mut self.0, call, &mut reply) }, reply)
    }

    #[inline]
    pub fn would(&mut self, call: &Call) -> Result<Reply, Fault> {
        let mut reply = Reply::default();
        // SAFETY: see `step`
        made(unsafe { cmwq_would(&mut self.0, call, &mut reply) }, reply)
    }

    pub fn step_line(&mut self, line: &str) -> Result<String, Fault> {
        let (mut out, mut written) = ([0; LINE], 0);
        // SAFETY: the lengths are those of the slices
        let status =
            unsafe { cmwq_step_line(&mut self.0, line.as_ptr(), line.len(), out.as_mut_ptr(), LINE, &mut written) };
        made(status, ()).map(|()| text(&out[..written]))
    }

    pub fn ready(&mut self, ticket: u64) -> bool {
        // SAFETY: see `step`
        unsafe { cmwq_ready(&mut self.0, ticket) }
    }

    pub fn bits(&mut self, item: u16) -> Result<u8, Fault> {
        let mut bits = 0;
        // SAFETY: see `step`
        made(unsafe { cmwq_bits(&mut self.0, item, &mut bits) }, ()).map(|()| bits)
    }

    pub fn serial(&mut self, who: &Who) -> Result<u64, Fault> {
        let mut serial = 0;
        // SAFETY: see `step`
        made(unsafe { cmwq_serial(&mut self.0, who, &mut serial) }, ()).map(|()| serial)
    }

    pub fn len(&mut self) -> u64 {
        // SAFETY: see `step`
        unsafe { cmwq_len(&mut self.0) }
    }

    pub fn room_left(&mut self) -> u64 {
        // SAFETY: see `step`
        unsafe { cmwq_room_left(&mut self.0) }
    }

    pub fn first(&mut self) -> u64 {
        // SAFETY: see `step`
        unsafe { cmwq_first(&mut self.0) }
    }

    pub fn open_count(&mut self) -> u32 {
        // SAFETY: see `step`
        unsafe { cmwq_open_count(&mut self.0) }
    }

    pub fn active_count(&mut self) -> u32 {
        // SAFETY: see `step`
        unsafe { cmwq_active_count(&mut self.0) }
    }

    pub fn entry(&mut self, number: u64) -> Result<Entry, Fault> {
        let mut entry = Entry::default();
        // SAFETY: see `step`
        made(unsafe { cmwq_entry(&mut self.0, number, &mut entry) }, ()).map(|()| entry)
    }

    pub fn entry_line(&mut self, number: u64) -> Result<String, Fault> {
        let (mut out, mut written) = ([0; LINE], 0);
        // SAFETY: the length is that of the array
        let status = unsafe { cmwq_entry_line(&mut self.0, number, out.as_mut_ptr(), LINE, &mut written) };
        made(status, ()).map(|()| text(&out[..written]))
    }

    pub fn forget(&mut self) {
        // SAFETY: see `step`
        unsafe { cmwq_forget(&mut self.0) };
    }
}

impl Drop for RawBook {
    fn drop(&mut self) {
        // SAFETY: the handle is one that `cmwq_open` made
        unsafe { cmwq_close(&mut self.0) }
    }
}
