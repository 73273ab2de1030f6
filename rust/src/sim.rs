//! Schedules of the board in one thread: parties move in an order that follows from a seed, each for one hold of the
//! lock. After each move each entry is the one that a Book makes of its call, and nobody sleeps who could go on. In the
//! end everything has ended, and the history is legal. There are 10,000 seeds with the feature `schedules`, and a few
//! without it. CMWQ_SEEDS says how many there are, CMWQ_FIRST the first.
use crate::ffi::{call, reply, status, Call, Fault, Lines, QueueShape, RawBook, Reply, Shape, Wakes, Who};
use crate::ffi::{Begun, Board, Ended, Start, HIGH_WORKER, PENDING_TIMER, WORKER};

struct Random(u64);

impl Random {
    fn next(&mut self) -> u64 {
        self.0 ^= self.0 << 13;
        self.0 ^= self.0 >> 7;
        self.0 ^= self.0 << 17;
        self.0.wrapping_mul(0x2545_f491_4f6c_dd1d) >> 11
    }

    fn below(&mut self, most: usize) -> usize {
        (self.next() % most as u64) as usize
    }
}

#[derive(Clone, Copy, Debug)]
enum State {
    /// It may move.
    Ready,
    /// A worker that rests.
    Rests,
    /// A worker in a run, with so many moves to come, which sleeps or is awake.
    Runs {
        left: usize,
        sleeps: bool,
    },
    /// A wait by this caller, with the run that it belongs to.
    Waits {
        party: u8,
        ticket: u64,
        run: Option<(usize, bool)>,
    },
    Gone,
}

const ITEMS: u16 = 10;

struct Sim {
    board: Board,
    lines: Lines,
    book: RawBook,
    history: Vec<u8>,
    random: Random,
    queues: usize,
    shape: Shape,
    widths: Vec<u32>,
    workers: Vec<Who>,
    /// Of the workers, and then of the callers.
    states: Vec<State>,
    /// How many moves the callers have left.
    left: Vec<usize>,
    /// Who was told to sleep, and was not named since: workers, and lent callers by their numbers.
    asleep: (Vec<bool>, [bool; 256]),
    stops: bool,
    stopped: bool,
    failed: bool,
    crowd: bool,
    waited: usize,
    refused: usize,
    departed: usize,
}

impl Sim {
    fn new(seed: u64) -> Sim {
        let mut random = Random(seed.wrapping_mul(0x9e37_79b9_7f4a_7c15) | 1);
        (0..4).for_each(|_| _ = random.next());
        let flag = |random: &mut Random| random.below(2) as u8;
        let queues: Vec<QueueShape> = (0..1 + random.below(3))
            .map(|_| QueueShape {
                max_active: 1 + random.below(3) as u16,
                high: flag(&mut random),
                intensive: flag(&mut random),
                freezable: flag(&mut random),
            })
            .collect();
        // so many callers that flushes are in overflow, or few
        let crowd = random.below(8) == 0;
        let callers = if crowd { 18 + random.below(8) } else { 1 + random.below(4) };
        let lent = if crowd { 40 } else { 1 + random.below(6) as u8 };
        let shape = Shape {
            // mostly more than is ever used
            room: if random.below(5) == 0 { 50 + random.below(200) as u64 } else { 1 << 40 },
            keep: 3 * (u32::from(ITEMS) + 2) + random.below(40) as u32,
            items: ITEMS,
            cpus: 1 + random.below(2) as u8,
            workers: 1 + random.below(5) as u8,
            callers: 1 + lent,
        };
        let mut board = Board::open(&shape, &queues, lent).unwrap();
        let workers: Vec<Who> = (0..shape.cpus)
            .flat_map(|cpu| [(cpu, WORKER), (cpu, HIGH_WORKER)])
            .flat_map(|(cpu, kind)| (0..shape.workers).map(move |index| Who { kind, index, cpu }))
            .collect();
        Sim {
            lines: Lines::open(&mut board).unwrap(),
            board,
            book: RawBook::open(&Shape { keep: 1 << 10, ..shape }, &queues).unwrap(),
            history: crate::ffi::head(&shape, &queues).unwrap(),
            queues: queues.len(),
            shape,
            widths: queues.iter().map(|queue| u32::from(queue.max_active)).collect(),
            states: vec![State::Ready; workers.len() + callers],
            left: (0..callers).map(|_| 5 + random.below(30)).collect(),
            asleep: (vec![false; workers.len()], [false; 256]),
            workers,
            stops: random.below(4) == 0,
            stopped: false,
            failed: false,
            crowd,
            waited: 0,
            refused: 0,
            departed: 0,
            random,
        }
    }

    /// Makes a call as the shell does.
    fn make<T>(&mut self, call: impl Fn(&mut Board, &mut Wakes) -> Result<T, Fault>) -> Result<T, Fault> {
        let mut wakes = Wakes::NOBODY;
        let mut made = call(&mut self.board, &mut wakes);
        if let Err(status::CROWDED) = made {
            self.take_out();
            made = call(&mut self.board, &mut wakes);
            assert!(!matches!(made, Err(status::CROWDED)), "crowded twice");
        }
        let workers = &self.workers;
        for worker in wakes.workers() {
            let at = workers.iter().position(|own| own == worker).expect("a worker of the shape");
            self.asleep.0[at] = false;
        }
        for caller in wakes.callers() {
            self.asleep.1[usize::from(*caller)] = false;
        }
        if wakes.all() {
            self.asleep = (vec![false; workers.len()], [false; 256]);
        }
        made
    }

    /// Takes the entries out, and makes their calls in the Book.
    fn take_out(&mut self) {
        self.board.hand_out(&mut self.lines).unwrap();
        let (mut text, from) = (vec![0; 4096], self.history.len());
        loop {
            match self.lines.write(&mut text).unwrap() {
                0 => break,
                len => self.history.extend_from_slice(&text[..len]),
            }
        }
        for line in std::str::from_utf8(&self.history[from..]).unwrap().lines() {
            let (made, _) = line.split_once(" = ").unwrap();
            let mut words = made.splitn(3, ' ');
            let (who, _, call) = (words.next().unwrap(), words.next(), words.next().unwrap());
            let stepped = self.book.step_line(&format!("{who} {call}"));
            assert_eq!(stepped.as_deref().map(str::trim_end), Ok(line));
            self.book.forget();
        }
    }

    fn call(&mut self, call: Call) -> Result<Reply, Fault> {
        self.make(|board, wakes| board.call(&call, wakes))
    }

    /// One call of a caller, or of a run. Returns the caller and the ticket, if it waits.
    fn act(&mut self, run: Option<Who>) -> Option<(u8, u64)> {
        let who = run.unwrap_or_default();
        let item = self.random.below(usize::from(ITEMS)) as u16;
        let queue = if self.crowd { 0 } else { self.random.below(self.queues) as u8 };
        let cpu = self.random.below(usize::from(self.shape.cpus)) as u8;
        let call = Call { who, item, queue, cpu, ..Call::default() };
        let is_flush = self.crowd && run.is_none() && self.random.below(3) > 0;
        let kind = match if is_flush { 12 } else { self.random.below(14) } {
            0..=4 => return self.puts(Call { kind: call::QUEUE, ..call }),
            5 => {
                let number = self.random.below(3) as u32;
                return self.puts(Call { kind: call::MODIFY, number, ..call });
            }
            6 => {
                let number = 1 + self.random.below(5) as u32;
                return self.puts(Call { kind: call::DELAY, number, ..call });
            }
            7 => return self.puts(Call { kind: call::CANCEL, ..call }),
            8 if run.is_none() && self.random.below(3) == 0 => {
                let kind = if self.random.below(2) == 0 { call::FREEZE } else { call::THAW };
                return self.puts(Call { kind, who, ..Call::default() });
            }
            8 if run.is_none() && self.stops && self.random.below(4) == 0 => {
                self.stop();
                return None;
            }
            8 if run.is_none() => {
                // only wider: a smaller width may hold up what runs wait for already
                self.widths[usize::from(queue)] += 1;
                let number = self.widths[usize::from(queue)];
                return self.puts(Call { kind: call::SET_MAX, queue, number, who, ..Call::default() });
            }
            8 | 9 => call::FLUSH_ITEM,
            10 => call::FLUSH_DELAYED,
            11 => call::CANCEL_SYNC,
            12 => call::FLUSH,
            _ if run.is_none() && self.random.below(10) == 0 => call::DESTROY,
            _ if run.is_none() => call::DRAIN,
            _ => call::FLUSH,
        };
        let call = Call { kind, ..call };
        match self.make(|board, wakes| board.begin(&call, wakes)) {
            Ok(Begun::Waits(party, reply)) => {
                self.waited += 1;
                Some((party, reply.number))
            }
            Ok(Begun::Ended(_)) => None,
            Err(status::DEADLOCK | status::ITSELF) => {
                assert!(run.is_some());
                self.refused += 1;
                None
            }
            Err(fault) => {
                assert!(matches!(fault, status::FULL | status::STOPPED | status::NO_CALLER), "begin: {fault}");
                None
            }
        }
    }

    fn puts(&mut self, call: Call) -> Option<(u8, u64)> {
        if let Err(fault) = self.call(call) {
            assert!(matches!(fault, status::FULL | status::STOPPED), "call: {fault}");
        }
        None
    }

    /// As the shell does.
    fn stop(&mut self) {
        if self.stopped {
            return;
        }
        let _ = self.call(Call { kind: call::THAW, ..Call::default() });
        for item in 0..ITEMS {
            if self.board.item(item).pending == PENDING_TIMER {
                self.call(Call { kind: call::CANCEL, item, ..Call::default() }).unwrap();
            }
        }
        self.make(Board::stop).unwrap();
        self.stopped = true;
    }

    fn starts(&mut self, at: usize) -> State {
        let who = self.workers[at];
        match self.make(|board, wakes| board.start(&who, wakes)).unwrap() {
            Start::Runs(_) => State::Runs { left: self.random.below(4), sleeps: false },
            Start::Rests => {
                self.asleep.0[at] = true;
                State::Rests
            }
            Start::Over => State::Gone,
        }
    }

    /// A wait begins, or is looked at again.
    fn ends(&mut self, (party, ticket): (u8, u64), run: Option<(usize, bool)>) -> State {
        let over = match run {
            Some((left, sleeps)) => State::Runs { left, sleeps },
            None => State::Ready,
        };
        match self.make(|board, wakes| board.end(party, wakes)) {
            Ok(Ended::Done) => over,
            Ok(Ended::Waits) => {
                if run.is_none() && self.random.below(20) == 0 {
                    self.departed += 1;
                    self.make(|board, wakes| board.leave(party, wakes)).unwrap();
                    return over;
                }
                self.asleep.1[usize::from(party)] = true;
                State::Waits { party, ticket, run }
            }
            Ok(Ended::LookAgain) => State::Waits { party, ticket, run },
            Ok(Ended::Over) => {
                assert!(self.stopped && run.is_none());
                over
            }
            Err(fault) => {
                assert!(self.failed && fault == status::FAILED, "end: {fault}");
                over
            }
        }
    }

    fn acts(&mut self, run: Option<(Who, usize, bool)>) -> State {
        let begun = self.act(run.map(|(who, ..)| who));
        let run = run.map(|(_, left, sleeps)| (left, sleeps));
        match (begun, run) {
            (Some(begun), run) => self.ends(begun, run),
            (None, Some((left, sleeps))) => State::Runs { left, sleeps },
            (None, None) => State::Ready,
        }
    }

    fn moves(&mut self, at: usize) {
        let who = self.workers.get(at).copied();
        self.states[at] = match (self.states[at], who) {
            (State::Ready | State::Rests, Some(_)) => self.starts(at),
            (State::Ready, None) => {
                self.left[at - self.workers.len()] -= 1;
                self.acts(None)
            }
            (State::Runs { left: 0, sleeps: false }, Some(who)) => {
                self.make(|board, wakes| board.finish(&who, wakes)).unwrap();
                // mostly in the same hold, as the shell does
                if self.random.below(4) > 0 {
                    self.starts(at)
                } else {
                    State::Ready
                }
            }
            (State::Runs { left, sleeps: true }, Some(who)) => {
                if left > 0 && self.random.below(3) == 0 {
                    self.acts_asleep(who, left - 1)
                } else {
                    let reply = self.call(Call { kind: call::WAKE, who, ..Call::default() }).unwrap();
                    assert_eq!(reply.kind, reply::WOKE);
                    State::Runs { left, sleeps: false }
                }
            }
            (State::Runs { left, sleeps }, Some(who)) => {
                if self.random.below(4) == 0 {
                    let slept = self.call(Call { kind: call::SLEEP, who, ..Call::default() });
                    State::Runs { left, sleeps: slept.is_ok() }
                } else {
                    self.acts(Some((who, left - 1, sleeps)))
                }
            }
            (State::Waits { party, ticket, run }, _) => self.ends((party, ticket), run),
            (state, _) => unreachable!("{state:?}"),
        };
    }

    /// A wait of a run that sleeps already, or a call of another thread meanwhile.
    fn acts_asleep(&mut self, who: Who, left: usize) -> State {
        let item = self.random.below(usize::from(ITEMS)) as u16;
        let call = Call { kind: call::FLUSH_ITEM, who, item, ..Call::default() };
        match self.make(|board, wakes| board.begin(&call, wakes)) {
            Ok(Begun::Waits(party, reply)) => self.ends((party, reply.number), Some((left, true))),
            _ => State::Runs { left, sleeps: true },
        }
    }

    fn may_move(&self, at: usize) -> bool {
        match self.states[at] {
            State::Ready => at < self.workers.len() || self.left[at - self.workers.len()] > 0,
            State::Rests => !self.asleep.0[at],
            State::Runs { .. } => true,
            State::Waits { party, .. } => !self.asleep.1[usize::from(party)],
            State::Gone => false,
        }
    }

    /// Whether a worker would start something now.
    fn would_start(&mut self, at: usize) -> bool {
        let take = Call { kind: call::TAKE, who: self.workers[at], ..Call::default() };
        matches!(self.book.would(&take), Ok(Reply { kind: reply::STARTED | reply::STARTED_ENLIST, .. }))
    }

    /// Fails if somebody sleeps who could go on, and whom nobody is going to wake.
    fn check(&mut self, seed: u64) {
        self.take_out();
        for pool in 0..self.workers.len() / usize::from(self.shape.workers) {
            let own = pool * usize::from(self.shape.workers)..(pool + 1) * usize::from(self.shape.workers);
            let (asleep, awake): (Vec<usize>, Vec<usize>) = own
                .filter(|at| matches!(self.states[*at], State::Ready | State::Rests))
                .partition(|at| self.asleep.0[*at]);
            if asleep.iter().any(|at| self.would_start(*at)) && !awake.iter().any(|at| self.would_start(*at)) {
                self.fails(seed, "a worker rests that would start something");
            }
        }
        for at in 0..self.states.len() {
            if let State::Waits { party, ticket, .. } = self.states[at] {
                if self.asleep.1[usize::from(party)] && self.book.ready(ticket) {
                    self.fails(seed, "a caller sleeps whose wait has ended");
                }
            }
        }
    }

    fn fails(&mut self, seed: u64, what: &str) -> ! {
        let text = String::from_utf8_lossy(&self.history);
        let lines: Vec<&str> = text.lines().collect();
        panic!("seed {seed}: {what}\n{}", lines[lines.len().saturating_sub(400)..].join("\n"));
    }

    fn run(&mut self, seed: u64) {
        let (mut moves, mut time_is_over) = (0, false);
        loop {
            self.check(seed);
            let ready: Vec<usize> = (0..self.states.len()).filter(|at| self.may_move(*at)).collect();
            if !ready.is_empty() && self.random.below(20) > 0 {
                let at = ready[self.random.below(ready.len())];
                self.moves(at);
                moves += 1;
                assert!(moves < 100_000, "seed {seed}: no end");
                continue;
            }
            let (due, time) = (self.board.due(), self.board.time());
            if due != u64::MAX && !time_is_over {
                let ticks = due.saturating_sub(time) as u32;
                time_is_over = self.make(|board, wakes| board.advance(0, ticks, wakes)).is_err();
            } else if ready.is_empty() && self.stopped && !self.failed {
                // the shell joins the workers, and then nobody makes an entry any more
                let all = self.states[..self.workers.len()].iter().all(|state| matches!(state, State::Gone));
                assert!(all, "seed {seed}: a worker doesn't end");
                self.make(Board::fail).unwrap();
                self.failed = true;
            } else if ready.is_empty() {
                // this also ends waits that were left
                let thawed = self.call(Call { kind: call::THAW, ..Call::default() });
                let is_quiet = self.board.due() == u64::MAX || time_is_over;
                let is_frozen = matches!(thawed, Ok(Reply { kind: reply::THAWED, .. }));
                if is_quiet && !is_frozen && (0..self.states.len()).all(|at| !self.may_move(at)) {
                    break;
                }
            }
        }
        for at in 0..self.states.len() {
            let has_ended = match self.states[at] {
                State::Rests => !self.stopped,
                State::Gone => self.stopped,
                State::Ready => at >= self.workers.len(),
                _ => false,
            };
            if !has_ended {
                self.fails(seed, &format!("{at} is stuck, {:?}", self.states[at]));
            }
        }
        assert_eq!(self.book.open_count(), 0, "seed {seed}: something has not ended");
        let is_delayed = (0..ITEMS).any(|item| self.board.item(item).pending != 0);
        assert!(!is_delayed || time_is_over || self.stopped, "seed {seed}: something is still delayed");
    }
}

fn number(name: &str, otherwise: u64) -> u64 {
    std::env::var(name).ok().and_then(|word| word.parse().ok()).unwrap_or(otherwise)
}

/// Plays the schedules of these seeds. Returns how many entries and waits there were, and how many waits were refused,
/// and left.
fn play(seeds: impl Iterator<Item = u64>) -> [u64; 4] {
    let mut sums = [0; 4];
    for seed in seeds {
        let mut sim = Sim::new(seed);
        sim.run(seed);
        sim.take_out();
        let len = sim.board.len();
        sim.history.extend_from_slice(format!("end {len}\n").as_bytes());
        assert_eq!(crate::check(&sim.history).unwrap(), crate::Verdict::Legal { entries: len }, "seed {seed}");
        let counts = [len, sim.waited as u64, sim.refused as u64, sim.departed as u64];
        (0..4).for_each(|at| sums[at] += counts[at]);
    }
    sums
}

#[test]
fn nobody_is_forgotten_in_any_order() {
    let seeds = if cfg!(feature = "schedules") { 10_000 } else { 200 };
    let (first, seeds) = (number("CMWQ_FIRST", 0), number("CMWQ_SEEDS", seeds));
    let threads = std::thread::available_parallelism().map_or(1, |count| count.get());
    let mut sums = [0; 4];
    std::thread::scope(|scope| {
        let own = |at: usize| (first..first + seeds).skip(at).step_by(threads);
        let players: Vec<_> = (0..threads).map(|at| scope.spawn(move || play(own(at)))).collect();
        for player in players {
            let counts = player.join().expect("no schedule fails");
            (0..4).for_each(|at| sums[at] += counts[at]);
        }
    });
    let [entries, waited, refused, departed] = sums;
    println!("{seeds} schedules, {entries} entries, {waited} waits, {refused} refused, {departed} left");
}
