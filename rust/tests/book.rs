use cmwq::book::{Book, Call, Entry, Refusal, Reply, Shape, Who};
use cmwq::{check, max_active, Error, Verdict};

const SHAPE: Shape = Shape { room: 20, keep: 3, items: 1, cpus: 1, workers: 1, callers: 1 };

const CALLER: Who = Who::Caller(0);

const WORKER: Who = Who::Worker { cpu: 0, index: 0, high: false };

#[test]
fn queues_runs_and_flushes() -> Result<(), Refusal> {
    let mut book = Book::open(&SHAPE, &[max_active(1)])?;
    assert_eq!(book.step_line("c0 queue 0 0 0")?, "c0 0 queue 0 0 0 = yes 0\n");
    assert_eq!(book.step(CALLER, Call::Flush { queue: 0 })?, Reply::Ticket(1));
    assert!(!book.is_ready(1));
    assert_eq!((book.busy(0)?, book.open_count(), book.active_count()), ((true, false), 1, 1));
    assert_eq!(book.would(WORKER, Call::Take)?, Reply::Started(0));
    assert_eq!(book.step(WORKER, Call::Take)?, Reply::Started(0));
    assert_eq!(book.step(WORKER, Call::Finish), Err(Refusal::Crowded));
    let entry = Entry { who: WORKER, serial: 0, call: Call::Take, reply: Reply::Started(0) };
    assert_eq!(book.entry(2)?, entry);
    let mut lines: Vec<_> = (0..3).map(|number| book.entry_line(number)).collect::<Result<_, _>>()?;
    book.forget();
    book.step(WORKER, Call::Finish)?;
    assert!(book.is_ready(1));
    book.step(CALLER, Call::End { ticket: 1 })?;
    assert_eq!((book.count(), book.first(), book.serial(CALLER)?), (5, 3, 3));
    assert_eq!(book.entry(0), Err(Refusal::Refused));
    lines.extend([book.entry_line(3)?, book.entry_line(4)?]);
    let history = format!("history 2\nshape 1 1 1 1 20\nwq 1 -\n{}", lines.concat());
    assert_eq!(check(history.as_bytes()).unwrap(), Verdict::Legal { entries: 5 });
    let line = "illegal at 0: reply yes 0".to_owned();
    assert_eq!(check(history.replace("yes 0", "yes 1").as_bytes()).unwrap(), Verdict::Illegal { line });
    Ok(())
}

#[test]
fn refuses_what_is_outside() {
    assert_eq!(Book::open(&SHAPE, &[]).err(), Some(Refusal::Refused));
    let mut book = Book::open(&SHAPE, &[max_active(1)]).unwrap();
    assert_eq!(book.step(Who::Caller(1), Call::Fire), Err(Refusal::Refused));
    assert_eq!(book.step_line("nonsense"), Err(Refusal::Refused));
    assert!(matches!(check(b"nothing"), Err(Error::NoHistory)));
}

#[test]
fn each_call_is_the_one_that_its_line_says() -> Result<(), Refusal> {
    let shape = Shape { room: 1000, keep: 1000, items: 9, cpus: 2, workers: 2, callers: 9 };
    let high = Who::Worker { cpu: 1, index: 1, high: true };
    let calls = [
        (CALLER, Call::Queue { item: 1, queue: 1, cpu: 1 }, "queue 1 1 1"),
        (CALLER, Call::Delay { item: 2, queue: 1, cpu: 1, ticks: 3 }, "delay 2 1 1 3"),
        (CALLER, Call::Modify { item: 3, queue: 0, cpu: 1, ticks: 4 }, "modify 3 0 1 4"),
        (CALLER, Call::Cancel { item: 8 }, "cancel 8"),
        (CALLER, Call::Tick { ticks: 3 }, "tick 3"),
        (CALLER, Call::Fire, "fire"),
        (CALLER, Call::Flush { queue: 1 }, "flush 1"),
        (CALLER, Call::FlushItem { item: 2 }, "flush_item 2"),
        (CALLER, Call::FlushDelayed { item: 3 }, "flush_delayed 3"),
        (CALLER, Call::CancelSync { item: 2 }, "cancel_sync 2"),
        (CALLER, Call::End { ticket: 7 }, "end 7"),
        (CALLER, Call::SetMax { queue: 1, max_active: 600 }, "set_max 1 600"),
        (CALLER, Call::Freeze, "freeze"),
        (CALLER, Call::Thaw, "thaw"),
        (high, Call::Take, "take"),
        (high, Call::Sleep, "sleep"),
        (high, Call::Wake, "wake"),
        (high, Call::Finish, "finish"),
        (high, Call::Retire, "retire"),
        (CALLER, Call::Drain { queue: 0 }, "drain 0"),
        (CALLER, Call::Destroy { queue: 1 }, "destroy 1"),
    ];
    let queues = [max_active(2), max_active(1).high_priority().cpu_intensive().freezable()];
    let (mut typed, mut lines) = (Book::open(&shape, &queues)?, Book::open(&shape, &queues)?);
    for (number, (who, call, line)) in (0..).zip(calls) {
        let name = if who == CALLER { "c0" } else { "w1h1" };
        let reply = typed.step(who, call)?;
        lines.step_line(&format!("{name} {line}"))?;
        let entry = typed.entry(number)?;
        assert_eq!(entry, lines.entry(number)?, "{line}");
        assert_eq!((entry.who, entry.call, entry.reply), (who, call, reply), "{line}");
    }
    Ok(())
}

#[test]
fn moves_to_another_thread() {
    let mut book = Book::open(&SHAPE, &[max_active(1)]).unwrap();
    let made = std::thread::spawn(move || book.step(CALLER, Call::Tick { ticks: 5 })).join().unwrap();
    assert_eq!(made, Ok(Reply::Now(5)));
}
