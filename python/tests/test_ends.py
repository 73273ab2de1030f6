"""How hubs end: collected, at the end of the program, in a process that was forked, and where there is too little."""
import gc
import io
import os
import tempfile
import threading
import time
import unittest.mock
import weakref

from common import Case, Gate, cmwq, judged, judged_by_program, run_program, until


class Service:
    """A user of a hub, with an item whose function refers to it."""

    def __init__(self, hub):
        self.hub, self.runs = hub, []
        self.item = hub.item(self.work)

    def work(self, run):
        self.runs.append(1)


class Own(Case):
    """Knows the threads of a test. Those of others, as of a hub that stays open, go on meanwhile."""

    def setUp(self):
        super().setUp()
        self.other = cmwq.Hub(workers=1)
        self.others = set(threading.enumerate())
        self.addCleanup(self.other.shutdown)

    def threads(self):
        return [it for it in threading.enumerate() if it not in self.others and it.name.startswith("cmwq ")]


class Collected(Own):

    def test_hubs_that_nobody_has(self):
        for _ in range(20):
            cmwq.Hub()
        self.assertTrue(until(lambda: not self.threads()), self.threads())

    def test_circles(self):
        """A hub is collected with the objects that its work functions refer to."""
        service = Service(self.hub())
        service.item.queue()
        service.item.flush()
        gone = weakref.ref(service)
        del service
        gc.collect()
        self.assertIsNone(gone())
        self.assertTrue(until(lambda: not self.threads()))
        judged(self.text)

    def test_what_is_queued_runs(self):
        ran, gate = [], Gate()
        hub = self.hub(workers=1)
        items = [hub.item(gate), *(hub.item(lambda run, at=at: ran.append(at)) for at in range(3))]
        for item in items:
            item.queue()
        later = hub.item(lambda run: ran.append("later"))
        later.queue_delayed(0.05)
        del hub, item, items, later
        gc.collect()
        self.assertEqual(len(self.threads()), 3)
        gate.go.release()
        self.assertTrue(until(lambda: not self.threads()))
        self.assertEqual(ran, [0, 1, 2, "later"])
        judged(self.text)

    def test_a_handle_keeps_its_hub(self):
        item = self.hub().item(lambda run: None)
        queue = cmwq.Hub().queue("default")
        gc.collect()
        self.assertTrue(item.queue())
        self.assertTrue(item.flush(timeout=10) in (True, False))
        queue.flush(timeout=10)
        del item, queue
        self.assertTrue(until(lambda: not self.threads()))
        judged(self.text)

    def test_the_end_of_the_program(self):
        with tempfile.TemporaryDirectory() as folder:
            said = run_program("""
import cmwq, sys, time
def start():
    hub = cmwq.Hub(workers=2, history=open(sys.argv[1], "w"))
    items = [hub.item(lambda run: [time.sleep(0.05), print("ran", flush=True)]) for _ in range(3)]
    for item in items:
        item.queue()
    hub.item(lambda run: print("late")).queue_delayed(60)
    return items if sys.argv[2] == "kept" else None
items = start()
cmwq.Hub()
""", f"{folder}/kept", "kept")
            said += run_program("import cmwq; hub = cmwq.Hub(); hub.item(lambda run: print('ran')).queue()")
            self.assertEqual(said, 4 * "ran\n")
            judged_by_program(f"{folder}/kept")

    def test_a_last_handle_that_goes_in_a_work_function(self):
        hub, ended = self.hub(), []
        last = [hub.item(print)]

        def work(run):
            gate.wait(10)
            last.clear()
            ended.append(1)

        gate = threading.Event()
        hub.item(work).queue()
        del hub
        gate.set()
        self.assertTrue(until(lambda: not self.threads()))
        self.assertEqual(ended, [1])
        judged(self.text)

    def test_finalizers_wait_for_nothing_in_threads_of_the_hub(self):
        """A work function is dropped by the only worker, which would wait for what it runs next."""
        told, ran = [], []

        class Noisy:
            def __del__(self):
                for call in (hub.flush, later.flush, later.cancel_sync, hub.drain, hub.shutdown):
                    try:
                        call()
                    except cmwq.Itself as why:
                        told.append(str(why))
                ran.append(later.cancel())

        hub = self.hub(workers=1)
        gate = Gate()
        slow, later = hub.item(gate), hub.item(lambda run: ran.append("later"))
        slow.queue()
        hub.item(lambda run, noisy=Noisy(): None).queue()
        hub.queue("default").set_max_active(1)
        later.queue_delayed(3600)
        gate.go.release()
        self.assertTrue(until(lambda: ran, 10))
        self.assertEqual((len(told), ran), (5, [True]))
        self.assertEqual(set(told[:4]), {"a thread of the hub, whose help a wait may need, waits in its runs only"})
        del later
        hub.shutdown()
        judged(self.text)

    def test_items_that_are_dropped(self):
        """The price of an item whose handle is dropped once it is queued is the same with however many others."""
        with cmwq.Hub(workers=1, items=7000) as hub:
            gate = Gate()
            hub.item(gate).queue()

            def price(count):
                begun = time.thread_time()
                for _ in range(count):
                    hub.item(lambda run: None).queue()
                return (time.thread_time() - begun) / count

            price(500)
            few = min(price(250) for _ in range(4))
            price(4000)
            many = min(price(250) for _ in range(4))
            gate.go.release()
            hub.flush(timeout=50)
            self.assertLess(many, 4 * few)
            held = [hub.item(print) for _ in range(7000)]
            self.assertEqual(len({item._number for item in held}), 7000)
            self.assertRaises(cmwq.NoItem, hub.item, print)


class Forked(Case):
    BEGIN = """
import cmwq, os, signal, sys, threading, time
def wait(child):
    end = time.monotonic() + 20
    while time.monotonic() < end:
        ended, status = os.waitpid(child, os.WNOHANG)
        if ended:
            return status
        time.sleep(0.01)
    os.kill(child, signal.SIGKILL)
    return "hangs"
def told(call):
    try:
        return call()
    except cmwq.Error as why:
        return f"{type(why).__name__}: {why}"
"""

    def test_the_hub_is_closed_in_the_child(self):
        said = run_program(self.BEGIN + """
gate, hub = threading.Event(), cmwq.Hub(workers=2, history=open(os.devnull, "w"))
item = hub.item(lambda run: gate.wait(20))
item.queue()
later = hub.item(print)
later.queue_delayed(60)
threading.Thread(target=item.flush).start()
while not hub._shell.waits:
    time.sleep(0.001)
child = os.fork()
if not child:
    for call in (later.queue, later.flush, lambda: later.modify(1), later.cancel, hub.flush, hub.freeze, hub.drain,
                 lambda: hub.item(print), lambda: hub.queue("default").set_max_active(3)):
        print(told(call), flush=True)
    print(item.pending, item.running, hub, flush=True)
    hub.shutdown()
    with cmwq.Hub() as own:
        own.item(lambda run: print("own", flush=True)).queue()
    sys.exit(3)
print(wait(child) >> 8)
gate.set()
hub.shutdown()
""").splitlines()
        closed = "Closed: the hub is closed in this process, which was forked from the one that opened it"
        self.assertEqual(said[:9], 9 * [closed])
        self.assertIn("of the process that was forked", said[9])
        self.assertEqual((said[9].split()[:2], said[10:]), (["False", "False"], ["own", "3"]))

    def test_a_fork_in_a_work_function(self):
        said = run_program(self.BEGIN + """
def work(run):
    child = os.fork()
    if not child:
        print(told(run.requeue), flush=True)
        return
    print(wait(child), flush=True)
with cmwq.Hub(workers=1) as hub:
    hub.item(work).queue()
""")
        self.assertRegex(said, "^Closed: the hub is closed in this process[^\n]*\n0\n$")

    def test_the_history_is_that_of_one_process(self):
        """What the file object of the history keeps back is not written by each process."""
        with tempfile.TemporaryDirectory() as folder:
            said = run_program(self.BEGIN + """
import io
writes = threading.Event()
class Slow(io.TextIOWrapper):
    def write(self, text):
        super().write(text)
        writes.set()
        time.sleep(0.05)
with Slow(open(sys.argv[1], "wb", buffering=1 << 20)) as text, cmwq.Hub(workers=2, keep=8, history=text) as hub:
    item = hub.item(lambda run: None)
    for _ in range(4):
        writes.clear()
        item.queue()
        item.flush()
        assert writes.wait(20)
        child = os.fork()
        if not child:
            sys.exit(0)
        assert wait(child) == 0
""", f"{folder}/it")
            self.assertEqual(said, "")
            self.assertGreater(judged_by_program(f"{folder}/it"), 10)

    def test_a_fork_while_writers_are_stuck(self):
        """It waits at most a second for all of them. The new process ends, and writes nothing of what is kept back,
        whether it closes the files or leaves that to its end."""
        said = run_program(self.BEGIN + """
import fcntl, io, tempfile
KINDS = (lambda to: os.fdopen(to, "w"),
         lambda to: tempfile._TemporaryFileWrapper(os.fdopen(to, "w"), "it", False),
         lambda to: os.fdopen(to, "w", buffering=1, newline="\\n", errors="replace"),
         lambda to: io.TextIOWrapper(io.FileIO(to, "w"), write_through=True))
def stuck(kind):
    \"\"\"A hub whose writer waits for the reader of a pipe, which doesn't read.\"\"\"
    taken, to = os.pipe()
    fcntl.fcntl(to, 1031, 4096)  # F_SETPIPE_SZ
    file = kind(to)
    hub = cmwq.Hub(workers=1, keep=8, history=file)
    item = hub.item(lambda run: None)
    def work():
        for _ in range(300):
            item.queue()
            item.flush()
    busy = threading.Thread(target=work)
    busy.start()
    while len(hub._shell.full) < 4:
        time.sleep(0.001)
    return taken, file, hub, busy
hubs = [stuck(kind) for kind in KINDS]
for closes in (True, False):
    begun = time.monotonic()
    child = os.fork()
    if not child:
        for _, file, _, _ in hubs if closes else ():
            file.close()
        print("child", flush=True)
        sys.exit(0)
    took = time.monotonic() - begun
    print(wait(child), 0.5 < took < 2 or took, flush=True)
for taken, file, hub, busy in hubs:
    texts = []
    def read():
        with os.fdopen(taken) as it:
            texts.append(it.read())
    reader = threading.Thread(target=read)
    reader.start()
    busy.join()
    hub.shutdown()
    file.close()
    reader.join()
    print(cmwq.check(texts[0])[0])
""")
        self.assertEqual(said.split(), ["child", "0", "True"] * 2 + ["True"] * 4)

    def test_pools_of_processes(self):
        said = run_program("""
import cmwq, multiprocessing
with cmwq.Hub() as hub:
    item = hub.item(lambda run: print("ran", flush=True))
    item.queue()
    hub.flush()
    with multiprocessing.get_context("fork").Pool(2) as pool:
        print(pool.map(abs, [-1, 2]), flush=True)
    item.queue()
""")
        self.assertEqual(said, "ran\n[1, 2]\nran\n")


class TooLittle(Own):
    def test_threads_that_do_not_start(self):
        """Those that have started end, and the history is whole."""
        real = threading.Thread.start
        for most in range(5):
            started = []

            def start(thread):
                if len(started) == most:  # noqa: B023
                    raise RuntimeError("can't start new thread")
                started.append(thread)  # noqa: B023
                real(thread)

            with unittest.mock.patch.object(threading.Thread, "start", start):
                self.assertRaisesRegex(cmwq.NoThread, "^the thread cmwq .* could not be started: can't start", self.hub)
            self.assertFalse(self.threads())
            if most > 1:
                judged(self.text)

    def test_frozen_items_run_without_room(self):
        """A freeze keeps room for its thaw, and a queueing for its run."""
        queues = {"cold": cmwq.max_active(2, freezable=True), "a": cmwq.max_active(2)}
        for room in range(20, 50):
            ran = []
            hub = self.hub(room=room, queues=queues, items=8, workers=2)
            cold = hub.queue("cold").item(lambda run: ran.append(1))  # noqa: B023
            other, late = hub.queue("a").item(lambda run: None), hub.item(print)
            self.assertTrue(hub.freeze())
            cold.queue()
            late.queue_delayed(3600)
            for fills in (lambda: other.queue() and hub.queue("a").flush(), other.cancel):  # noqa: B023
                with self.assertRaises(cmwq.Full):
                    while True:
                        fills()
            hub.shutdown()
            self.assertEqual(ran, [1])
            self.assertFalse(cold.pending or late.pending)
            judged(self.text)

    def test_many_threads_shut_down(self):
        """Each call returns once the hub has ended, and at least one tells of the errors."""
        for _ in range(10):
            hub, gate, told = self.hub(workers=2), Gate(), []
            slow, bad = hub.item(gate), hub.item(lambda run: 1 // 0)
            for item in (slow, bad):
                item.queue()

            def shutdown():
                try:
                    hub.shutdown()  # noqa: B023
                except cmwq.WorkError as why:
                    told.append(why)  # noqa: B023
                self.assertFalse(slow.running or bad.pending)  # noqa: B023

            threads = [threading.Thread(target=shutdown) for _ in range(6)]
            for thread in threads:
                thread.start()
            self.assertTrue(until(lambda: hub._shell.closing))  # noqa: B023
            gate.go.release()
            for thread in threads:
                thread.join()
            self.assertTrue(told)
            hub.shutdown()
            judged(self.text)

    def test_a_hub_that_fails(self):
        """The end says which items did not run."""
        hub = self.hub(queues={"cold": cmwq.max_active(2, freezable=True)})
        items = [hub.item(print) for _ in range(2)]
        hub.freeze()
        items[0].queue()
        items[1].queue_delayed(3600)
        hub._shell.make(cmwq._shell.Call(0), cmwq._shell.lib.cmwq_board_fail)
        with self.assertRaises(cmwq.NotRun) as raised:
            hub.shutdown()
        self.assertCountEqual(raised.exception.items, items)
        self.assertIn(repr(items[0]), str(raised.exception))
        hub.shutdown()

    def test_what_writes_the_history_makes_no_calls(self):
        told = []

        class Writer(io.StringIO):
            def write(self, text):
                for call in (hub.flush, item.queue, hub.shutdown) if "= yes" in text else ():
                    try:
                        call()
                    except cmwq.Itself as why:
                        told.append(str(why))
                return super().write(text)

        text = Writer()
        hub = cmwq.Hub(history=text)
        item = hub.item(lambda run: None)
        item.queue()
        hub.flush(timeout=10)
        self.assertTrue(until(lambda: len(told) >= 3))
        self.assertEqual(told[0], "what writes the history can't make calls of its hub")
        hub.shutdown()
        judged(text)


if __name__ == "__main__":
    unittest.main()
