"""Signal handlers that raise, and handlers that make calls: nobody is forgotten, and nothing is kept."""
import _thread
import ctypes
import itertools
import random
import signal
import sys
import tempfile
import threading
import time
import unittest

from common import HERE, INTERRUPTS, Case, Gate, cmwq, judged, judged_by_program, run_program, until


class Interrupt(BaseException):
    """What a handler raises, as that of Ctrl-C raises KeyboardInterrupt."""


class Alarm:
    """A handler of SIGALRM."""

    def __init__(self, handler):
        self.handler = handler

    def __enter__(self):
        self.before = signal.signal(signal.SIGALRM, self.handler)

    def __exit__(self, *_):
        signal.setitimer(signal.ITIMER_REAL, 0)
        signal.signal(signal.SIGALRM, self.before)


class Storm:
    """Interrupts calls. With an interval what is done about an interrupt is interrupted too, three times in all."""

    def __init__(self, interval=0):
        self.interval, self.count, self.left = interval, 0, 0

    def handle(self, *_):
        if self.left:
            self.left -= 1
            self.count += 1
            raise Interrupt

    def strike(self, call, seconds):
        """Makes a call, which may be interrupted after this time."""
        try:
            try:
                try:
                    self.left = 3 if self.interval else 1
                    signal.setitimer(signal.ITIMER_REAL, seconds, self.interval)
                    call()
                finally:
                    self.left = 0
            except Interrupt:
                self.left = 0
        except Interrupt:
            self.left = 0


class Signals(Case):
    def storm(self, seed, interrupts, interval=0):
        """Random calls of the main thread under a storm."""
        chance, storm = random.Random(seed), Storm(interval)
        queues = {"a": cmwq.max_active(2), "b": cmwq.max_active(1)}
        with tempfile.TemporaryDirectory() as folder, Alarm(storm.handle):
            path, more = f"{folder}/it.history", {"workers": 2, "cpus": 2, "items": 12, "waits": 6, "keep": 64}
            with open(path, "w", encoding="utf-8") as text, \
                    cmwq.Hub(queues=queues, tick=1e-4, history=text, **more) as hub:
                made = [hub.queue(name) for name in "ab"]
                items = [made[at % 2].item(lambda run: chance.random() < 0.1 and run.requeue()) for at in range(8)]

                def calls(item):
                    queue = chance.choice(made)
                    return [item.queue, item.queue, item.flush, item.cancel_sync, item.cancel, item.flush_delayed,
                            queue.flush, queue.drain, lambda: queue.flush(1e-4), lambda: item.flush(1e-4),
                            lambda: item.modify(2e-4), lambda: item.queue_delayed(1e-4), lambda: item.pending,
                            lambda: item.queue_on(queue, chance.randrange(2)), lambda: made[0].item(print).cancel(),
                            lambda: made[0].item(lambda run: None).queue()]

                while storm.count < interrupts:
                    try:
                        storm.strike(chance.choice(calls(chance.choice(items))), 1e-6 + chance.random() * 3e-4)
                    except (cmwq.Draining, cmwq.NoItem, cmwq.TimedOut, cmwq.TooManyWaits, cmwq.Foreign):
                        pass
                signal.setitimer(signal.ITIMER_REAL, 0)
                # what was queued runs without another call, and drains that were left end
                self.assertTrue(until(lambda: not any(item.pending or item.running for item in items), 10))
                self.assertTrue(until(lambda: not hub._shell.waits, 10))
                for item in items:
                    item.queue()
                    item.flush(timeout=10)
                hub.drain(timeout=10)
                self.assertTrue(until(lambda: not any(hub._shell.puts) and not hub._shell.owed, 5))
                self.assertFalse(hub._shell.waits or hub._shell.before)
                # no number of an item and no lent caller is lost
                new = [hub.item(print) for _ in range(4)]
                self.assertRaises(cmwq.NoItem, hub.item, print)
                gate = Gate()
                del new
                slow = hub.item(gate)
                slow.queue()
                waits = [threading.Thread(target=slow.flush) for _ in range(6)]
                for wait in waits:
                    wait.start()
                self.assertTrue(until(lambda: len(hub._shell.waits) == 6, 5))
                gate.go.release()
                for wait in waits:
                    wait.join()
            return judged_by_program(path)

    def test_a_storm(self):
        entries = self.storm(1, INTERRUPTS)
        print(f"{INTERRUPTS} interrupts, {entries} entries")
        self.assertGreater(entries, INTERRUPTS)

    def test_a_storm_that_does_not_wait(self):
        self.storm(2, INTERRUPTS // 4, interval=2e-4)

    def test_a_call_that_is_interrupted_wakes(self):
        """An interrupt comes at each point of queue() in turn. Only the workers may do what is left."""
        chance, storm, ran = random.Random(3), Storm(), itertools.count()
        with Alarm(storm.handle), self.hub(workers=2) as hub:
            item = hub.item(lambda run: next(ran))
            while storm.count < INTERRUPTS // 8:
                storm.strike(item.queue, 1e-6 + chance.random() * 1e-4)
                signal.setitimer(signal.ITIMER_REAL, 0)
                self.assertTrue(until(lambda: not item.pending and not item.running, 5))
        judged(self.text)

    def test_handlers_make_calls(self):
        chance, handled, refused, inside = random.Random(4), [], [], []
        with self.hub(workers=2, items=40, waits=40, tick=1e-4, keep=16) as hub:
            items = [hub.item(lambda run: None) for _ in range(6)]

            def act():
                item = chance.choice(items)
                try:
                    chance.choice([item.queue, item.flush, item.cancel_sync, item.cancel, lambda: item.modify(2e-4),
                                   hub.flush, lambda: hub.item(lambda run: None).queue()])()
                except (cmwq.TooManyWaits, cmwq.NoItem) as why:
                    refused.append(why)

            def handle(*_):
                if len(handled) < INTERRUPTS // 2 and len(inside) < 4:
                    handled.append(1)
                    inside.append(1)
                    act()
                    inside.pop()

            with Alarm(handle):
                signal.setitimer(signal.ITIMER_REAL, 3e-4, 3e-4)
                while len(handled) < INTERRUPTS // 2:
                    act()
            hub.flush(timeout=10)
        judged(self.text)

    def test_shut_down_by_a_handler(self):
        """The call that the handler has come into ends as closed."""
        for kind in ("flush", "drain", "cancel_sync"):
            gate, ends = threading.Event(), []
            hub = self.hub(workers=1)
            item = hub.item(lambda run, gate=gate: gate.wait(20))
            item.queue()
            self.assertTrue(until(lambda: item.running))  # noqa: B023

            def handle(*_):
                threading.Timer(0.02, gate.set).start()  # noqa: B023
                hub.shutdown()  # noqa: B023
                ends.append(1)  # noqa: B023

            with Alarm(handle):
                signal.setitimer(signal.ITIMER_REAL, 0.02)
                self.assertRaises(cmwq.Closed, getattr(item if kind == "cancel_sync" else hub, kind))
            self.assertEqual(ends, [1])
            judged(self.text)

    def test_a_shutdown_that_is_interrupted(self):
        """The next one waits for the end, and tells what there is to tell."""
        storm, ran, gate = Storm(), [], Gate()
        hub = self.hub(workers=1)
        slow, later, bad = hub.item(gate), hub.item(lambda run: ran.append(1)), hub.item(lambda run: 1 // 0)
        for item in (slow, later, bad):
            item.queue()
        with Alarm(storm.handle):
            for _ in range(3):
                storm.strike(hub.shutdown, 0.02)
        self.assertEqual(storm.count, 3)
        self.assertTrue(slow.running and not ran)
        gate.go.release()
        self.assertRaises(cmwq.WorkError, hub.shutdown)
        self.assertEqual(ran, [1])
        self.assertFalse(any(item.pending or item.running for item in (slow, later, bad)))
        hub.shutdown()
        judged(self.text)

    def test_a_program_that_is_interrupted_in_its_shutdown(self):
        said = run_program("""
import cmwq, os, signal, threading, time
signal.signal(signal.SIGINT, signal.default_int_handler)  # which is ignored in the background of a shell
ending, hub = threading.Event(), cmwq.Hub(workers=1)

def interrupts(run):
    ending.wait(20)
    time.sleep(0.05)
    os.kill(os.getpid(), signal.SIGINT)
    time.sleep(0.05)
    print("ran", flush=True)

for work in (interrupts, *2 * [lambda run: print("ran", flush=True)]):
    hub.item(work).queue()
try:
    ending.set()
    hub.shutdown()
except KeyboardInterrupt:
    print("interrupted", flush=True)
""")
        self.assertEqual(sorted(said.split()), ["interrupted", "ran", "ran", "ran"])

    def test_exceptions_that_are_thrown_into_workers(self):
        chance, ran = random.Random(5), itertools.count()
        with self.hub(workers=3, cpus=2) as hub:
            workers = [thread.ident for thread in hub._shell.threads if thread.name[5:6].isdigit()]
            self.assertEqual(len(workers), 6)
            items = [hub.item(lambda run: next(ran)) for _ in range(6)]
            slow = hub.item(lambda run: time.sleep(1e-4))

            @hub.item
            def waits(run):
                slow.queue()
                slow.flush()

            for at in range(INTERRUPTS // 4):
                chance.choice([*items, waits]).queue()
                thrown = ctypes.py_object(Interrupt)
                ctypes.pythonapi.PyThreadState_SetAsyncExc(ctypes.c_ulong(chance.choice(workers)), thrown)
                if at % 10 == 0:
                    hub.flush(timeout=10)
            hub.flush(timeout=10)
            time.sleep(0.01)
            for item in [*items, waits]:
                item.queue()
                item.flush(timeout=10)
            hub.errors.clear()
        judged(self.text)

    def test_exceptions_that_are_thrown_into_a_worker_in_a_row(self):
        """Each while the one before is reported: the worker goes on."""
        reported, report = [], cmwq._threads.report

        def report_and_raise(text, about, why):
            reported.append(why)
            if len(reported) < 5:
                raise Interrupt

        self.addCleanup(setattr, cmwq._threads, "report", report)
        cmwq._threads.report = report_and_raise
        with self.hub(workers=1) as hub:
            worker, = (thread.ident for thread in hub._shell.threads if thread.name[5:6].isdigit())
            item = hub.item(lambda run: None)
            ctypes.pythonapi.PyThreadState_SetAsyncExc(ctypes.c_ulong(worker), ctypes.py_object(Interrupt))
            while len(reported) < 5:
                item.queue()
                item.flush(timeout=5)
        self.assertTrue(all(isinstance(why, Interrupt) for why in reported))
        judged(self.text)

    def test_ctrl_c_leaves_a_wait(self):
        """The next call isn't refused because of that wait."""
        with self.hub(waits=1) as hub, Alarm(signal.default_int_handler):
            gate = Gate()
            item = hub.item(gate)

            def interrupted():
                signal.setitimer(signal.ITIMER_REAL, 0.01)
                hub.flush()

            for _ in range(20):
                item.queue()
                self.assertTrue(until(lambda: item.running))
                self.assertRaises(KeyboardInterrupt, interrupted)
                gate.go.release()
                self.assertTrue(until(lambda: not item.running))
                hub.flush(timeout=10)
        judged(self.text)

    def test_interrupts_that_wake_nobody(self):
        """As one that comes just before the main thread sleeps."""
        before = signal.signal(signal.SIGINT, signal.default_int_handler)
        self.addCleanup(signal.signal, signal.SIGINT, before)
        self.addCleanup(setattr, cmwq._shell, "AWAKE", cmwq._shell.AWAKE)
        cmwq._shell.AWAKE = 0.5
        hub, gate = self.hub(workers=1, waits=9), Gate()
        item = hub.item(gate)
        item.queue()
        self.assertTrue(until(lambda: item.running))
        for call in (item.flush, hub.flush, item.cancel_sync, hub.drain, lambda: item.flush(60), hub.shutdown):
            begun = time.monotonic()
            threading.Timer(0.05, _thread.interrupt_main).start()
            self.assertRaises(KeyboardInterrupt, call)
            self.assertLess(time.monotonic() - begun, 10)
        gate.go.release()
        hub.shutdown()
        judged(self.text)

    @unittest.skipIf(sys.version_info < (3, 10), "an exception may come between the end of `with` and its exit")
    def test_an_interpreter_without_a_lock(self):
        """The lock of the package stands in for it."""
        run_program("""
import os, sys, unittest
sys._is_gil_enabled = lambda: False
sys.path.insert(0, sys.argv[1])
names = ["test_hub.Hubs.test_random_calls", "test_signals.Signals.test_a_storm"]
os.environ.update(CMWQ_SEEDS="10", CMWQ_INTERRUPTS="200")
ran = unittest.TextTestRunner().run(unittest.defaultTestLoader.loadTestsFromNames(names))
assert ran.testsRun == 2
sys.exit(not ran.wasSuccessful())
""", HERE)
