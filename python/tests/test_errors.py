"""What work functions raise, what calls raise, and how handles are shown."""
import contextlib
import copy
import decimal
import fractions
import gc
import io
import logging
import math
import os
import pickle
import tempfile
import threading
import time
import traceback
import weakref

from common import Case, Gate, cmwq, judged, until


class Errors(Case):
    def test_errors_are_told_when_they_happen(self):
        told, happened = [], threading.Event()

        def hook(item, why):
            told.append((item, why))
            happened.set()

        hub = self.hub(on_error=hook)
        item = hub.item(lambda run: 1 // 0)
        item.queue()
        self.assertTrue(happened.wait(20))
        item.flush()
        self.assertEqual((told[0][0], type(told[0][1])), (item, ZeroDivisionError))
        record = self.logged[0]
        self.assertEqual((record.name, record.levelname), ("cmwq", "ERROR"))
        self.assertRegex(record.getMessage(), r"^<cmwq.Item 0 of 'default': .*<lambda>.* has raised$")
        self.assertIs(record.exc_info[1], told[0][1])
        other = hub.item(lambda run: {}["a"])
        other.queue()
        other.flush()
        self.assertEqual(list(map(type, hub.errors)), [ZeroDivisionError, KeyError])
        with self.assertRaises(cmwq.WorkError) as raised:
            hub.shutdown()
        self.assertEqual(raised.exception.errors, tuple(hub.errors))
        self.assertIs(raised.exception.__cause__, hub.errors[0])
        self.assertRegex(str(raised.exception), "^work functions have raised: 2, the first ZeroDivisionError")
        judged(self.text)

    def test_a_hook_that_raises(self):
        def hook(item, why):
            raise ValueError("the hook")

        hub = self.hub(on_error=hook)
        item = hub.item(lambda run: 1 // 0)
        for _ in range(3):
            item.queue()
            item.flush(timeout=10)
        self.assertEqual(len(hub.errors), 3)
        self.assertIn("the hook", str(self.logged[1].exc_info[1]))
        hub.errors.clear()
        hub.shutdown()

    def test_calls_of_a_hook_are_of_the_run(self):
        told = []

        def hook(item, why):
            try:
                item.flush()
            except cmwq.Itself as itself:
                told.append(itself)

        hub = self.hub(on_error=hook)
        hub.item(lambda run: 1 // 0).queue()
        hub.flush(timeout=10)
        self.assertEqual(len(told), 1)
        self.assertRaises(cmwq.WorkError, hub.shutdown)
        judged(self.text)

    def test_a_flush_raises_what_the_run_has_raised(self):
        hub, outcomes = self.hub(), [ValueError("one"), SystemExit(2), None]

        @hub.item
        def item(run):
            why = outcomes.pop(0)
            if why:
                raise why

        item.queue()
        with self.assertRaisesRegex(ValueError, "^one$"):
            item.flush(raise_errors=True)
        with self.assertRaises(ValueError):  # it is idle, and its last run is the same
            item.flush_delayed(raise_errors=True)
        self.assertFalse(item.flush())
        item.queue()
        with self.assertRaises(SystemExit):
            item.flush(timeout=10, raise_errors=True)
        item.queue()
        hub.flush()
        self.assertFalse(item.flush(raise_errors=True))
        self.assertEqual(len(hub.errors), 2)
        self.assertRaises(cmwq.WorkError, hub.shutdown)
        judged(self.text)

    def test_an_error_that_is_kept_holds_nothing_else(self):
        """Its traceback tells where it was, but has no locals, no item, no hub and no board of the library any more."""
        class Thing:
            pass

        gone, kept, locals_seen = [], [], []

        def deeper():
            inner = Thing()
            gone.append(weakref.ref(inner))
            return {}["a"]

        def work(run):
            thing = Thing()
            gone.append(weakref.ref(thing))
            try:
                deeper()
            except KeyError:
                raise ValueError("one")

        def hook(item, why):
            locals_seen.append("thing" in why.__traceback__.tb_frame.f_locals)
            kept.append(why)
            raise ValueError("two")

        hub = self.hub(on_error=hook)
        item = hub.item(work)
        gone += [weakref.ref(it) for it in (hub, item, hub._shell)]
        gc.collect()
        gc.disable()
        self.addCleanup(gc.enable)
        item.queue()
        item.flush()
        with self.assertRaises(cmwq.WorkError) as raised:
            hub.shutdown()
        self.assertEqual((raised.exception.errors, locals_seen), (tuple(kept), [True]))
        del item, hub, raised
        self.assertTrue(until(lambda: not any(it() for it in gone), 5), [it() for it in gone])
        self.assertEqual(len(self.logged), 2)  # the records of the log keep nothing either
        text = "".join(traceback.format_exception(type(kept[0]), kept[0], kept[0].__traceback__))
        self.assertRegex(text, r'(?s)in deeper\n.*KeyError: .a.\n.*During handling.*in work\n.*ValueError: one\n$')

    def test_an_error_that_is_raised_again_has_one_traceback(self):
        """That of the work function, and of the call that raises it now, which keeps no handle."""
        def work(run):
            raise ValueError("one")

        def flushed():
            try:
                handles.pop().flush(raise_errors=True)
            except ValueError as why:
                return [frame.name for frame in traceback.extract_tb(why.__traceback__)]

        hub, told = self.hub(), []
        item = hub.item(work)
        item.queue()
        for _ in range(3):
            handles = [item]
            told.append(flushed())
        self.assertEqual((told[0][0], told[0][-1]), ("flushed", "work"))
        self.assertEqual(told, 3 * told[:1])
        gc.collect()
        gc.disable()
        self.addCleanup(gc.enable)
        gone = weakref.ref(item)
        self.assertRaises(cmwq.WorkError, hub.shutdown)
        del item
        self.assertIsNone(gone())

    def test_a_history_that_failed_keeps_no_hub(self):
        class Bad(io.StringIO):
            def write(self, text):
                raise OSError("full")

        gc.collect()
        gc.disable()
        self.addCleanup(gc.enable)
        hub = cmwq.Hub(history=Bad())
        gone, shell = weakref.ref(hub), weakref.ref(hub._shell)
        with self.assertRaises(cmwq.HistoryError) as raised:
            hub.shutdown()
        why = raised.exception.__cause__
        del hub, raised
        self.assertTrue(until(lambda: gone() is None and shell() is None, 5))
        self.assertEqual(traceback.extract_tb(why.__traceback__)[-1].name, "write")

    def test_handlers_of_the_log_that_raise(self):
        """They end no thread, and the error is told by the hook all the same."""
        class Unlucky:
            def __call__(self, run):
                raise ValueError("one")

            def __repr__(self):
                raise KeyError("repr")

        def emit(record):
            raise OSError("log")

        told, printed = [], io.StringIO()
        hub = self.hub(workers=1, on_error=lambda item, why: told.append(why))
        self.logger.handlers[0].emit = emit
        with contextlib.redirect_stderr(printed):
            for work in (Unlucky(), lambda run: 1 // 0):
                item = hub.item(work)
                for _ in range(2):
                    item.queue()
                    item.flush(timeout=10)
        self.assertEqual(told, hub.errors)
        self.assertEqual((len(told), printed.getvalue().count("OSError: log\n")), (4, 4))
        self.assertRaises(cmwq.WorkError, hub.shutdown)
        judged(self.text)

    def test_a_run_that_has_ended(self):
        kept, ran = [], []
        with self.hub(items=1) as hub:
            item = hub.item(lambda run: kept.extend((run, run.block())))
            item.queue()
            hub.flush()
            del item
            self.assertTrue(until(lambda: not any(hub._shell.puts)))
            item = hub.item(ran.append)
            run, block = kept
            for call in (run.requeue, lambda: run.requeue_after(1), run.block, block.__enter__):
                self.assertRaisesRegex(cmwq.RunEnded, "^the run has ended$", call)
            self.assertEqual(repr(run), "<cmwq.Run: ended>")
            hub.flush()
        self.assertEqual(ran, [])

    def test_blocks_that_outlive_their_run(self):
        """They change nothing of another run, and a run that an exception has kept asleep ends."""
        kept, told = [], []
        with self.hub(workers=1) as hub:
            @hub.item
            def work(run):
                block = run.block()
                block.__enter__()
                kept.append((run, block))

            @hub.item
            def cut_off(run):
                run.block().__enter__()
                cmwq._shell.here.sleeps = False  # as an exception in the exit of the block may leave it

            @hub.item
            def other(run):
                kept[0][1].__exit__(None, None, None)
                with run.block():
                    kept[0][1].__exit__(None, None, None)
                    told.append(item.queue())
                told.append(repr(kept[0]))

            item = hub.item(lambda run: None)
            for one in (work, cut_off, other):
                one.queue()
                one.flush(timeout=10)
            kept[0][1].__exit__(None, None, None)
            self.assertEqual(told, [True, "(<cmwq.Run: ended>, <cmwq.Block of <cmwq.Run: ended>>)"])
        judged(self.text)

    def test_handles_are_not_copied(self):
        kept = []
        with self.hub() as hub, cmwq.Book(cmwq.Shape(1, 1, 1, 1, 1, 1), [cmwq.max_active(1)]) as book:
            item = hub.item(lambda run: kept.extend((run, run.block())))
            item.queue()
            hub.flush()
            for one in (hub, item, hub.queue("default"), book, *kept):
                for copies in (copy.copy, copy.deepcopy, pickle.dumps):
                    with self.assertRaises(TypeError) as raised:
                        copies(one)
                    self.assertEqual(str(raised.exception), f"{one!r} can't be copied or pickled")

    def test_arguments(self):
        class Writes:
            def write(self, text):
                pass

        class Unlucky:
            def __repr__(self):
                raise RuntimeError

        closed = open(os.devnull, "w", encoding="utf-8")
        closed.close()
        queues = {"a": cmwq.max_active(1)}
        with cmwq.Hub(queues=queues, tick=0.01, items=4) as hub, cmwq.Hub() as other:
            item, queue = hub.item(print), hub.queue("a")
            for call, text in (
                    (lambda: hub.item(3), "work=3 can't be called"),
                    (lambda: queue.item(None), "work=None can't be called"),
                    (lambda: hub.item(print, cpu="0"), "cpu='0' is not an int"),
                    (lambda: item.queue_on("a", 0), "queue='a' is not a Queue"),
                    (lambda: item.queue_on(queue, 0.0), "cpu=0.0 is not an int"),
                    (lambda: item.queue_delayed("1"), "seconds='1' is not a number"),
                    (lambda: item.modify(None), "seconds=None is not a number"),
                    (lambda: item.flush("soon"), "timeout='soon' is not a number"),
                    (lambda: queue.set_max_active(2.5), "limit=2.5 is not an int"),
                    (lambda: cmwq.Hub(workers="4"), "workers='4' is not an int"),
                    (lambda: cmwq.Hub(tick=None), "tick=None is not a number"),
                    (lambda: cmwq.Hub(queues={"a": 5}), "queues['a']=5 is not a QueueOptions"),
                    (lambda: cmwq.Hub(queues={"a": cmwq.max_active("x")}), "queues['a'].max_active='x' is not an int"),
                    (lambda: cmwq.Hub(on_error=1), "on_error=1 can't be called"),
                    (lambda: cmwq.Hub(history="it"), "history='it' is not a text file"),
                    (lambda: cmwq.Hub(history=io.BytesIO()), "is not a text file"),
                    (lambda: cmwq.Book((1, 1, 1, 1, 1, 1), [cmwq.max_active(1)]), "is not a Shape"),
                    (lambda: cmwq.Hub(queues="ab"), "queues='ab' is not a dict"),
                    (lambda: cmwq.Hub(queues=3), "queues=3 is not a dict"),
                    (lambda: cmwq.Hub(queues={3: cmwq.max_active(1)}), "a name in queues=3 is not a str"),
                    (lambda: hub.queue([]), "name=[] is not a str"),
                    (lambda: cmwq.Hub(history=Writes()), "is not a text file"),
                    (lambda: item.flush(Unlucky()), "timeout=<test_errors."),
                    (lambda: cmwq.Book(cmwq.Shape(1, 1, 1, 1, 1, 1), None), "queues=None is not a sequence of"),
                    (lambda: cmwq.check(5), "history=5 is neither a str nor bytes")):
                with self.assertRaises(TypeError) as raised:
                    call()
                self.assertIn(text, str(raised.exception))
            for call, text in (
                    (lambda: hub.item(print, cpu=1), "cpu=1 is not from 0 to 0"),
                    (lambda: hub.queue("b"), "name='b' is not that of a queue: 'a'"),
                    (lambda: item.queue_on(other.queue("default"), 0), "is of another hub than"),
                    (lambda: item.queue_on(queue, -1), "cpu=-1 is not from 0 to 0"),
                    (lambda: item.queue_delayed(-0.5), "seconds=-0.5 is not from 0 to 42949672.94"),
                    (lambda: item.queue_delayed(math.nan), "seconds=nan is not from"),
                    (lambda: item.modify(math.inf), "seconds=inf is not from"),
                    (lambda: item.modify(10 ** 400), "...00000000000000000000 is not from 0 to"),
                    (lambda: item.modify(10 ** 5000), "is not from 0 to"),
                    (lambda: hub.item(print, cpu=-10 ** 5000), "is not from 0 to 0"),
                    (lambda: item.modify(decimal.Decimal("sNaN")), "seconds=Decimal('sNaN') is not from 0 to"),
                    (lambda: item.flush(decimal.Decimal("NaN")), "timeout=Decimal('NaN') is not from"),
                    (lambda: cmwq.Hub(history=closed), "is not open for writing"),
                    (lambda: cmwq.Hub(history=open(__file__, encoding="utf-8")), "is not open for writing"),
                    (lambda: item.flush(math.nan), "timeout=nan is not from"),
                    (lambda: queue.set_max_active(0), "limit=0 is not from 1 to"),
                    (lambda: cmwq.Hub(workers=65), "workers=65 is not from 1 to 64"),
                    (lambda: cmwq.Hub(cpus=0), "cpus=0 is not from 1 to 64"),
                    (lambda: cmwq.Hub(items=65536), "items=65536 is not from 1 to 65535"),
                    (lambda: cmwq.Hub(waits=255), "waits=255 is not from 1 to 254"),
                    (lambda: cmwq.Hub(keep=0), "keep=0 is not from 1 to"),
                    (lambda: cmwq.Hub(room=2 ** 62 + 1), "is not from 1 to 4611686018427387904"),
                    (lambda: cmwq.Hub(tick=1e-300), "tick=1e-300 is not from 1e-06 to"),
                    (lambda: cmwq.Hub(tick=math.inf), "tick=inf is not from"),
                    (lambda: cmwq.Hub(queues={}), "len(queues)=0 is not from 1 to 255"),
                    (lambda: cmwq.Hub(queues={"a": cmwq.max_active(513)}),
                     "queues['a'].max_active=513 is not from 1 to 512"),
                    (lambda: cmwq.Book(cmwq.Shape(1, 1, 70000, 1, 1, 1), [cmwq.max_active(1)]),
                     "shape.items=70000 is not from 1 to 65535"),
                    (lambda: cmwq.Book(cmwq.Shape(1, 1, 1, 1, 1, 1), []), "len(queues)=0 is not from 1 to 255"),
                    (lambda: cmwq.check("\udc80"), "not a history")):
                with self.assertRaises(ValueError) as raised:
                    call()
                self.assertIsInstance(raised.exception, cmwq.Error)
                self.assertIn(text, str(raised.exception))
            # other numbers are numbers too
            self.assertTrue(item.queue_delayed(fractions.Fraction(3600)))
            self.assertTrue(item.modify(decimal.Decimal("3600.5")))
            self.assertTrue(item.cancel())
            self.assertFalse(any(hub._shell.puts))

    def test_calls_that_are_refused_tell_the_clock_nothing(self):
        class Told:
            """What the clock is told, which it is told all the same."""

            def __init__(self, bell):
                self.bell, self.log, self.empty, self.get = bell, [], bell.empty, bell.get

            def put(self, it):
                self.log.append(it)
                self.bell.put(it)

        queues = {"a": cmwq.max_active(2), "b": cmwq.max_active(2), "gone": cmwq.max_active(1)}
        with self.hub(queues=queues, room=300, keep=4) as hub:
            shell, gate = hub._shell, Gate()
            shell.clock = Told(shell.clock)
            shell.rescue = shell.clock.put
            running, idle, gone = hub.item(gate), hub.item(print), hub.queue("gone").item(print)
            hub.queue("gone").destroy()
            running.queue()
            self.assertTrue(until(lambda: running.running))
            foreign = cmwq.Item(hub.queue("b"), print, 0)
            foreign._number = running._number
            drain = threading.Thread(target=hub.queue("a").drain)
            drain.start()
            self.assertTrue(until(lambda: shell.waits))
            shell.clock.log.clear()
            refused = [(gone, cmwq.Gone), (idle, cmwq.Draining), (foreign, cmwq.Foreign)]
            for seconds in (0, 0.02, 60):
                for item, kind in refused:
                    self.assertRaises(kind, item.queue_delayed, seconds)
                    self.assertRaises(kind, item.modify, seconds)
            self.assertRaises(cmwq.Invalid, idle.modify, -1)
            self.assertRaises(TypeError, idle.modify, "1")
            self.assertEqual(shell.clock.log, [])
            gate.go.release()
            drain.join()
            shell.clock.log.clear()
            with self.assertRaises(cmwq.Full):
                while True:
                    idle.cancel()
            for call in (lambda: idle.queue_delayed(60), lambda: idle.modify(0), hub.freeze, idle.cancel):
                self.assertRaises(cmwq.Full, call)
            self.assertEqual((shell.clock.log, shell.has_timers, shell.due), ([], False, cmwq._library.NEVER))
        judged(self.text)

    def test_time_limits(self):
        with self.hub() as hub:
            gate = Gate()
            item = hub.item(gate)
            item.queue()
            for past in (0, -1, -math.inf, 1e-9):
                self.assertRaises(cmwq.TimedOut, item.flush, past)
            threading.Timer(0.05, gate.go.release).start()
            self.assertTrue(item.flush(math.inf))
            item.queue()
            threading.Timer(0.05, gate.go.release).start()
            self.assertTrue(item.flush(1e300))
            item.queue()
            threading.Timer(0.05, gate.go.release).start()
            hub.flush(timeout=math.inf)
        judged(self.text)

    def test_time_limits_in_work_functions(self):
        with self.hub(workers=8) as hub:
            gate, told = Gate(), []
            slow = hub.item(gate)
            has_left = threading.Event()

            @hub.item
            def awaited(run):
                with run.block():
                    has_left.wait(20)
                leaves.flush()  # which would be a deadlock, had it not left its wait
                told.append("flushed")

            @hub.item
            def leaves(run):
                for limit in (0, 0.001, 0.01):
                    self.assertRaises(cmwq.TimedOut, awaited.flush, limit)
                    self.assertRaises(cmwq.TimedOut, slow.cancel_sync, limit)
                with run.block():
                    self.assertRaises(cmwq.TimedOut, awaited.flush, 0.001)
                has_left.set()
                with run.block():
                    time.sleep(0.05)
                gate.go.release()
                slow.flush(20)

            for item in (slow, awaited, leaves):
                item.queue()
            hub.flush()
            self.assertEqual(told, ["flushed"])
        judged(self.text)

    def test_handles_are_shown(self):
        with tempfile.TemporaryFile("w+") as history:
            hub = cmwq.Hub(queues={"disk": cmwq.max_active(2), "net": cmwq.max_active(1)}, cpus=2, history=history)
            gate, shown = Gate(), []
            item = hub.queue("net").item(gate)
            self.assertRegex(repr(item), r"^<cmwq.Item 0 of 'net': <.*Gate object.*>, idle>$")
            self.assertEqual(repr(hub.queue("disk")), "<cmwq.Queue 'disk'>")
            self.assertIs(hub.queue("disk"), hub.queue("disk"))
            self.assertEqual(repr(hub), "<cmwq.Hub 'disk', 'net': CPUs 2, workers 4, items pending or running 0>")
            item.queue_delayed(60)
            self.assertIn(", delayed>", repr(item))
            item.modify(0)
            self.assertTrue(until(lambda: item.running))
            item.queue()
            self.assertIn(", queued and running>", repr(item))
            self.assertIn("items pending or running 1>", repr(hub))
            gate.go.release()
            gate.go.release()
            own = hub.item(lambda run: shown.extend((repr(run), repr(run.block()))))
            own.queue()
            hub.flush()
            self.assertRegex(shown[0], "^<cmwq.Run of <cmwq.Item . of 'disk': Errors.test_handles_are_.*running>>$")
            self.assertEqual(shown[1], f"<cmwq.Block of {shown[0]}>")
            hub.shutdown()
            self.assertIn("<cmwq.Hub (shut down) 'disk'", repr(hub))

    def test_items_after_the_end(self):
        hub, told = self.hub(), []
        gate = threading.Event()

        def work(run):
            gate.wait(20)
            while not hub._shell.closing:
                time.sleep(0.001)
            told.append(hub.item(lambda run: told.append("ran")).queue())  # of a run: it runs too

        hub.item(work).queue()
        ends = threading.Thread(target=hub.shutdown)
        ends.start()
        gate.set()
        ends.join()
        self.assertEqual(told, [True, "ran"])
        self.assertRaisesRegex(cmwq.Closed, "^the hub is shut down$", hub.item, print)
        judged(self.text)
