"""What comes into a call at each of its points in turn: a signal handler that raises, one that waits for the very thing
that it has interrupted, and one that shuts the hub down. A point is before a line of the package."""
import faulthandler
import io
import itertools
import os
import signal
import sys
import threading
import time
import traceback
import warnings

from common import PACKAGE, SECONDS, Case, cmwq, judged, until

FILES = os.path.join(PACKAGE, "cmwq", "")


class Interrupt(BaseException):
    """What a handler raises, as that of Ctrl-C raises KeyboardInterrupt."""


def comes_in(point, call, handler):
    """Makes a call, and calls the handler when it is at this point. Returns whether it came so far."""
    left = [point]

    def trace(frame, event, _):
        if not frame.f_code.co_filename.startswith(FILES):
            return None
        if event == "line":
            left[0] -= 1
            if left[0] == -1:
                sys.settrace(None)
                handler()
        return trace

    before = sys.gettrace()
    sys.settrace(trace)
    try:
        call()
    finally:
        sys.settrace(before)
    return left[0] < 0


def interrupted(point, call):
    """The interrupt that has come into the call, if one has."""
    def handler():
        raise Interrupt

    try:
        comes_in(point, call, handler)
        return None
    except Interrupt as why:
        return why.with_traceback(None)


def status_of(process):
    """How a process has ended, or None if it hangs."""
    end = time.monotonic() + 20
    while time.monotonic() < end:
        ended, status = os.waitpid(process, os.WNOHANG)
        if ended:
            return status
        time.sleep(2e-4)
    os.kill(process, signal.SIGKILL)
    return None


class Scene:
    """A hub with an item that runs for a short time, or until it is told to end, and a delayed one."""

    def __init__(self, test, waits=6):
        faulthandler.dump_traceback_later(SECONDS, exit=True)
        queues = {"a": cmwq.max_active(2, freezable=True), "b": cmwq.max_active(1)}
        self.test, self.hub = test, test.hub(workers=2, items=6, waits=waits, keep=16, queues=queues)
        self.go, self.seconds, self.timer, self.runs = threading.Event(), 0, None, 0
        self.queue = self.hub.queue("a")
        self.item, self.later = self.queue.item(self.work), self.queue.item(lambda run: None)
        self.mark = self.hub.queue("b").item(lambda run: None)

    def work(self, run):
        self.runs += 1
        with run.block():
            self.go.wait(self.seconds)

    def busy(self, seconds=0.001):
        self.go.clear()
        self.seconds = seconds
        self.item.queue()

    def delayed(self):
        self.later.queue_delayed(3600)

    def calls(self):
        """Calls, each with what comes before it."""
        item, later, queue, hub = self.item, self.later, self.queue, self.hub

        def nothing():
            pass

        def queued():
            self.busy(5)
            self.test.assertTrue(until(lambda: item.running))
            item.queue()

        def ends():
            queued()
            self.timer = threading.Timer(0.001, self.go.set)
            self.timer.start()

        return {
            "queue": (nothing, item.queue), "queue_on": (nothing, lambda: item.queue_on(hub.queue("b"), 0)),
            "queue again": (queued, item.queue),
            "queue_delayed": (nothing, lambda: later.queue_delayed(0.001)),
            "modify": (self.delayed, lambda: later.modify(0.001)),
            "modify to now": (self.delayed, lambda: later.modify(0)),
            "cancel a delay": (self.delayed, later.cancel), "cancel": (queued, item.cancel),
            "cancel_sync": (ends, item.cancel_sync), "flush": (self.busy, item.flush),
            "flush_delayed": (self.delayed, later.flush_delayed),
            "flush with a time limit": (self.busy, self.flush_soon),
            "flush the queue": (self.busy, queue.flush), "flush the hub": (self.busy, hub.flush),
            "drain": (self.busy, queue.drain), "item": (nothing, lambda: hub.item(print)),
            "item that is queued": (nothing, lambda: hub.item(lambda run: None).queue()),
            "freeze": (nothing, hub.freeze), "thaw": (hub.freeze, hub.thaw),
            "set_max_active": (nothing, lambda: queue.set_max_active(2)), "shown": (queued, lambda: repr((hub, item))),
        }

    def flush_soon(self):
        try:
            self.item.flush(0.001)
        except cmwq.TimedOut:
            pass

    def settle(self):
        """All ends without another call, and nothing is kept."""
        shell = self.hub._shell
        self.go.set()
        if self.timer:
            self.timer.join()
        self.hub.thaw()
        self.later.cancel()
        items = (self.item, self.later, self.mark)
        self.test.assertTrue(until(lambda: not any(item.pending or item.running for item in items), 5), items)
        self.test.assertTrue(until(lambda: not (shell.waits or shell.before or shell.owed or any(shell.puts)), 5))
        self.test.assertTrue(until(lambda: len(shell.free) == 3, 5), shell.free)
        # lent callers are there, and whoever waits is woken
        self.mark.queue()
        self.mark.flush(timeout=5)


class Points(Case):
    def names(self):
        scene = Scene(self)
        scene.hub.shutdown()
        return [*scene.calls()]

    def at_each_point(self, comes):
        """Makes each call with what comes in at each of its points. Returns the number of all points."""
        counts = []
        for name in self.names():
            scene = Scene(self)
            before, call = scene.calls()[name]
            for point in itertools.count():
                before()
                came = comes(scene, point, call)
                with self.subTest(call=name, point=point):
                    scene.settle()
                if not came:
                    break
            counts.append(point)
            scene.hub.shutdown()
            judged(self.text)
        self.assertGreater(min(counts), 3)
        return sum(counts)

    def test_a_handler_raises(self):
        print(self.at_each_point(lambda scene, point, call: interrupted(point, call)), "points")

    def test_a_handler_waits_for_what_it_interrupts(self):
        """Both calls end, each of the waits too."""
        def waits(scene, point, call):
            def handler():
                scene.go.set()
                call()
                scene.item.flush(timeout=20)
                scene.queue.flush(timeout=20)

            return comes_in(point, call, handler)

        self.at_each_point(waits)

    def test_a_handler_that_has_no_wait_left(self):
        """It is told so, and the wait that it has interrupted ends."""
        for name in ("flush", "cancel_sync", "drain", "flush the hub"):
            scene, told = Scene(self, waits=1), []
            before, call = scene.calls()[name]

            def handler():
                try:
                    scene.item.flush()  # noqa: B023
                except cmwq.TooManyWaits:
                    told.append(1)  # noqa: B023

            for point in itertools.count():
                before()
                if not comes_in(point, call, handler):
                    break
            self.assertGreater(len(told), 3)
            scene.settle()
            scene.hub.shutdown()
            judged(self.text)

    def test_a_handler_shuts_down(self):
        """The call ends, or raises Closed."""
        closed = ended = 0
        for name in ("queue", "queue again", "modify", "cancel_sync", "flush", "flush_delayed", "drain",
                     "item that is queued", "freeze", "set_max_active"):
            for point in itertools.count():
                scene = Scene(self)
                before, call = scene.calls()[name]

                def handler():
                    scene.go.set()  # noqa: B023
                    scene.hub.shutdown()  # noqa: B023

                before()
                try:
                    came = comes_in(point, call, handler)
                    ended += 1
                except cmwq.Closed:
                    came = True
                    closed += 1
                scene.go.set()
                scene.hub.shutdown()
                self.assertFalse(scene.item.pending or scene.item.running or scene.later.pending)
                judged(self.text)
                if not came:
                    break
        self.assertGreater(closed, 100)
        self.assertGreater(ended, 100)

    def test_a_fork_comes_in(self):
        """In the new process the call ends, or raises Closed, and so do all others. The old one goes on."""
        warnings.simplefilter("ignore")  # of forks while there are threads
        forks = 0
        for name in ("queue again", "modify", "item", "flush"):
            scene = Scene(self)
            before, call = scene.calls()[name]
            child = []

            def handler():
                child.append(os.fork())  # noqa: B023

            def ends(raised):
                """What the new process does."""
                try:
                    if not isinstance(raised, (cmwq.Closed, type(None))):
                        raise raised
                    for other in (scene.hub.freeze, scene.item.queue, scene.item.flush, scene.hub.drain):  # noqa: B023
                        self.assertRaises(cmwq.Closed, other)
                    assert "forked" in repr(scene.hub) and not scene.item.pending  # noqa: B023
                    scene.hub.shutdown()  # noqa: B023
                    os._exit(0)
                except BaseException:
                    traceback.print_exc()
                finally:
                    os._exit(1)

            for point in itertools.count():
                before()
                child.clear()
                try:
                    came = comes_in(point, call, handler)
                except BaseException as why:
                    if child != [0]:
                        raise
                    ends(why)
                if child == [0]:
                    ends(None)
                for process in child:
                    forks += 1
                    self.assertEqual(status_of(process), 0, f"{name}, point {point}")
                scene.settle()
                if not came:
                    break
            scene.hub.shutdown()
            judged(self.text)
        self.assertGreater(forks, 100)

    def test_an_interrupted_start(self):
        """The threads that have started end."""
        def made():
            hubs.append(cmwq.Hub(workers=1, history=self.file))

        known, known_shells, hubs = set(threading.enumerate()), set(cmwq._shell.open_shells), []
        for point in itertools.count():
            self.file = io.StringIO()
            came = interrupted(point, made)
            hubs.clear()
            self.assertTrue(until(lambda: not set(threading.enumerate()) - known, 5), point)
            self.assertFalse(cmwq._shell.open_shells - known_shells)
            if self.file.getvalue():
                judged(self.file)
            if not came:
                break
        self.assertGreater(point, 50)

    def test_an_interrupted_shutdown(self):
        """The next one waits for the end, and tells what there is to tell unless that was told."""
        def fails(run):
            raise ValueError

        for point in itertools.count():
            hub = self.hub(workers=1)
            item = hub.item(fails)
            item.queue()
            came, told = None, []
            try:
                came = interrupted(point, hub.shutdown)
                if isinstance(came.__context__, cmwq.WorkError):  # it is shown with the interrupt
                    told.append(came.__context__)
            except cmwq.WorkError as why:
                told.append(why)
            try:
                hub.shutdown()
            except cmwq.WorkError as why:
                told.append(why)
            self.assertTrue(told, point)
            self.assertFalse(item.pending or item.running)
            judged(self.text)
            if not came:
                break
        self.assertGreater(point, 10)
