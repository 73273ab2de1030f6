"""What comes into a call of a durable hub at each of its points in turn: a signal handler that raises, one that makes
calls, and a fork. Nothing is lost, nobody waits for ever, and the journal is not kept from the next hub."""
import faulthandler
import gc
import itertools
import os
import random
import signal
import traceback
import warnings

from common import SECONDS, SEEDS, Case, cmwq, until
from memory import Memory
from test_points import comes_in, interrupted, status_of
from test_signals import Alarm

LONG = 1000.0
QUEUES = {"a": cmwq.max_active(2, freezable=True), "b": cmwq.max_active(1)}


class Scene:
    """A hub whose item 0 is queued in a frozen queue, and whose item 1 is delayed. Item 2 runs, and item 3 is idle."""

    def __init__(self, disk):
        faulthandler.dump_traceback_later(SECONDS, exit=True)
        self.disk, self.ran = disk, []
        self.hub = cmwq.Hub(durable="/some/journal", queues=QUEUES, workers=1, waits=4, each=True)
        self.hub._shell.disk.files = disk
        self.a, self.b = self.hub.queue("a"), self.hub.queue("b")
        self.items = [self.a.item(lambda run: None, name="0"), self.a.item(lambda run: None, name="1"),
                      self.b.item(lambda run: self.ran.append(1), name="2"),
                      self.a.item(lambda run: None, name="3")]

    def fill(self):
        self.hub.freeze()
        self.items[0].queue()
        self.items[1].queue_delayed(LONG)

    def calls(self):
        one, later, runs, idle = self.items
        return {"queue": idle.queue, "queue again": one.queue, "modify": lambda: idle.modify(LONG),
                "cancel": one.cancel, "cancel_sync": later.cancel_sync, "runs": runs.queue, "flush": runs.flush,
                "queue_all": lambda: self.a.queue_all([one, later, idle]), "thaw": self.hub.thaw,
                "set_max_active": lambda: self.a.set_max_active(3), "sync": self.hub.sync}

    def pending(self):
        return [item.pending for item in self.items if item is not self.items[2]]


class Points(Case):
    def setUp(self):
        """An exception that comes into a finalizer is lost, so none is called by chance."""
        super().setUp()
        gc.disable()
        self.addCleanup(gc.enable)
        self.count, self.chance = 0, random.Random(9)

    def points(self):
        """All points with CMWQ_SEEDS=100, and otherwise some."""
        point = 0
        while True:
            yield point
            point += 1 if SEEDS >= 100 else self.chance.randint(1, 4)

    def scene(self, disk):
        self.count += 1
        if self.count % 50 == 0:
            gc.collect()
        return Scene(disk)

    def end(self, scene, **more):
        """Leaves a hub, and opens the next one with its journal."""
        scene.hub.leave()
        self.assertFalse(any(it.is_open for it in scene.disk.handles))
        scene = self.scene(scene.disk)
        scene.hub.resume()
        return scene

    def as_it_was(self, disk):
        """The next life has what the scene has begun with."""
        scene = self.scene(disk)
        scene.hub.resume()
        self.assertEqual(scene.pending(), [True, True, False])
        scene.hub.leave()

    def left(self):
        """The disk, after a life that has left something."""
        disk = Memory()
        scene = self.scene(disk)
        with scene.hub:
            scene.fill()
        return disk

    def test_a_handler_raises(self):
        """The call is made or not. Others go on, and the next life is as this one was."""
        points = 0
        for name in Scene(None).calls():
            scene = self.scene(Memory())
            scene.hub.resume()
            for point in self.points():
                scene.fill()
                came = interrupted(point, scene.calls()[name])
                with self.subTest(call=name, point=point):
                    shell = scene.hub._shell
                    self.assertTrue(until(lambda: not (shell.waits or shell.before or shell.owed), 5))  # noqa: B023
                    scene.items[2].queue()
                    scene.items[2].flush(timeout=5)
                    scene.hub.freeze()
                    before = scene.pending()
                    scene = self.end(scene)
                    self.assertEqual(scene.pending(), before)
                if not came:
                    break
                scene.items[3].cancel()
            points += point
            scene.hub.leave()
        print(points, "points")
        self.assertGreater(points, 200)

    def test_an_interrupted_beginning(self):
        disk = self.left()
        for point in self.points():
            scene = self.scene(disk)
            came = interrupted(point, scene.hub.resume)
            shell = scene.hub._shell
            if came and not shell.threads:
                self.assertFalse(any(it.is_open for it in disk.handles))
                scene.hub.resume()  # another time
                self.assertEqual(scene.pending(), [True, True, False])
            elif came and not shell.is_open:
                self.assertRaises(cmwq.Closed, scene.hub.resume)
            scene.hub.leave()
            self.assertTrue(until(lambda: not any(it.is_open for it in disk.handles), 5), point)
            self.as_it_was(disk)
            if not came:
                break
        self.assertGreater(point, 100)

    def test_ctrl_c_while_the_disk_is_slow(self):
        """The call was made, and is durable soon. The next one waits for that."""
        disk = Memory()
        scene = self.scene(disk)
        with scene.hub, Alarm(signal.default_int_handler):
            scene.hub.freeze()
            for call in (scene.items[0].queue, scene.hub.sync):
                disk.sync_takes = 0.3

                def interrupted_call():
                    signal.setitimer(signal.ITIMER_REAL, 0.02)
                    scene.items[1].modify(LONG)
                    call()  # noqa: B023

                self.assertRaises(KeyboardInterrupt, interrupted_call)
                disk.sync_takes = 0
                scene.hub.sync()
                self.assertIn("modify 1", disk.synced_text())
                self.assertTrue(until(lambda: not scene.hub._shell.owed))
        scene = self.scene(disk)
        with scene.hub:
            self.assertTrue(scene.items[1].pending)

    def test_an_interrupted_leave(self):
        disk = self.left()
        for point in self.points():
            scene = self.scene(disk)
            scene.hub.resume()
            came = interrupted(point, scene.hub.leave)
            scene.hub.leave()
            self.assertFalse(any(it.is_open for it in disk.handles))
            self.as_it_was(disk)
            if not came:
                break
        self.assertGreater(point, 8)

    def test_a_handler_makes_calls(self):
        """In a beginning they are refused until it has come to its end, and in other calls they are made."""
        def calls(scene):
            for call in (scene.items[3].queue, scene.hub.sync, scene.hub.resume, scene.items[2].queue,
                         scene.items[2].flush):
                try:
                    call()
                except (cmwq.Closed, cmwq.Invalid):
                    pass

        for name in (None, "queue", "sync", "cancel_sync", "flush"):
            disk = self.left()
            for point in self.points():
                scene = self.scene(disk)
                call = scene.hub.resume if name is None else scene.calls()[name]
                if name is not None:
                    scene.hub.resume()
                came = comes_in(point, call, lambda: calls(scene))  # noqa: B023
                self.assertTrue(scene.hub._shell.is_open)
                scene.items[3].queue()
                scene.items[1].queue_delayed(LONG)
                scene = self.end(scene)
                self.assertEqual(scene.pending(), [True, True, True])
                scene.hub.leave()
                if not came:
                    break
            self.assertGreater(point, 10)

    def test_a_handler_leaves(self):
        """Nothing is lost, and the call ends, or raises Closed."""
        closed = 0
        for name in (None, "queue", "queue again", "sync", "cancel_sync", "modify"):
            for point in self.points():
                disk = self.left()
                scene = self.scene(disk)
                call = scene.hub.resume if name is None else scene.calls()[name]
                if name is not None:
                    scene.hub.resume()
                    if name != "cancel_sync":
                        scene.items[1].queue_delayed(LONG)
                try:
                    came = comes_in(point, call, scene.hub.leave)
                except cmwq.Closed:
                    came = True
                    closed += 1
                scene.hub.leave()
                self.assertTrue(until(lambda: not any(it.is_open for it in disk.handles), 5))  # noqa: B023
                scene = self.scene(disk)
                scene.hub.resume()
                self.assertEqual(scene.pending()[0], True)
                self.assertEqual(scene.pending()[1] or name == "cancel_sync", True)
                scene.hub.leave()
                if not came:
                    break
            self.assertGreater(point, 10)
        self.assertGreater(closed, 100)

    def test_a_fork_comes_into_the_beginning(self):
        """The new process has no part of it: neither the journal nor its lock."""
        warnings.simplefilter("ignore")  # of forks while there are threads
        disk, forks = self.left(), 0

        def ends(raised, scene):
            """What the new process does."""
            try:
                if not isinstance(raised, (cmwq.Closed, type(None))):
                    raise raised
                if scene.hub._shell.is_forked:
                    assert not any(it.is_open for it in scene.disk.handles)
                    for call in (scene.hub.resume, scene.items[0].queue, scene.hub.sync):
                        self.assertRaises(cmwq.Closed, call)
                scene.hub.leave()
                os._exit(0)
            except BaseException:
                traceback.print_exc()
            finally:
                os._exit(1)

        for point in self.points():
            scene, child = self.scene(disk), []
            try:
                came = comes_in(point, scene.hub.resume, lambda: child.append(os.fork()))  # noqa: B023
            except BaseException as why:
                if child != [0]:
                    raise
                ends(why, scene)
            if child == [0]:
                ends(None, scene)
            for process in child:
                forks += 1
                self.assertEqual(status_of(process), 0, f"point {point}")
            scene.hub.leave()
            self.as_it_was(disk)
            if not came:
                break
        self.assertGreater(forks, 100)
