"""Durable hubs on a disk in memory, whose operations and whose power fail, and on real files. What a call has told is
so in the next life, and nobody waits for ever. With CMWQ_SEEDS=100 the power fails before each operation."""
import errno
import faulthandler
import os
import random
import shutil
import subprocess
import sys
import tempfile
import threading
import unittest
import warnings

from common import REPOSITORY, SECONDS, SEEDS, Case, Gate, cmwq, judged, judged_by_program, run_program, until
from memory import DROPPED, HOWS, KEPT, LINES, Memory

ITEMS, LONG = 8, 1000.0

# What a caller knows of an item.
NOTHING, PENDING, UNKNOWN = "nothing", "pending", "unknown"

QUEUES = {"a": cmwq.max_active(2, freezable=True), "b": cmwq.max_active(1, freezable=True)}
THREE = {"a": cmwq.max_active(2, freezable=True), "b": cmwq.max_active(1), "c": cmwq.max_active(1)}

# Item 0 runs, 1 is queued, 2 is due, 3 and 4 are booked for later, the width of queue 0 is 3, and queue 2 is gone.
LEFT = """history 3
shape 1 1 3 8 100000
wq 2 f
wq 1 -
wq 1 -
c0 0 set_max 0 3 = width 3
c0 1 queue 0 0 0 = yes 1
w0n0 0 take = started 1
c0 2 queue 1 0 0 = yes 3
c0 3 delay 2 0 0 3 = booked 3
c0 4 delay 3 1 0 500000 = booked 500000
c0 5 tick 5 = now 5
c0 6 delay 4 0 0 900000 = booked 900005
c1 0 destroy 2 = ticket 8
c1 1 end 8 = done
"""

# What the next life has of it, but for the numbers of callers and workers in its shape.
TAKEN = """wq 2 f
wq 1 -
wq 1 -
c0 0 set_max 0 3 = width 3
c1 0 destroy 2 = ticket 1
c1 1 end 1 = done
c0 1 queue 0 0 0 = yes 3
c0 2 queue 1 0 0 = yes 4
c0 3 delay 2 0 0 1 = booked 1
c0 4 tick 1 = now 1
c0 5 fire = fired 2 7
c0 6 fire = nothing
c0 7 delay 3 1 0 499995 = booked 499996
c0 8 delay 4 0 0 900000 = booked 900001
"""

HEAD = "history 3\nshape 1 1 3 8 100\nwq 2 f\n"


class Life:
    """A hub whose items count their runs. They are of the queue b if their number is odd and `two` is set."""

    def __init__(self, files, queues=QUEUES, items=ITEMS, workers=1, waits=2, each=True, works=None,
                 path="/some/journal", **more):
        faulthandler.dump_traceback_later(SECONDS, exit=True)
        self.hub = cmwq.Hub(durable=path, queues=queues, workers=workers, waits=waits, each=each, **more)
        if files is not None:
            self.hub._shell.disk.files = files
        self.ran, works = [0] * items, works or {}
        self.items = [self.hub.item(self.counted(at, works.get(at)), name=f"item {at}") for at in range(items)]

    def counted(self, at, work):
        def runs(run):
            if work is not None:
                work(self)
            self.ran[at] += 1
        return runs

    def busy(self, at):
        return self.items[at].pending or self.items[at].running

    def __enter__(self):
        self.hub.__enter__()
        return self

    def __exit__(self, *why):
        self.hub.__exit__(*why)


class Durable(Case):
    def setUp(self):
        super().setUp()
        self.chance = random.Random(8)

    def refused(self, kind, files, **more):
        """The exception with which a hub isn't opened."""
        with self.assertRaises(kind) as told:
            Life(files, **more).hub.resume()
        self.assertFalse(any(it.is_open for it in files.handles))
        return told.exception

    # ---- the power fails ----

    def makes(self, at, after, call):
        """A call after which the item is pending, or is not. Once the disk has failed, no call is made."""
        before, self.promises[at] = self.promises[at], UNKNOWN
        try:
            call()
            self.assertFalse(self.broken)
            self.promises[at] = after
        except cmwq.NotDurable:
            self.assertFalse(self.broken)
            self.broken = True
        except cmwq.DiskFailed:
            self.broken, self.promises[at] = True, before

    def live(self, disk):
        """A first life, in which nothing runs, since all queues are frozen. Returns whether it has ended well."""
        self.promises, self.broken = [NOTHING] * ITEMS, False
        disk.on_cut = self.note
        life = Life(disk, keep_old=True)
        hub, items = life.hub, life.items
        a, b = hub.queue("a"), hub.queue("b")
        try:
            hub.resume()
        except cmwq.DiskFailed:
            return False
        self.makes(0, NOTHING, hub.freeze)
        self.makes(0, PENDING, items[0].queue)
        self.makes(1, PENDING, lambda: items[1].queue_on(b, 0))
        self.makes(2, PENDING, lambda: items[2].queue_delayed(LONG))
        self.makes(3, PENDING, items[3].queue)
        self.makes(3, NOTHING, items[3].cancel)
        self.makes(2, PENDING, lambda: items[2].modify(LONG))
        self.makes(4, NOTHING, lambda: b.set_max_active(5))
        self.makes(5, PENDING, lambda: items[5].queue_delayed(LONG))
        self.makes(5, NOTHING, items[5].cancel_sync)
        self.promises[6] = UNKNOWN
        self.makes(7, PENDING, lambda: a.queue_all(items[6:]))
        if self.promises[7] != UNKNOWN:
            self.promises[6] = self.promises[7]
        try:
            hub.leave()
        except cmwq.DiskFailed:
            return False
        self.assertFalse(self.broken)
        return True

    def note(self):
        self.promises_at = [*self.promises]

    def live_again(self, disk):
        """The next life, where items are as they were promised. Returns whether its journal is taken."""
        disk.on_cut = lambda: None
        life = Life(disk, keep_old=self.chance.random() < 0.5)
        try:
            life.hub.resume()
        except cmwq.BadJournal:
            self.assertEqual(disk.how, LINES)  # garbage with lines is none of a history
            return False
        for at, promise in enumerate(self.promises_at):
            is_busy = life.busy(at)
            if promise == PENDING:
                self.assertTrue(is_busy or life.ran[at], (at, disk.text()))
            if promise == NOTHING:
                self.assertFalse(is_busy or life.ran[at], (at, disk.text()))
        life.hub.leave()
        return True

    def memory(self, files, cut_at, how):
        return Memory(files, cut_at, how, self.chance)

    def test_the_power_fails(self):
        """Before each operation of a life, and then before some of the next: of all with CMWQ_SEEDS=100."""
        cuts, step = 0, 4 if SEEDS < 100 else 1
        for how in HOWS:
            at = self.chance.randint(1, step)
            while True:
                disk = self.memory({}, at, how)
                self.assertTrue(self.live(disk))
                if disk.image is None:
                    break
                before, then = disk.image, 0
                while True:
                    disk = self.memory(before, then, how)
                    if not self.live_again(disk) or then and disk.image is None:
                        break
                    cuts += 1
                    if then:
                        before = disk.image  # the next power failure is another one
                        self.live_again(self.memory(before, 0, how))
                    then += 1 if then == 0 or step == 1 else self.chance.randint(3, 12)
                at += self.chance.randint(1, 2 * step - 1)
        print(f"{cuts} power failures")
        self.assertGreater(cuts, 100)

    def test_operations_fail(self):
        """Each of a life in turn; then the power does, or only the program ends."""
        failures = 0
        for why in (errno.EIO, errno.ENOSPC):
            at = 1
            while True:
                disk = Memory()
                disk.fail_at, disk.fail_with = at, why
                is_well = self.live(disk)
                disk.fail_at = 0
                if disk.operations < at:
                    self.assertTrue(is_well)
                    break
                self.assertFalse(is_well)
                self.assertFalse(any(it.is_open for it in disk.handles))
                failures += 1
                for disk.how in (DROPPED, KEPT):
                    self.note()
                    disk.cut()
                    self.live_again(Memory(disk.image))
                at += 1
        print(f"{failures} failed operations")
        self.assertGreater(failures, 50)

    def test_parts_are_written(self):
        """By a disk that writes a part of what it is given."""
        disk = Memory()
        disk.at_once = 7
        self.assertTrue(self.live(disk))
        self.note()
        disk.how = KEPT
        disk.cut()
        self.live_again(Memory(disk.image))
        judged(disk.text() + f"end {disk.text().count('=')}\n")

    # ---- what is taken over ----

    def test_what_is_resumed(self):
        asked = []

        def again(name):
            asked.append(name)
            return True

        disk = Memory({"journal": LEFT.encode()})
        with Life(disk, THREE, again=again, tick=0.001) as life:
            self.assertIn(TAKEN, disk.text())
            self.assertEqual(asked, ["item 0"])
            self.assertRaises(cmwq.Gone, life.items[5].queue_on, life.hub.queue("c"), 0)
            life.items[0].flush()
            life.hub.queue("a").flush()
            self.assertEqual(life.ran[:5], [1, 1, 1, 0, 0])
            self.assertTrue(life.items[3].pending and life.items[4].pending)
            self.assertEqual(life.hub.queue("a").set_max_active(600), 512)
        self.assertNotIn("\nend ", disk.text())
        judged(disk.text() + f"end {disk.text().count('=')}\n")
        with Life(disk, THREE) as life:
            self.assertTrue(life.items[3].pending and life.items[4].pending)
            self.assertIn("set_max 0 512", disk.text())
            self.assertRaises(cmwq.Gone, life.items[5].queue_on, life.hub.queue("c"), 0)

    def test_a_run_is_left_out(self):
        """One that makes the program crash each time, and nothing else."""
        disk, asked = Memory({"journal": LEFT.encode()}), []
        with Life(disk, THREE, again=asked.append) as life:
            life.hub.queue("a").flush()
            self.assertEqual((asked, life.ran[:4]), (["item 0"], [0, 1, 1, 0]))
            self.assertTrue(life.items[3].pending)

    def test_again_raises(self):
        """The journal stays as it is, and the hub may be opened another time."""
        disk, wrong = Memory({"journal": LEFT.encode()}), [1]

        def again(name):
            if wrong:
                raise FileNotFoundError(name)
            return True

        life = Life(disk, THREE, again=again)
        self.assertRaises(FileNotFoundError, life.hub.resume)
        self.assertEqual(disk.text(), LEFT)
        wrong.clear()
        with life:
            life.hub.queue("a").flush()
            self.assertEqual(life.ran[:4], [1, 1, 1, 0])

    def test_the_shape_may_grow_alone(self):
        disk = Memory({"journal": LEFT.encode()})
        four = {**THREE, "d": cmwq.max_active(1)}
        for text, more in (("8 items, and the hub 7: number 7", {"queues": THREE, "items": 7}),
                           ("3 queues, and the hub 2", {})):
            self.assertIn(text, str(self.refused(cmwq.OtherShape, disk, **more)))
        self.assertEqual(disk.text(), LEFT)
        with Life(disk, four, items=9, cpus=2):
            pass
        self.assertIn("2 CPUs, and the hub 1", str(self.refused(cmwq.OtherShape, disk, queues=four, items=9)))
        # but after an end of any shape nothing is left; and the last journal is kept
        life = Life(disk, four, items=9, cpus=2)
        life.hub.resume()
        life.hub.shutdown()
        judged(disk.text())
        with Life(disk, items=5, keep_old=True):
            pass
        self.assertIn("\nend ", disk.text("journal.1"))
        self.assertNotIn("\nc0 0", disk.text())

    def test_a_journal_of_nothing(self):
        for text in (None, b"", bytes(600), f"{HEAD}end 0\nend".encode()):
            with Life(Memory({} if text is None else {"journal": text}), items=1) as life:
                self.assertFalse(life.busy(0))

    def test_journals_that_are_wrong(self):
        first = "c0 0 queue 0 0 0 = yes 0\n"
        for rest, line in ((f"{first}bad\nc0 1 queue 1 0 0 = yes 1\n", 5),
                           (f"{first}c0 0 queue 1 0 0 = yes 1\nbad\n", 6),
                           (f"{first}c0 0 queue 1 0 0 = yes 1\n", 5), (f"{first}c0 1 queue 1 0 0 = yes 2\n", 5),
                           ("c0 0 queue 9 0 0 = yes 0\n", 4), ("end 0\nc0 0 queue 1 0 0 = yes 0\n", 5),
                           (f"{first[:-1]}{' ' * 120}\n", 4)):
            disk = Memory({"journal": (HEAD + rest).encode()})
            self.assertEqual(self.refused(cmwq.BadJournal, disk).line, line)
            self.assertEqual(disk.text(), HEAD + rest)
        self.assertEqual(self.refused(cmwq.BadJournal, Memory({"journal": b"no journal"})).line, 1)

    def test_what_is_torn(self):
        head = HEAD.encode()
        # a zero is as wrong as any other byte, but in what a disk had not written
        for text in (head + b"\0\0\0bad\n", (head + b"\0\0\0bad\n").ljust(512, b"\0")):
            self.assertEqual(self.refused(cmwq.BadJournal, Memory({"journal": text})).line, 4)
        for text in (head + b"\0", head.ljust(512, b"\0") + b"bad\n", head + b"c0 0 queue", head + b"x" * 300):
            with Life(Memory({"journal": text})):
                pass
        disk = Memory({"journal": LEFT.encode() + b"x" * 300})
        with Life(disk, THREE):
            self.assertIn(TAKEN, disk.text())

    # ---- calls ----

    def test_items_are_declared(self):
        disk = Memory()
        hub = cmwq.Hub(durable="/some/journal", items=2)
        hub._shell.disk.files = disk
        self.assertRaises(cmwq.Invalid, hub.resume)
        for refused in (lambda: hub.item(print), lambda: hub.queue("default").item(print)):
            with self.assertRaises(cmwq.Invalid) as told:
                refused()
            self.assertIn("has a name", str(told.exception))

        @hub.item(name="one")
        def one(run):
            pass

        two = hub.queue("default").item(print, name="two")
        self.assertEqual((one.name, two.name, one._number, two._number), ("one", "two", 0, 1))
        self.assertRaises(cmwq.NoItem, hub.item, print, name="three")
        for call in (one.queue, one.flush, hub.freeze, hub.sync, hub.flush, lambda: one.queue_delayed(1)):
            with self.assertRaises(cmwq.Closed) as told:
                call()
            self.assertIn("not open yet", str(told.exception))
        self.assertFalse(one.pending or one.running)
        self.assertIn("not open yet", repr(hub))
        with hub:
            self.assertRaises(cmwq.Invalid, hub.item, print, name="four")
            hub.resume()  # it is open
            with hub:
                self.assertTrue(one.queue())
            self.assertRaises(cmwq.Closed, one.queue)
        self.assertRaises(cmwq.Closed, hub.resume)
        self.assertRaises(cmwq.Closed, hub.item, print, name="five")
        other = cmwq.Hub(durable="/some/journal", items=9)
        other.item(print, name="one")
        self.assertRaises(cmwq.Invalid, other.item, print, name="one")
        self.assertRaises(TypeError, other.item, 3, name="two")
        self.assertRaises(TypeError, other.item, print, name=3)
        other.leave()  # which was never open
        self.assertRaises(cmwq.Closed, other.resume)

    def test_options(self):
        self.assertRaises(TypeError, cmwq.Hub, durable=3)
        self.assertRaises(cmwq.Invalid, cmwq.Hub, durable="a", sync="fast")
        self.assertRaises(TypeError, cmwq.Hub, durable="a", again=3)
        self.assertRaises(cmwq.Invalid, cmwq.Hub, durable="a", history=sys.stdout)
        with cmwq.Hub(each=True, again=print) as plain:
            for call in (plain.sync, plain.leave, plain.resume):
                self.assertRaises(cmwq.Invalid, call)
        disk = Memory()
        with Life(disk) as life:
            self.refused_for_another(disk)
            life.hub.sync()
        self.assertRaises(cmwq.Closed, life.hub.sync)
        before = disk.syncs
        with Life(disk, sync="write") as life:
            self.assertEqual(disk.syncs, before + 2)
            life.hub.freeze()
            life.items[0].queue()
            self.assertIn("queue 0 0 0", disk.text())
            life.hub.sync()
        self.assertEqual(disk.syncs, before + 2)
        with Life(disk, sync="none") as life:
            life.items[1].queue()
            life.hub.sync()
        self.assertEqual(disk.syncs, before + 2)
        self.assertIn("queue 1 0 0", disk.text())
        with Life(disk, each=False) as life:
            before = disk.syncs
            life.items[2].queue()
            life.items[3].queue()
            life.hub.sync()
            self.assertIn("queue 3 0 0", disk.synced_text())
            # what nobody waits for is written and synced too
            life.items[4].queue()
            self.assertTrue(until(lambda: "queue 4 0 0" in disk.synced_text()))

    def refused_for_another(self, disk):
        with self.assertRaises(cmwq.InUse):
            Life(disk).hub.resume()

    def test_calls_return_once_they_are_durable(self):
        disk = Memory()
        with Life(disk) as life:
            life.hub.freeze()
            for at, item in enumerate(life.items):
                disk.sync_takes = 0.002
                (item.queue if at % 2 else lambda item=item: item.queue_delayed(LONG))()
                self.assertRegex(disk.synced_text(), rf"(queue|delay) {at} 0 0")
            self.assertRaises(cmwq.TimedOut, life.items[1].flush, 0.001)
            self.assertIn("flush_item 1", disk.synced_text())
            before = disk.syncs
            life.hub.queue("a").queue_all(life.items)
            self.assertLessEqual(disk.syncs, before + 2)  # not one for each item

    def test_calls_of_runs(self):
        """They don't wait for the disk, unless they say so."""
        disk, told = Memory(), []

        def work(life):
            life.items[1].queue_delayed(LONG)
            told.append("delay 1" in disk.synced_text())
            life.hub.sync()
            told.append("delay 1" in disk.synced_text())

        disk.sync_takes = 0.01
        with Life(disk, works={0: work}) as life:
            life.items[0].queue()
            life.items[0].flush()
        self.assertEqual(told[1:], [True])

    def leave_while(self, at, work, gate):
        """A run goes on while a hub is left, and nothing else begins. Returns the disk."""
        disk, outside = Memory(), []
        life = Life(disk, THREE, workers=2, works={at: work})
        hub, items, b = life.hub, life.items, life.hub.queue("b")

        def waits():
            try:
                b.flush()
            except cmwq.Stopped as why:
                outside.append(why)

        hub.resume()
        hub.freeze()
        items[5].queue()
        items[at].queue_on(b, 0)
        items[2].queue_on(b, 0)
        self.assertTrue(until(lambda: items[at].running))
        threads = [threading.Thread(target=waits), threading.Thread(target=hub.leave)]
        threads[0].start()
        self.assertTrue(until(lambda: len(hub._shell.waits) >= 1))
        threads[1].start()
        threads[0].join()  # who waits is told so at once
        self.assertEqual(len(outside), 1)
        if at != 4:
            self.assertRaises(cmwq.Stopped, items[7].queue_on, b, 0)
            self.assertRaises(cmwq.Stopped, hub.sync)
            self.assertRaises(cmwq.Stopped, items[0].flush)
        gate.set()
        threads[1].join()
        self.assertRaises(cmwq.Closed, items[7].queue_on, b, 0)
        self.assertEqual((life.ran[at], life.ran[2]), (1, 0))
        self.assertNotIn("\nend ", disk.text())
        second = Life(disk, THREE, workers=2)
        second.hub.resume()
        second.hub.queue("b").flush()
        self.assertEqual((second.ran[2], second.ran[7], second.ran[5]), (1, 0, 0))
        self.assertTrue(second.items[5].pending)
        second.hub.shutdown()
        self.assertEqual(second.ran[5], 1)
        judged(disk.text())
        self.assertFalse(self.logged)
        return second

    def test_what_is_left(self):
        gate, told = threading.Event(), []

        def work(life):
            gate.wait(20)
            life.items[1].queue_on(life.hub.queue("b"), 0)
            life.items[3].queue_delayed(LONG)
            life.hub.sync()
            for end in (life.hub.leave, life.hub.shutdown):
                with self.assertRaises(cmwq.Itself):
                    end()
                told.append(1)

        second = self.leave_while(0, work, gate)
        self.assertEqual((told, second.ran[0], second.ran[1]), ([1, 1], 0, 1))

    def test_a_run_that_waits_is_broken_off(self):
        """What it waits for doesn't come any more, so it is had again."""
        told = []

        def work(life):
            if not told:
                told.append(1)
                with self.assertRaises(cmwq.Stopped):
                    life.items[5].flush()
                self.assertTrue(life.items[6].queue_on(life.hub.queue("b"), 0))

        second = self.leave_while(4, work, threading.Event())
        self.assertEqual((second.ran[4], second.ran[6]), (1, 1))

    def test_a_run_that_waits_raises_what_it_is_told(self):
        """That is no error of its own. A run that blocks has an end, if it doesn't wait."""
        def work(life):
            try:
                life.items[5].flush()
            finally:
                with runs[4].block():
                    pass

        disk, gate = Memory(), Gate()
        life = Life(disk, THREE, workers=2, works={4: work, 1: lambda life: gate(runs[1])})
        runs = {}
        for at in (1, 4):
            item = life.items[at]
            item._work = lambda run, at=at, work=item._work: (runs.update({at: run}), work(run))
        with life:
            life.hub.freeze()
            life.items[5].queue()
            for at in (4, 1):
                life.items[at].queue_on(life.hub.queue("b"), 0)
                life.hub.queue("b").set_max_active(9)
            self.assertTrue(until(lambda: life.items[1].running and len(life.hub._shell.waits) == 1))
            gate.go.release()
        self.assertEqual((life.ran[4], life.ran[1]), (0, 1))
        self.assertFalse(self.logged)
        with Life(disk, THREE) as life:
            life.hub.queue("b").flush()
            self.assertEqual((life.ran[4], life.ran[1]), (1, 0))

    def test_a_durable_hub_is_left_at_the_end(self):
        """Of the program, and of a block that raises."""
        disk = Memory()
        with self.assertRaises(KeyError), Life(disk) as life:
            life.hub.freeze()
            life.items[0].queue()
            raise KeyError
        with Life(disk) as life:
            self.assertTrue(life.items[0].pending)
        with tempfile.TemporaryDirectory() as folder:
            path = f"{folder}/journal"
            run_program("import cmwq, sys\n"
                        "hub = cmwq.Hub(durable=sys.argv[1], queues={'a': cmwq.max_active(1, freezable=True)})\n"
                        "item = hub.item(print, name='one')\nhub.resume()\nhub.freeze()\nitem.queue()\n", path)
            with open(path, encoding="utf-8") as it:
                self.assertTrue(it.read().endswith("c0 0 freeze = frozen\nc0 1 queue 0 0 0 = yes 1\n"))

    def test_errors_are_told(self):
        disk = Memory()

        def fails(life):
            raise KeyError

        with self.assertRaises(cmwq.WorkError), Life(disk, works={0: fails}) as life:
            life.items[0].queue()
            life.items[0].flush()

    # ---- many callers ----

    def test_a_sync_for_many(self):
        """One sync serves all who wait; and nobody waits for ever for one that fails."""
        callers, calls = 16, 10
        for fail_at in (0, 17, 18, 19, 25, 28):
            disk, told = Memory(), {"made": 0, "lost": 0, "failed": 0}
            life = Life(disk, waits=9)
            life.hub.resume()
            life.hub.freeze()
            life.items[0].queue_on(life.hub.queue("b"), 0)
            before, count = disk.syncs, threading.Lock()
            disk.sync_takes, disk.fail_at = 0.005, fail_at and disk.operations + fail_at - 16
            together = threading.Barrier(callers)

            def call(at):
                together.wait()  # noqa: B023
                for _ in range(calls):
                    what = "made"
                    try:
                        life.items[1 + at % 7].modify(LONG)  # noqa: B023
                    except cmwq.NotDurable:
                        what = "lost"
                    except cmwq.DiskFailed:
                        what = "failed"
                    with count:  # noqa: B023
                        told[what] += 1  # noqa: B023
                        self.assertLessEqual(told["made"], disk.synced_text().count(" modify "))  # noqa: B023

            def waits():
                try:
                    life.hub.queue("b").flush()  # noqa: B023
                    told["waited"] = None  # noqa: B023
                except cmwq.DiskFailed as why:
                    told["waited"] = type(why)  # noqa: B023

            threads = [threading.Thread(target=call, args=(at,)) for at in range(callers)]
            threads += [threading.Thread(target=waits)] if fail_at else []
            for thread in threads:
                thread.start()
            for thread in threads:
                thread.join()
            self.assertEqual(told["made"] + told["lost"] + told["failed"], callers * calls)
            if not fail_at:
                self.assertEqual(told["made"], callers * calls)
                self.assertLess((disk.syncs - before) * 2, callers * calls)
                life.hub.leave()
                continue
            self.assertGreater(told["failed"], 0)
            self.assertIn(told["waited"], (cmwq.DiskFailed, cmwq.NotDurable))
            for look in (life.hub.sync, life.items[0].queue, life.items[0].flush, life.hub.freeze,
                         lambda: life.items[0].pending, lambda: life.items[1].queue_delayed(1)):  # noqa: B023
                with self.assertRaises(cmwq.DiskFailed) as raised:
                    look()
                self.assertIs(type(raised.exception), cmwq.DiskFailed)
                self.assertIsInstance(raised.exception.__cause__, OSError)
            syncs = disk.syncs
            self.assertIn("cmwq", repr(life.items[0]))
            self.assertRaises(cmwq.DiskFailed, life.hub.leave if fail_at % 2 else life.hub.shutdown)
            self.assertEqual(disk.syncs, syncs)  # a disk that has failed is not tried again

    def test_runs_end_when_the_disk_has_failed(self):
        disk, gate, told = Memory(), threading.Event(), []

        def work(life):
            gate.wait(20)
            try:
                life.items[1].queue()
            except cmwq.DiskFailed:
                told.append(1)

        life = Life(disk, works={0: work})
        life.hub.resume()
        life.items[0].queue()
        self.assertTrue(until(lambda: life.items[0].running))
        disk.fail_at, disk.fails_on = disk.operations + 1, True
        self.assertRaises(cmwq.NotDurable, life.items[2].queue)
        gate.set()
        self.assertRaises(cmwq.DiskFailed, life.hub.leave)
        self.assertEqual((told, life.ran), ([1], [1] + [0] * 7))
        disk.fail_at = 0
        with Life(disk) as life:
            life.hub.flush()
            self.assertEqual(life.ran[0], 1)

    # ---- real files ----

    def test_forks(self):
        """The new process has neither the hub nor the lock."""
        warnings.simplefilter("ignore")  # of forks while there are threads
        with tempfile.TemporaryDirectory() as folder:
            life = Life(None, path=f"{folder}/journal")
            life.hub.resume()
            ends, ready = os.pipe(), os.pipe()
            child = os.fork()
            if child == 0:
                try:
                    os.write(ready[1], b"x")
                    os.close(ends[1])
                    os.read(ends[0], 1)  # until the other process tells it, or has ended
                    for call in (life.hub.sync, life.items[0].queue, life.items[0].flush, life.hub.resume):
                        self.assertRaises(cmwq.Closed, call)
                    life.hub.leave()
                    os._exit(7)
                finally:
                    os._exit(8)
            try:
                self.assertEqual(os.read(ready[0], 1), b"x")  # it has begun
                with self.assertRaises(cmwq.InUse):
                    Life(None, path=f"{folder}/journal").hub.resume()
                life.items[0].queue()
                life.hub.leave()
                with Life(None, path=f"{folder}/journal") as life:  # while the child is there
                    life.hub.flush()
            finally:
                for end in (*ends, *ready):
                    os.close(end)
                status = os.waitpid(child, 0)[1]
            self.assertEqual(os.WEXITSTATUS(status), 7)

    def test_real_files(self):
        with tempfile.TemporaryDirectory() as folder:
            path = f"{folder}/journal"
            with Life(None, path=path) as life:
                life.hub.freeze()
                life.items[0].queue()
            self.assertEqual(sorted(os.listdir(folder)), ["journal", "journal.lock"])
            os.mkdir(f"{folder}/journal.new")
            self.assertRaises(cmwq.DiskFailed, Life(None, path=path).hub.resume)
            self.assertRaises(cmwq.DiskFailed, Life(None, path=f"{folder}/no/journal").hub.resume)
            os.rmdir(f"{folder}/journal.new")
            os.chmod(path, 0o600)
            life = Life(None, path=path, keep_old=True)
            before = os.getcwd()
            os.chdir(folder)
            try:
                life.hub.resume()
            finally:
                os.chdir(before)
            self.assertTrue(life.items[0].pending)
            life.hub.shutdown()
            self.assertEqual(life.ran[0], 1)
            judged_by_program(path)
            self.assertEqual(sorted(os.listdir(folder)), ["journal", "journal.1", "journal.lock"])

    @unittest.skipUnless(os.path.exists("/dev/full"), "there is no /dev/full")
    def test_a_disk_that_is_full(self):
        """A real one says so at the first write."""
        with tempfile.TemporaryDirectory() as folder:
            os.symlink("/dev/full", f"{folder}/journal.new")
            with self.assertRaises(cmwq.DiskFailed) as told:
                Life(None, path=f"{folder}/journal").hub.resume()
            self.assertEqual(told.exception.__cause__.errno, errno.ENOSPC)

    def test_the_program_reads_the_journal(self):
        """What `cmwq resume --front` prints of a journal is what the next life begins with."""
        program = f"{REPOSITORY}/cmwq"
        if not os.path.exists(program):
            self.skipTest("there is no program")
        with tempfile.TemporaryDirectory() as folder:
            path = f"{folder}/journal"
            with Life(None, path=path) as life:
                life.hub.freeze()
                for at, item in enumerate(life.items):
                    (item.queue if at % 2 else lambda item=item: item.queue_delayed(LONG))()
            ran = subprocess.run([program, "resume", "--front", path], env={**os.environ, "CMWQ_BUILD": "never"},
                                 check=True, stdout=subprocess.PIPE, universal_newlines=True)
            calls = [line[3:] for line in ran.stdout.splitlines() if line.startswith("c0 ")]
            with Life(None, path=path):
                with open(path, encoding="utf-8") as it:
                    made = [line.split(" = ")[0].split(" ", 2)[2] for line in it if line.startswith("c0 ")]
            self.assertEqual(made, calls)
            self.assertEqual(len(made), 9)

    C_PROGRAM = """
#include "cmwq_hub.h"
#include <stdlib.h>
static unsigned ran[3];
static void work(struct cmwq_run *run, void *data) { (void)data; ran[run->item]++; }
int main(int argc, char **argv)
{
    struct cmwq_work works[] = {{work, 0}, {work, 0}, {work, 0}};
    struct cmwq_queue queues[] = {{.max_active = 2, .freezable = 1}};
    struct cmwq_options options = {.works = works, .items = 3, .queues = queues, .queue_count = 1, .workers = 1};
    static struct cmwq_hub hub;
    int status;

    (void)argc;
    options.durable = argv[1];
    options.each = true;
    status = cmwq_hub_open(&hub, &options);
    if (status < 0) return puts(cmwq_why(status)), 1;
    printf("%d %d %d\\n", cmwq_work_busy(&hub, 0), cmwq_work_busy(&hub, 1), cmwq_work_busy(&hub, 2));
    cmwq_cancel_work(&hub, 0);
    cmwq_queue_work_on(&hub, 0, 0, 1);
    return cmwq_hub_leave(&hub) < 0;
}
"""

    @unittest.skipUnless(shutil.which("cc"), "there is no C compiler")
    def test_the_exchange_with_c(self):
        libraries = (f"{REPOSITORY}/{folder}/libcmwq_c.a" for folder in ("dist/x86_64-linux-gnu", "build/c"))
        library = next(filter(os.path.exists, libraries), None)
        if library is None or not os.path.exists(f"{REPOSITORY}/c/cmwq_hub.h"):
            self.skipTest("there is no library for C")
        queues = {"a": cmwq.max_active(2, freezable=True)}
        with tempfile.TemporaryDirectory() as folder:
            with open(f"{folder}/it.c", "w", encoding="utf-8") as it:
                it.write(self.C_PROGRAM)
            subprocess.run(["cc", "-w", f"-I{REPOSITORY}/c", f"{folder}/it.c", library, "-lpthread", "-o",
                            f"{folder}/it"], check=True)
            path = f"{folder}/journal"
            with Life(None, queues, 3, path=path) as life:
                life.hub.freeze()
                life.items[0].queue()
                life.items[2].queue_delayed(LONG)
            ran = subprocess.run([f"{folder}/it", path], check=True, stdout=subprocess.PIPE, universal_newlines=True)
            self.assertEqual(ran.stdout, "1 0 1\n")
            life = Life(None, queues, 3, path=path)
            life.hub.resume()
            self.assertEqual([life.busy(at) for at in range(3)], [False, True, True])
            life.hub.thaw()
            life.hub.flush()
            life.hub.shutdown()
            self.assertEqual(life.ran, [0, 1, 0])
            judged_by_program(path)
