"""A durable hub whose program is killed again and again, also while it resumes. Each call that was acknowledged is
followed by a run of its item, in that life or in a later one. CMWQ_KILLS says how often.

This file is also that program: test_lives.py WHAT JOURNAL SYNC."""
import os
import random
import signal
import struct
import subprocess
import sys
import tempfile
import threading
import time
import unittest

from common import PACKAGE, Case, cmwq, judged_by_program, until

KILLS = int(os.environ.get("CMWQ_KILLS", "9"))

ITEMS, CALLERS, CRASH = 32, 4, 31

# what the program tells, with an item and a caller
BEGINS, ACKNOWLEDGED, RUNS, RESUMED = b"bars"

EVENT = struct.Struct("BBBx")

QUEUES = {"a": cmwq.max_active(1), "b": cmwq.max_active(2, cpu_intensive=True), "c": cmwq.max_active(3)}


# ---- the program ----

def tell(what, item=0, caller=0):
    os.write(1, EVENT.pack(what, item, caller))


def made(path, sync, again=None):
    """The hub and its items."""
    hub = cmwq.Hub(durable=path, queues=QUEUES, cpus=2, workers=2, sync=sync, each=True, again=again)

    def work(at):
        def runs(run):
            if at == CRASH:
                hub.sync()  # so it is known that it was queued
                os._exit(9)
            tell(RUNS, at)
            time.sleep(at % 4 * 1e-4)
        return runs

    return hub, [hub.queue("abc"[at % 3]).item(work(at), name=str(at)) for at in range(ITEMS)]


def calls(items, me):
    chance = random.Random()
    while True:
        item = items[chance.randrange(CRASH)]
        tell(BEGINS, item._number, me)
        if chance.random() < 0.5:
            item.modify(chance.randrange(30) / 1000)
        else:
            item.queue()
        tell(ACKNOWLEDGED, item._number, me)


def live(path, sync):
    """A life that is killed."""
    hub, items = made(path, sync)
    hub.resume()
    tell(RESUMED)
    for me in range(CALLERS):
        threading.Thread(target=calls, args=(items, me), daemon=True).start()
    while True:
        signal.pause()


def live_on(path, sync):
    """A last one, until nothing is left to do."""
    hub, items = made(path, sync)
    hub.resume()
    while any(item.pending or item.running for item in items):
        time.sleep(0.002)
    hub.shutdown()


def live_and_crash(path, sync):
    """One that crashes in a run."""
    hub, items = made(path, sync)
    hub.resume()
    items[CRASH].queue()
    signal.pause()


def live_and_crash_again(path, sync):
    """One that crashes in the run that it resumes."""
    made(path, sync)[0].resume()
    signal.pause()


def live_without_crash(path, sync):
    """One where that run is left out."""
    hub, items = made(path, sync, again=lambda name: name != str(CRASH))
    hub.resume()
    if items[CRASH].pending or items[CRASH].running or not items[1].queue():
        os._exit(5)
    hub.shutdown()


# ---- the tests ----

class Lives(Case):
    def setUp(self):
        super().setUp()
        self.events = self.acknowledged = self.resumed = 0
        self.begun, self.wanted, self.run_at = [0] * CALLERS, [0] * ITEMS, [0] * ITEMS

    def take(self, what, item, caller):
        self.events += 1
        if what == BEGINS:
            self.begun[caller] = self.events
        elif what == RUNS:
            self.run_at[item] = self.events
        elif what == RESUMED:
            self.resumed += 1
        else:
            self.acknowledged += 1
            self.wanted[item] = max(self.wanted[item], self.begun[caller])

    def start(self, what, path, sync="data"):
        """Starts a life, with a thread that takes what it tells."""
        child = subprocess.Popen([sys.executable, os.path.abspath(__file__), what, path, sync], stdout=subprocess.PIPE,
                                 env={**os.environ, "PYTHONPATH": PACKAGE})
        self.addCleanup(child.kill)
        child.reader = threading.Thread(target=self.take_all, args=(child.stdout,), daemon=True)
        child.reader.start()
        return child

    def take_all(self, told):
        with told:
            for event in iter(lambda: told.read(EVENT.size), b""):
                if len(event) == EVENT.size:
                    self.take(*EVENT.unpack(event))

    def status_of(self, child):
        child.reader.join()
        return child.wait()

    def test_a_program_that_is_killed(self):
        chance = random.Random(1)
        with tempfile.TemporaryDirectory() as folder:
            path = f"{folder}/journal"
            for at in range(KILLS):
                seen, child = self.resumed, self.start("live", path, "data" if at % 4 == 0 else "write")
                if at % 3:
                    self.assertTrue(until(lambda: self.resumed > seen))  # noqa: B023
                    time.sleep(chance.random() * 0.04)
                else:  # in or near the beginning, where the new journal is seldom seen
                    until(lambda: os.path.exists(f"{path}.new") or self.resumed > seen)  # noqa: B023
                child.kill()
                self.assertEqual(self.status_of(child), -signal.SIGKILL)
            self.assertEqual(self.status_of(self.start("live_on", path)), 0)
            judged_by_program(path)
        for at in range(ITEMS):
            self.assertGreaterEqual(self.run_at[at], self.wanted[at], at)
        self.assertGreater(self.acknowledged, 0)
        print(f"{KILLS} kills, {KILLS - self.resumed} of them while it resumed, {self.acknowledged} calls acknowledged")

    def test_an_item_that_makes_the_program_crash(self):
        """It does so in each life, until the user has it left out."""
        with tempfile.TemporaryDirectory() as folder:
            path = f"{folder}/journal"
            for what, status in (("live_and_crash", 9), ("live_and_crash_again", 9), ("live_and_crash_again", 9),
                                 ("live_without_crash", 0)):
                self.assertEqual(self.status_of(self.start(what, path)), status)
            judged_by_program(path)


if __name__ == "__main__" and len(sys.argv) == 4:
    globals()[sys.argv[1]](*sys.argv[2:])
elif __name__ == "__main__":
    unittest.main()
