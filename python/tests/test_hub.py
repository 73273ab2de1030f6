"""python -m unittest discover python/tests"""
import faulthandler
import glob
import io
import os
import random
import signal
import threading
import time
import unittest

from common import REPOSITORY, SECONDS, SEEDS, Case, Gate, cmwq, judged


class Hubs(Case):
    def test_ten_lines(self):
        ran = []
        with self.hub(workers=4) as hub:
            item = hub.item(lambda run: ran.append(threading.current_thread().name))
            self.assertTrue(item.queue())
            hub.flush(timeout=10)
            self.assertEqual(len(ran), 1)
            self.assertTrue(item.queue_delayed(60))
            self.assertFalse(item.queue_delayed(60))
            self.assertTrue(item.modify(0.001))
            while item.pending:
                time.sleep(0.001)
            hub.drain()
            self.assertFalse(item.cancel_sync())
            self.assertFalse(item.running)
        self.assertEqual(len(ran), 2)
        self.assertGreater(judged(self.text), 8)
        for call in (item.queue, item.flush, hub.flush, lambda: hub.item(print)):
            self.assertRaises(cmwq.Closed, call)
        hub.shutdown()

    def test_queues_have_options(self):
        queues = {"disk": cmwq.max_active(2), "all": cmwq.max_active(9, cpu_intensive=True, high_priority=True),
                  "cold": cmwq.max_active(1, freezable=True)}
        with self.hub(cpus=2, workers=3, queues=queues) as hub:
            barrier, colds, queue = threading.Barrier(3), [], hub.queue("cold")
            items = [hub.queue("all").item(lambda run: barrier.wait(10), cpu=1) for _ in range(3)]
            for item in items:
                item.queue()
            hub.queue("all").flush(timeout=10)  # all three ran at once

            @queue.item
            def cold(run):
                colds.append(1)
                if len(colds) < 3:
                    self.assertTrue(run.requeue())

            self.assertTrue(hub.freeze())
            self.assertFalse(hub.freeze())
            cold.queue()
            self.assertRaises(cmwq.TimedOut, cold.flush, 0.01)
            self.assertTrue(hub.thaw())
            hub.queue("cold").drain()
            self.assertEqual(len(colds), 3)
            self.assertEqual(hub.queue("disk").set_max_active(1000), 512)
            hub.queue("disk").destroy()
            self.assertRaises(cmwq.Gone, hub.queue("disk").item(print).queue)
            self.assertTrue(cold.queue_on(hub.queue("all"), 1))
            hub.flush()
        judged(self.text)

    def test_many_items_are_queued_at_once(self):
        ran, gate = [], threading.Event()
        with self.hub(cpus=2, queues={"a": cmwq.max_active(9), "b": cmwq.max_active(9)}) as hub:
            queue = hub.queue("a")
            items = [queue.item(lambda run: ran.append(gate.wait(10))) for _ in range(9)]
            self.assertEqual(queue.queue_all(items[:4]), 4)
            self.assertEqual(queue.queue_all(iter(items[6:])), 3)
            gate.set()
            queue.flush()
            self.assertEqual((len(ran), queue.queue_all([])), (7, 0))
            self.assertEqual(hub.queue("b").queue_all(items), 9)
            hub.flush()
            self.assertRaises(TypeError, queue.queue_all, [items[0], "b", items[1]])
            self.assertRaises(TypeError, queue.queue_all, 3)
            hub.flush()
            self.assertEqual(len(ran), 17)
        judged(self.text)

    def test_delays_last_as_long_as_they_say(self):
        ends, begun = [], time.monotonic()
        with self.hub() as hub:
            items = [hub.item(lambda run: ends.append(time.monotonic())) for _ in range(10)]
            for number, item in enumerate(items):
                self.assertTrue(item.queue_delayed(0.01 + 0.003 * number))
            later = hub.item(self.fail)
            later.queue_delayed(3600)
            self.assertRaises(cmwq.Timers, hub.queue("default").destroy)
            while len(ends) < 10:
                time.sleep(0.001)
        for number, end in enumerate(ends):
            self.assertGreaterEqual(end - begun, 0.01 + 0.003 * number)
        judged(self.text)

    def test_delays_after_a_long_time_without_timers(self):
        with self.hub(tick=1e-6) as hub:
            hub._shell.begun -= 20000  # more ticks than a call of the board goes on for
            ends, begun = [], time.monotonic()
            item = hub.item(lambda run: ends.append(time.monotonic()))
            item.queue_delayed(0.05)
            while not ends:
                time.sleep(0.001)
            self.assertGreaterEqual(ends[0] - begun, 0.05)
        judged(self.text)

    def test_timers_go_on_after_a_drain(self):
        with self.hub(queues={"a": cmwq.max_active(4), "b": cmwq.max_active(4)}) as hub:
            gate, told = Gate(), []
            a, b = hub.queue("a"), hub.queue("b")
            item = a.item(gate)
            item.queue()
            held, other = a.item(lambda run: told.append("held")), a.item(lambda run: None)
            held.queue_delayed(0.1)
            drain = threading.Thread(target=a.drain)
            drain.start()
            with self.assertRaises(cmwq.Draining):
                while True:
                    other.queue()
                    other.cancel_sync()
            free = b.item(lambda run: told.append("free"))
            free.queue_delayed(0.001)
            while told != ["free"]:  # then the clock knows of no other timer
                time.sleep(0.001)
            time.sleep(0.005)
            gate.go.release()
            drain.join()
            end = time.monotonic() + 20
            while told != ["free", "held"] and time.monotonic() < end:
                time.sleep(0.001)
            self.assertEqual(told, ["free", "held"])
        judged(self.text)

    def test_waits_that_time_out_take_no_caller(self):
        with self.hub(waits=2) as hub:
            gate = Gate()
            slow, idle = hub.item(gate), hub.item(lambda run: None)
            slow.queue()
            for _ in range(200):
                self.assertRaises(cmwq.TimedOut, slow.flush, 0)
                self.assertRaises(cmwq.TimedOut, hub.drain, 0)
            self.assertFalse(idle.cancel_sync())
            gate.go.release()
            hub.drain(timeout=10)
        self.assertLess(judged(self.text), 40)  # a thread that polls makes one entry

    def test_waits_with_a_time_limit(self):
        with self.hub() as hub:
            gate, told = Gate(), []
            item = hub.item(gate)
            item.queue()
            for _ in range(3):
                self.assertRaises(cmwq.TimedOut, hub.flush, 0.01)
                self.assertRaises(TimeoutError, item.flush, timeout=0.01)
            while not item.running:
                time.sleep(0.001)
            self.assertRaises(cmwq.TimedOut, item.cancel_sync, 0)
            self.assertFalse(item.queue())  # it is still being cancelled
            gate.go.release()
            hub.flush(timeout=10)
            self.assertTrue(item.queue())
            self.assertRaises(cmwq.TimedOut, hub.drain, 0.01)
            delayed = hub.item(told.append)
            self.assertRaises(cmwq.Draining, delayed.queue_delayed, 0.01)
            gate.go.release()
            item.flush(timeout=10)
            self.assertTrue(delayed.queue_delayed(0.01))
            while delayed.pending:
                time.sleep(0.001)
        judged(self.text)

    def test_a_wait_that_is_interrupted(self):
        class Interrupt(Exception):
            pass

        def interrupt(*_):
            raise Interrupt

        before = signal.signal(signal.SIGALRM, interrupt)
        try:
            with self.hub(waits=3) as hub:
                gate = Gate()
                item = hub.item(gate)
                item.queue()
                for call in (hub.flush, item.flush):
                    signal.setitimer(signal.ITIMER_REAL, 0.02)
                    self.assertRaises(Interrupt, call)
                gate.go.release()
                item.flush(timeout=10)
                hub.drain(timeout=10)
        finally:
            signal.signal(signal.SIGALRM, before)
        judged(self.text)

    def test_waits_of_runs(self):
        told = {}

        def outcome(call, *arguments):
            try:
                return call(*arguments)
            except cmwq.Error as why:
                return type(why)

        with self.hub(workers=2) as hub:
            slow = hub.item(lambda run: time.sleep(0.01))

            @hub.item
            def outer(run):
                told["queued"] = slow.queue()
                told["flushed"] = slow.flush()  # the run sleeps meanwhile, so that the other can run
                told["itself"] = outcome(hub.flush)
                told["timed"] = outcome(slow.flush, 1)  # it is neither queued nor running
                told["shutdown"] = outcome(hub.shutdown) if told.get("last") else None

            outer.queue()
            outer.flush()
            self.assertEqual(told, {"queued": True, "flushed": True, "itself": cmwq.Itself,
                                    "timed": False, "shutdown": None})
            # two items that would wait for one another
            gate, items = threading.Barrier(2), []

            def circle(own):
                def work(run):
                    with run.block():
                        gate.wait()
                    told[own] = outcome(items[1 - own].cancel_sync)
                return work
            items += [hub.item(circle(0)), hub.item(circle(1))]
            for item in items:
                item.queue()
            hub.flush()
            self.assertEqual({told[0], told[1]}, {False, cmwq.Deadlock})
        judged(self.text)

    def test_errors_of_work_functions(self):
        hub = self.hub()
        item = hub.item(lambda run: 1 // 0)
        for _ in range(2):
            item.queue()
            hub.flush()
        with self.assertRaises(cmwq.WorkError) as raised:
            hub.shutdown()
        self.assertIsInstance(raised.exception.__cause__, ZeroDivisionError)
        with self.assertRaises(KeyError):
            with self.hub() as hub:
                hub.item(lambda run: 1 // 0).queue()
                raise KeyError
        judged(self.text)

    def test_a_writer_that_fails(self):
        class Bad(io.StringIO):
            def write(self, text):
                raise OSError("full")

        hub = cmwq.Hub(history=Bad(), keep=8)
        item = hub.item(lambda run: None)
        for _ in range(100):
            item.queue()
            hub.flush()
        with self.assertRaises(cmwq.HistoryError) as raised:
            hub.shutdown()
        self.assertIsInstance(raised.exception.__cause__, OSError)

    def test_the_history_is_written_within_a_time(self):
        with self.hub() as hub:
            item = hub.item(lambda run: None)
            for count in range(1, 4):
                item.queue()
                hub.flush()
                end = time.monotonic() + 5
                while self.text.getvalue().count("= done") < count:
                    self.assertLess(time.monotonic(), end)
                    time.sleep(0.001)

    def test_items_come_and_go(self):
        ran = []
        with self.hub(items=3) as hub:
            for _ in range(50):
                hub.item(ran.append).queue()  # its handle is dropped: it runs all the same
                hub.flush()
            kept = [hub.item(ran.append) for _ in range(3)]
            self.assertRaises(cmwq.NoItem, hub.item, ran.append)
            del kept
            hub.item(ran.append)
        self.assertEqual(len(ran), 50)
        judged(self.text)

    def test_shut_down_by_a_run(self):
        told = []
        hub = self.hub()

        def work(run):
            try:
                hub.shutdown()
            except cmwq.Itself as why:
                told.append(why)
        hub.item(work).queue()
        while not self.text.getvalue().endswith("\n") or "\nend " not in self.text.getvalue():
            time.sleep(0.001)
        self.assertEqual(len(told), 1)
        judged(self.text)

    def test_what_is_outside_the_limits(self):
        one = {"a": cmwq.max_active(1)}
        for more in ({"workers": 0}, {"workers": 65}, {"cpus": 65}, {"items": 65536}, {"waits": 255}, {"tick": 0},
                     {"queues": {}}, {"queues": {"a": cmwq.max_active(513)}}, {"keep": 0}):
            self.assertRaises(cmwq.Invalid, lambda more=more: cmwq.Hub(**more))
        with cmwq.Hub(queues=one, items=65535) as hub:
            item = hub.item(print)
            for call in (lambda: hub.queue("b"), lambda: hub.item(print, cpu=1), lambda: item.queue_delayed(-1),
                         lambda: item.queue_delayed(1e9), lambda: item.queue_delayed(float("nan")),
                         lambda: item.queue_on(hub.queue("a"), 1), lambda: hub.queue("a").set_max_active(0)):
                self.assertRaises(cmwq.Invalid, call)
            self.assertIsInstance(cmwq.Invalid(), (cmwq.Error, ValueError))

    def test_the_version_is_checked(self):
        library = cmwq._hub.library
        own, library.VERSION = library.VERSION, "0.9.1"
        try:
            with self.assertRaisesRegex(cmwq.VersionMismatch, r"^libcmwq.so has version [0-9.]+, and .* needs 0.9.1$"):
                cmwq.Hub()
        finally:
            library.VERSION = own

    def test_random_calls(self):
        entries = refused = timed_out = 0
        for seed in range(SEEDS):
            faulthandler.dump_traceback_later(SECONDS, exit=True)
            made = self.trial(seed)
            entries, refused, timed_out = entries + made[0], refused + made[1], timed_out + made[2]
        print(f"{SEEDS} trials, {entries} entries, {refused} refused, {timed_out} timed out")

    def trial(self, seed):
        chance, refused, timed_out = random.Random(seed), [], []
        queues = {name: cmwq.max_active(chance.randint(1, 3), cpu_intensive=chance.random() < 0.5) for name in "ab"}
        items, made = [], []
        with self.hub(cpus=chance.randint(1, 2), workers=chance.randint(1, 4), items=8, waits=chance.randint(2, 9),
                      keep=chance.randint(1, 40), tick=1e-4, queues=queues) as hub:
            made += [hub.queue(name) for name in "ab"]

            def act(own, in_run):
                item, queue = own.choice(items), own.choice(made)
                timeout = None if in_run or own.random() < 0.7 else own.random() * 1e-3
                calls = [item.queue, item.queue, item.cancel, lambda: item.flush(timeout), item.flush_delayed,
                         lambda: item.cancel_sync(timeout), lambda: queue.flush(timeout),
                         lambda: item.modify(own.random() * 5e-4), lambda: item.queue_on(queue, 0),
                         item.queue if in_run else lambda: queue.drain(timeout)]
                try:
                    own.choice(calls)()
                except (cmwq.Deadlock, cmwq.Itself):
                    refused.append(1)
                except cmwq.TimedOut:
                    timed_out.append(1)
                except (cmwq.Foreign, cmwq.Draining, cmwq.TooManyWaits, cmwq.Closed):
                    pass

            def work_of(at):
                own, inside = random.Random(seed * 100 + at), []

                def work(run):
                    inside.append(1)
                    assert len(inside) == 1
                    if own.random() < 0.3:
                        with run.block():
                            time.sleep(0)
                            if own.random() < 0.5:
                                act(own, True)
                    for _ in range(own.randint(0, 2)):
                        act(own, True)
                    inside.pop()
                return work

            def call(caller):
                own = random.Random(seed * 1000 + caller)
                for _ in range(30):
                    act(own, False)

            items += [chance.choice(made).item(work_of(at)) for at in range(8)]
            callers = [threading.Thread(target=call, args=(caller,)) for caller in range(3)]
            for caller in callers:
                caller.start()
            for caller in callers:
                caller.join()
        return judged(self.text), len(refused), len(timed_out)


class Books(Case):
    def test_calls(self):
        with cmwq.Book(cmwq.Shape(10, 10, 1, 1, 1, 1), [cmwq.max_active(1)]) as book:
            self.assertEqual(book.step("c0 queue 0 0 0"), "c0 0 queue 0 0 0 = yes 0\n")
            self.assertEqual(book.step("c0 flush 0"), "c0 1 flush 0 = ticket 1\n")
            self.assertFalse(book.ready(1))
            for call in ("c1 fire", "nonsense"):
                self.assertRaisesRegex(cmwq.Refused, "refused", book.step, call)
        book.close()
        self.assertRaisesRegex(cmwq.Refused, "closed", book.step, "c0 fire")

    def test_checks(self):
        text = "history 2\nshape 1 1 1 1 20\nwq 1 -\nc0 0 queue 0 0 0 = yes 0\n"
        self.assertEqual(cmwq.check(text), (True, "legal 1"))
        self.assertEqual(cmwq.check(text.replace("yes 0", "yes 1").encode()), (False, "illegal at 0: reply yes 0"))
        self.assertRaises(cmwq.NotAHistory, cmwq.check, "nothing")

    def test_examples(self):
        """Each entry of the examples is the one that its call makes."""
        made = 0
        for name in sorted(glob.glob(f"{REPOSITORY}/examples/step/*.history")):
            with open(name, encoding="utf-8") as it:
                lines = it.read().splitlines()
            cpus, workers, callers, items, room = map(int, lines[1].split()[1:])
            heads = [line.split() for line in lines[2:] if line.startswith("wq ")]
            queues = [cmwq.QueueOptions(int(most), *(flag in flags for flag in "hif")) for _, most, flags in heads]
            entries = [line for line in lines[2 + len(heads):] if not line.startswith("end ")]
            shape = cmwq.Shape(room, max(len(entries), 1), items, cpus, workers, callers)
            with cmwq.Book(shape, queues) as book:
                for entry in entries:
                    who, _, rest = entry.split(" ", 2)
                    self.assertEqual(book.step(f"{who} {rest.split(' = ')[0]}"), f"{entry}\n")
                made += len(book)
        if os.path.isdir(f"{REPOSITORY}/examples/step"):
            self.assertGreater(made, 100)


if __name__ == "__main__":
    unittest.main()
