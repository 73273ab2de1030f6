"""Hubs in an event loop: single cases, and schedules on a loop whose order follows from a seed, with a time of its own.
CMWQ_SEEDS says how many schedules there are, CMWQ_FIRST the first."""
import asyncio
import collections
import faulthandler
import gc
import heapq
import io
import os
import random
import threading
import unittest
import weakref

from common import SECONDS, SEEDS, Case, cmwq, judged

FIRST = int(os.environ.get("CMWQ_FIRST", "0"))


class SeededLoop(asyncio.SelectorEventLoop):
    """A loop in which callbacks come in any order. Its time stands still while one can go on, but for now and then."""

    def __init__(self, seed, wild=False):
        self.random, self.wild, self.now, self.turns = random.Random(seed), wild, 0.0, 0
        super().__init__()

    def time(self):
        return self.now

    def _run_once(self):
        self.turns += 1
        assert self.turns < 100_000, "no end"
        while self._scheduled and self._scheduled[0]._cancelled:
            heapq.heappop(self._scheduled)._scheduled = False
            self._timer_cancelled_count = max(self._timer_cancelled_count - 1, 0)
        if not self._ready or self.wild and self._scheduled and self.random.random() < 0.05:
            assert self._scheduled, "stuck"
            self.now = max(self.now, self._scheduled[0]._when)
        ready = list(self._ready)
        self.random.shuffle(ready)
        self._ready = collections.deque(ready)
        super()._run_once()


def play(main, seed=1, wild=False):
    """Runs it on such a loop."""
    loop = SeededLoop(seed, wild)
    try:
        return loop.run_until_complete(main)
    finally:
        loop.close()


class Aio(Case):
    def play(self, main, **more):
        """Runs it with a hub, which is shut down, and judges the history."""
        async def whole():
            async with self.hub(**more) as hub:
                await main(hub)
        play(whole())
        judged(self.text)

    def hub(self, **more):
        self.text = io.StringIO()
        return cmwq.AsyncHub(history=self.text, **more)

    def count(self, word):
        return self.text.getvalue().count(f"= {word}")

    def test_a_run_that_awaits_lets_others_start(self):
        async def main(hub):
            log = []

            async def work(run):
                log.append("begins")
                await asyncio.sleep(0.01)
                log.append("ends")
            items = [hub.item(work) for _ in range(3)]
            self.assertEqual(hub.queue("default").queue_all(items), 3)
            self.assertTrue(items[0].pending and not items[0].queue())
            self.assertTrue(await items[0].flush())
            self.assertFalse(await items[0].flush())
            await hub.drain()
            self.assertEqual(log, ["begins"] * 3 + ["ends"] * 3)
            self.assertFalse(items[0].running)
        self.play(main, workers=4)
        self.assertEqual((self.count("slept"), self.count("woke")), (3, 3))

    def test_cpu_intensive_runs_make_no_entries_where_they_await(self):
        for intensive, slept in ((False, 6), (True, 1)):
            async def main(hub):
                async def slow(run):
                    await asyncio.sleep(0)

                async def work(run):
                    for _ in range(4):
                        await asyncio.sleep(0)
                    other.queue()
                    await other.flush()
                other = hub.item(slow)
                hub.item(work).queue()
                await hub.drain()
            self.play(main, queues={"a": cmwq.max_active(4, cpu_intensive=intensive)})
            self.assertEqual((self.count("slept"), self.count("woke")), (slept, slept))

    def test_waits_of_runs_that_could_never_end(self):
        for seed in range(20):
            async def main():
                told = []

                async def work(run, own, other):
                    await asyncio.sleep(0)
                    try:
                        await items[own].flush()
                    except cmwq.Itself:
                        told.append("itself")
                    try:
                        await items[other].flush()
                    except cmwq.Deadlock:
                        told.append("deadlock")
                async with self.hub() as hub:
                    items = [hub.item(lambda run, own=own: work(run, own, 1 - own)) for own in (0, 1)]
                    self.assertTrue(items[0].queue() and items[1].queue())
                    await hub.flush()
                self.assertEqual(told.count("itself"), 2)
                self.assertLessEqual(told.count("deadlock"), 1)
            play(main(), seed)
            judged(self.text)

    def test_a_wait_whose_task_is_cancelled_is_left(self):
        async def main(hub):
            async def work(run):
                await asyncio.sleep(1)
            item = hub.item(work)
            item.queue()
            for _ in range(20):
                for wait in (hub.flush, item.cancel_sync, hub.queue("default").flush):
                    with self.assertRaises(asyncio.TimeoutError):
                        await asyncio.wait_for(wait(), 0.01)
            other = hub.item(work)
            other.queue_delayed(3600)
            cancels = asyncio.ensure_future(other.cancel_sync())
            await asyncio.sleep(0.01)
            self.assertFalse(other.pending)  # a caller was lent at once
            self.assertTrue(await cancels)
            await hub.flush()
            self.assertTrue(item.queue())
        self.play(main, waits=2)

    def test_a_run_that_leaves_its_wait_goes_on(self):
        async def main(hub):
            loop, log = asyncio.get_running_loop(), []

            async def long(run):
                await asyncio.sleep(1)
                log.append("long")

            async def short(run):
                other.queue()
                timer = loop.call_later(0.1, asyncio.current_task().cancel)
                try:
                    await other.flush()
                except asyncio.CancelledError:
                    log.append(f"goes on at {loop.time():.1f}")
                timer.cancel()
                await asyncio.sleep(0.1)
                log.append(f"short ends at {loop.time():.1f}")
            other, item = hub.item(long), hub.item(short)
            item.queue()
            await item.flush()
            self.assertEqual(log, ["goes on at 0.1", "short ends at 0.2"])
            self.assertLess(loop.time(), 1)
        self.play(main)

    def test_a_run_whose_wait_is_kept_ends_after_it(self):
        async def main(hub):
            kept = []

            async def short(run):
                other.queue()
                kept.append(other.flush())
                kept[0].send(None)  # it begins, and nobody awaits it
            other, item = hub.item(lambda run: asyncio.sleep(1)), hub.item(short)
            item.queue()
            await item.flush()
            self.assertGreaterEqual(asyncio.get_running_loop().time(), 1)
            kept[0].close()
        self.play(main)

    def test_a_second_wait_of_a_run_begins_once_it_has_left_the_first(self):
        async def main(hub):
            loop = asyncio.get_running_loop()

            async def work(run):
                slow.queue()
                timer = loop.call_later(0.1, asyncio.current_task().cancel)
                try:
                    await slow.flush()
                except asyncio.CancelledError:
                    timer.cancel()
                with self.assertRaises(cmwq.Itself):
                    await item.flush()
                self.assertLess(loop.time(), 1)
            slow, item = hub.item(lambda run: asyncio.sleep(1)), hub.item(work)
            item.queue()
            self.assertTrue(await item.flush())
            self.assertEqual(hub.errors, [])
        self.play(main)

    def test_a_wait_that_has_ended_is_not_left(self):
        async def main():
            loop = asyncio.get_running_loop()

            async def work(run):
                # after the end of the first wait, whose caller the second has then
                loop.call_soon(loop.call_soon, first.cancel)

            async with self.hub(waits=1, queues={"a": cmwq.max_active(2, cpu_intensive=True)}) as hub:
                gate = asyncio.Event()
                quick, slow = hub.item(work), hub.item(lambda run: gate.wait())
                slow.queue()
                quick.queue()
                first, second = asyncio.ensure_future(quick.flush()), asyncio.ensure_future(slow.flush())
                await asyncio.sleep(1)
                self.assertFalse(second.done())
                gate.set()
                self.assertTrue(await second)
        for seed in range(60):
            play(main(), seed)
            judged(self.text)

    def test_calls_of_tasks_are_not_those_of_the_run(self):
        async def main(hub):
            async def inner():
                return await item.flush()

            async def work(run):
                task = asyncio.ensure_future(inner())
                done, _ = await asyncio.wait([task], timeout=0.1)
                self.assertFalse(done)  # nobody's wait: it goes on
                task.add_done_callback(told.append)
            told = []
            item = hub.item(work)
            item.queue()
            self.assertTrue(await item.flush())
            await asyncio.sleep(0.1)
            self.assertTrue(told[0].result())
        self.play(main)

    def test_any_number_waits(self):
        async def main(hub):
            async def work(run):
                await asyncio.sleep(1)
            item = hub.item(work)
            item.queue()
            waits = [asyncio.ensure_future(item.flush() if at % 2 else hub.flush()) for at in range(500)]
            await asyncio.sleep(0.1)
            for wait in waits[::5]:
                wait.cancel()
            done = await asyncio.gather(*waits, return_exceptions=True)
            self.assertEqual(sum(isinstance(it, asyncio.CancelledError) for it in done), 100)
            self.assertFalse([it for it in done if isinstance(it, cmwq.Error)])
        self.play(main, waits=3)

    def test_a_turn_that_is_cancelled_is_anothers(self):
        async def main():
            loop = asyncio.get_running_loop()

            async def work(run):
                await gate.wait()
                # after the end of this run, and before the second one knows of its turn
                loop.call_soon(loop.call_soon, second.cancel)

            async with self.hub(waits=1) as hub:
                gate = asyncio.Event()
                hub.item(work).queue()
                first, second, third = (asyncio.ensure_future(hub.flush()) for _ in range(3))
                await asyncio.sleep(0.01)
                gate.set()
                await first
                for _ in range(20):
                    await asyncio.sleep(0)
                self.assertTrue(second.cancelled() and third.done())
        asyncio.run(main())
        judged(self.text)

    def test_a_caller_with_too_many_tickets(self):
        async def main(hub):
            gate = asyncio.Event()
            items = [hub.item(lambda run: gate.wait()) for _ in range(70)]
            hub.queue("a").queue_all(items)
            for item in items:
                wait = asyncio.ensure_future(item.flush())
                await asyncio.sleep(0)
                await asyncio.sleep(0)
                wait.cancel()
                await asyncio.sleep(0)
            last = asyncio.ensure_future(items[69].flush())
            await asyncio.sleep(0.1)
            self.assertEqual((last.done(), len(hub._shell.line)), (False, 1))  # the caller has 64 tickets
            gate.set()
            self.assertTrue(await last)
        self.play(main, waits=1, queues={"a": cmwq.max_active(1)})

    def test_exceptions(self):
        told = []

        async def main():
            async def bad(run):
                await asyncio.sleep(0)
                raise KeyError("bad")

            def worse(run):
                raise ValueError("worse")

            def worst(run):
                return 3

            def on_error(item, why):
                frames = why.__traceback__  # of the work function alone
                told.append((frames and frames.tb_frame.f_code.co_name, why))

            async with self.hub(on_error=on_error) as hub:
                items = [hub.item(bad), hub.item(worse), hub.item(worst)]
                hub.queue("default").queue_all(items)
                await hub.flush()
                with self.assertRaises(KeyError) as raised:
                    await items[0].flush(raise_errors=True)
                self.assertIs(raised.exception, hub.errors[0])
                self.assertEqual(len(hub.errors), 3)
        with self.assertRaises(cmwq.WorkError) as raised:
            play(main())
        self.assertIsInstance(raised.exception.__cause__, KeyError)
        self.assertEqual(str(raised.exception.errors[2]), "a work function returned 3, which can't be awaited")
        self.assertEqual([why for _, why in told], list(raised.exception.errors))
        self.assertEqual(len(self.logged), 3)
        self.assertEqual([name for name, _ in told], ["bad", "worse", None])
        judged(self.text)

    def test_a_block_that_raises_cancels_the_runs(self):
        log = []

        async def main():
            async def work(run):
                try:
                    await asyncio.sleep(3600)
                finally:
                    log.append("cancelled")
                    await asyncio.sleep(1)
                    log.append("ends")

            async def late(run):
                log.append("late")
            async with self.hub(queues={"a": cmwq.max_active(1)}) as hub:
                item = hub.item(work)
                hub.queue("a").queue_all([item, hub.item(late)])
                await asyncio.sleep(0.1)
                raise KeyError("of the block")
        with self.assertRaises(KeyError):
            play(main())
        self.assertEqual(log, ["cancelled", "ends"])
        judged(self.text)

    def test_a_hub_whose_task_is_cancelled(self):
        async def main():
            async with self.hub() as hub:
                item = hub.item(lambda run: asyncio.sleep(3600))
                item.queue()
                await item.flush()
        with self.assertRaises(asyncio.TimeoutError):
            play(asyncio.wait_for(main(), 1))
        judged(self.text)

    def test_shutdown(self):
        async def main():
            hub = self.hub()
            log = []

            async def work(run):
                with self.assertRaises(cmwq.Itself):
                    await hub.shutdown()
                if not log:
                    self.assertTrue(run.requeue() and not run.requeue())
                    with self.assertRaises(cmwq.Closed):
                        run.requeue_after(1)
                log.append(run)
                await asyncio.sleep(1)
            item, late = hub.item(work), hub.item(work)
            item.queue()
            late.queue_delayed(3600)
            await asyncio.sleep(0.1)
            with self.assertRaises(cmwq.Closed):
                late.queue()
            with self.assertRaises(cmwq.Closed):
                hub.item(work)
            with self.assertRaises(asyncio.TimeoutError):
                await asyncio.wait_for(hub.shutdown(), 0.1)
            self.assertIn("(ending)", repr(hub))
            await hub.shutdown()
            await hub.shutdown()
            self.assertFalse(late.pending)
            self.assertEqual(len(log), 2)
            for run in log:
                with self.assertRaises(cmwq.RunEnded):
                    run.requeue()
            with self.assertRaises(cmwq.Closed):
                await item.flush()
            self.assertEqual(repr(hub), "<cmwq.AsyncHub (shut down) 'default': CPUs 1, workers 64, items pending or "
                                        "running 0>")
        play(main())
        judged(self.text)

    def test_delays(self):
        async def main(hub):
            loop, log = asyncio.get_running_loop(), []

            async def work(run, at):
                self.assertGreaterEqual(loop.time(), 0.007 * at + 0.001)
                log.append(at)
            items = [hub.item(lambda run, at=at: work(run, at)) for at in range(10)]
            for at, item in enumerate(items):
                self.assertTrue(item.queue_delayed(0.007 * at + 0.001) and not item.queue_delayed(1))
            await asyncio.sleep(0.2)
            self.assertEqual(log, [*range(10)])
            late = hub.item(lambda run: asyncio.sleep(0))
            late.queue_delayed(100)
            with self.assertRaises(cmwq.Timers):
                await hub.queue("default").destroy()
            self.assertTrue(late.modify(200) and late.pending)
            self.assertTrue(await late.flush_delayed())
            self.assertFalse(late.modify(5000))
            self.assertTrue(late.cancel() and not await late.cancel_sync())
            for wrong in (-1, float("nan"), float("inf")):
                with self.assertRaises(cmwq.Invalid):
                    late.queue_delayed(wrong)
        self.play(main)

    def test_timers_go_on_after_a_drain_that_was_left(self):
        async def main(hub):
            queue, other = hub.queue("a"), hub.queue("b")
            slow, late, tick = (it.item(lambda run: asyncio.sleep(1)) for it in (queue, queue, other))
            slow.queue()
            await asyncio.sleep(0)
            late.queue_delayed(1.5)
            tick.queue_delayed(0.3)
            with self.assertRaises(asyncio.TimeoutError):
                await asyncio.wait_for(queue.drain(), 0.1)
            await asyncio.sleep(0.4)  # since the tick the loop knows of no timer
            self.assertTrue(late.pending and not tick.pending)
            await asyncio.sleep(1.5)
            self.assertFalse(late.pending)
        self.play(main, queues={"a": cmwq.max_active(2), "b": cmwq.max_active(2)})

    def test_a_drain_a_freeze_and_a_width(self):
        async def main(hub):
            queue, high = hub.queue("a"), hub.queue("b")
            one, two = queue.item(lambda run: asyncio.sleep(0)), queue.item(lambda run: asyncio.sleep(0), cpu=1)
            self.assertIs(hub.queue("a"), queue)
            self.assertTrue(hub.freeze() and not hub.freeze())
            self.assertTrue(one.queue() and two.queue_on(high, 1))
            await asyncio.sleep(0.1)
            self.assertTrue(one.pending and not two.pending)
            self.assertTrue(hub.thaw() and not hub.thaw())
            await hub.drain()
            self.assertEqual(queue.set_max_active(1000), 512)
            await queue.destroy()
            with self.assertRaises(cmwq.Gone):
                one.queue()
            with self.assertRaises(cmwq.Gone):
                await queue.flush()
            await hub.flush()
            with self.assertRaises(cmwq.Invalid):
                hub.queue("c")
            with self.assertRaises(TypeError):
                one.queue_on("a", 0)
        self.play(main, cpus=2, keep=1,
                  queues={"a": cmwq.max_active(1, freezable=True), "b": cmwq.max_active(1, high_priority=True)})

    def test_items_come_and_go(self):
        async def main(hub):
            runs = []

            async def work(run):
                runs.append(run)
            for _ in range(30):
                item = hub.item(work)
                gone = weakref.ref(item)
                item.queue()
                del item  # it runs all the same
                await hub.flush()
                gc.collect()
                self.assertIsNone(gone())
            items = [hub.item(work) for _ in range(3)]
            with self.assertRaises(cmwq.NoItem):
                hub.item(work)
            items[0].queue_delayed(60)
            gone = weakref.ref(items[0])
            self.assertTrue(items.pop(0).cancel())
            gc.collect()
            self.assertIsNone(gone())
            self.assertEqual(len(runs), 30)
            del runs[:]
        self.play(main, items=3)

    def test_calls_elsewhere(self):
        async def main(hub):
            item, told = hub.item(lambda run: asyncio.sleep(0)), []

            def calls():
                try:
                    item.queue()
                except cmwq.Invalid as why:
                    told.append(str(why))
            thread = threading.Thread(target=calls)
            thread.start()
            thread.join()
            self.assertEqual(told, ["a call from another thread than that of the event loop"])
            kept.append(item)
        kept = []
        self.play(main)
        with self.assertRaises(cmwq.Closed):
            kept[0].queue()
        with self.assertRaises(RuntimeError):
            cmwq.AsyncHub()  # there is no event loop

    def test_a_run_that_waits_without_room(self):
        """Each of its steps takes two entries. Without room for them it sleeps on, so that what it waits for starts."""
        async def main(hub):
            kept = []

            async def work(run):
                kept.append(frozen.flush())
                kept[0].send(None)  # it begins, and nobody awaits it
                for _ in range(500):
                    await asyncio.sleep(0)
            frozen, item = hub.queue("a").item(lambda run: asyncio.sleep(0)), hub.queue("b").item(work)
            self.assertTrue(hub.freeze() and frozen.queue() and item.queue())
            await asyncio.sleep(1)
            self.assertTrue(hub.thaw() and item.running)
            self.assertTrue(await item.flush())
            kept[0].close()
        self.play(main, room=400, items=2, waits=2,
                  queues={"a": cmwq.max_active(4, freezable=True), "b": cmwq.max_active(4)})

    def test_a_history_that_cannot_be_written(self):
        class Full(io.StringIO):
            def write(self, text):
                raise OSError("no space")

        async def main():
            async with cmwq.AsyncHub(history=Full()) as hub:
                hub.item(lambda run: asyncio.sleep(0)).queue()
                await hub.flush()
        with self.assertRaises(cmwq.HistoryError):
            play(main())

    def test_the_loop_of_asyncio(self):
        async def main():
            runs = []

            async def work(run):
                runs.append(run)
                await asyncio.sleep(0.001)
                if len(runs) < 20:
                    run.requeue_after(0.001)
            async with self.hub(workers=2) as hub:
                item = hub.item(work)
                item.queue_delayed(0.001)
                while len(runs) < 20:
                    await item.flush_delayed()
                    await asyncio.sleep(0.001)
            self.assertEqual(len(runs), 20)
        asyncio.run(main())
        judged(self.text)
        self.assertEqual(self.count("started"), 20)


class World:
    """What parties and runs do in a schedule."""

    def __init__(self, hub, names, rng, sums):
        self.hub, self.random, self.sums = hub, rng, sums
        self.queues = [hub.queue(name) for name in names]
        self.inside, self.ended = [False] * 8, [0] * 8
        self.items = [rng.choice(self.queues).item(lambda run, at=at: self.run(run, at)) for at in range(8)]

    def item(self):
        return self.random.choice(self.items)

    async def waits(self):
        self.sums["waits"] += 1
        at = self.random.randrange(8)
        item, before = self.items[at], self.ended[at]
        # (a queueing may be taken back later, and what waits for it ends)
        goes_on = self.inside[at] and not item.pending
        wait = self.random.choice([item.flush, item.flush_delayed, item.cancel_sync, None])
        if wait is None:
            await self.random.choice(self.queues).flush()
        else:
            await wait()
            assert not goes_on or self.ended[at] > before, "its run goes on"

    async def a_while(self, wait):
        """Leaves what takes longer, by a cancellation of its task, which is that of the run in a run."""
        task, loop = asyncio.current_task(), asyncio.get_running_loop()
        timer = loop.call_later(self.random.random() * 0.004, task.cancel)
        try:
            await wait
        except asyncio.CancelledError:
            self.sums["left"] += 1
            if self.hub._shell.cancelled or self.killed:
                raise
        finally:
            timer.cancel()

    killed = False

    def calls(self):
        item, rng = self.item(), self.random
        rng.choice([item.queue, item.queue, item.cancel, lambda: item.modify(rng.random() * 0.005),
                    lambda: item.queue_delayed(rng.random() * 0.005)])()

    async def act(self, run):
        rng, kind = self.random, self.random.randrange(12)
        try:
            if kind < 4:
                self.calls()
            elif kind < 6:
                await asyncio.sleep(rng.random() * 0.005 * rng.randrange(2))
            elif kind == 6:
                await self.waits()
            elif kind < 9:
                await self.a_while(self.waits())
            elif kind == 9 and run:
                run.requeue_after(0.001)
            elif kind == 9:
                await self.a_while(rng.choice(self.queues).drain())
            elif kind == 10 and run:
                # tasks, so nobody's calls, which may wait for this run
                await self.a_while(asyncio.gather(self.waits(), asyncio.sleep(0), return_exceptions=True))
            elif kind == 10:
                await rng.choice(self.queues).drain()
            elif rng.randrange(3) == 0 and run:
                self.sums["raised"] += 1
                raise KeyError("on purpose")
        except (cmwq.Itself, cmwq.Deadlock):
            self.sums["refused"] += 1
        except (cmwq.Closed, cmwq.Draining, cmwq.TooManyWaits, cmwq.Full):
            pass

    async def run(self, run, at):
        assert not self.inside[at]  # never twice at once
        self.inside[at] = True
        self.sums["runs"] += 1
        try:
            for _ in range(self.random.randrange(4)):
                await self.act(run)
        finally:
            self.inside[at] = False
            self.ended[at] += 1

    async def party(self):
        for _ in range(self.random.randrange(5, 25)):
            await self.act(None)


async def schedule(seed, sums, text):
    rng = random.Random(seed)
    names = ["a", "b"][:rng.randrange(1, 3)]
    queues = {name: cmwq.max_active(rng.randrange(1, 4), high_priority=rng.random() < .5,
                                    cpu_intensive=rng.random() < .5) for name in names}
    hub = cmwq.AsyncHub(workers=rng.randrange(1, 5), cpus=rng.randrange(1, 3), queues=queues, items=8,
                        waits=rng.randrange(1, 7), history=text, keep=rng.randrange(1, 60),
                        room=2 ** 62 if rng.randrange(6) else rng.randrange(100, 300))
    before = sums["runs"]
    world = World(hub, names, rng, sums)
    parties = [asyncio.ensure_future(world.party()) for _ in range(rng.randrange(1, 6))]
    how = rng.randrange(8)
    if how == 0:
        await asyncio.sleep(rng.random() * .02)
        await ends(hub)
    elif how == 1:
        await asyncio.sleep(rng.random() * .02)
        world.killed = True
        hub._shell.cancel()  # as a block does that raises
        await ends(hub)
    elif how == 2:
        await asyncio.sleep(rng.random() * .02)
        world.killed = True
        for party in parties:
            party.cancel()
    told = await asyncio.gather(*parties, return_exceptions=True)
    faults = [it for it in told if isinstance(it, BaseException) and not isinstance(it, asyncio.CancelledError)]
    assert not faults, faults
    await ends(hub)
    judged(text)
    started = text.getvalue().count("= started")
    assert started == text.getvalue().count("= finished")
    assert started == sums["runs"] - before or how == 1, "each start is one run"
    assert not any(world.inside)
    sums["entries"] += text.getvalue().count("\n")


async def ends(hub):
    try:
        await hub.shutdown()
    except cmwq.WorkError:
        pass


class Schedules(Case):
    def test_schedules(self):
        sums = collections.Counter()
        for seed in range(FIRST, FIRST + 5 * SEEDS):
            text = io.StringIO()
            faulthandler.dump_traceback_later(SECONDS, exit=True)  # of one schedule
            try:
                play(schedule(seed, sums, text), seed, True)
            except BaseException as why:
                raise AssertionError(f"seed {seed}\n{text.getvalue()[-3000:]}") from why
        self.assertTrue(all(sums[it] for it in ("runs", "waits", "left", "refused", "raised")), sums)


if __name__ == "__main__":
    unittest.main()
