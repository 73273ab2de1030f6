"""Whoever is named is woken, whether it sleeps already or is about to."""
import threading
import time
import unittest

from common import Case, Gate, cmwq, judged, until

# How long a wake takes at most, and after which time who was not woken wakes by itself, so that a test fails.
SOON, LATE = 5, 8


class Wakes(Case):
    def soon(self, call, *arguments):
        begun = time.monotonic()
        call(*arguments)
        self.assertLess(time.monotonic() - begun, SOON)

    def test_callers(self):
        with self.hub(workers=2) as hub:
            gate = Gate()
            item = hub.item(gate)
            for _ in range(3):
                item.queue()
                threading.Timer(0.02, gate.go.release).start()  # the caller sleeps until then
                self.soon(item.flush, LATE)
        judged(self.text)

    def test_workers(self):
        with self.hub(workers=2) as hub:
            runs = []
            item = hub.item(runs.append)
            for count in range(1, 5):
                time.sleep(0.02)  # the workers rest until then
                item.queue()
                self.assertTrue(until(lambda: len(runs) == count, SOON))  # noqa: B023
        judged(self.text)

    def test_more_than_a_call_names_one_by_one(self):
        with self.hub(workers=1) as hub:
            gate, ended = Gate(), []
            item = hub.item(gate)
            item.queue()

            def flush():
                self.soon(item.flush, LATE)
                ended.append(1)

            callers = [threading.Thread(target=flush) for _ in range(30)]
            for caller in callers:
                caller.start()
            self.assertTrue(until(lambda: len(hub._shell.waits) == 30))
            time.sleep(0.02)
            gate.go.release()
            for caller in callers:
                caller.join()
            self.assertEqual(len(ended), 30)
        judged(self.text)

    def test_a_wake_that_comes_before_the_sleep(self):
        with self.hub(workers=1) as hub:
            shell, gate = hub._shell, Gate()
            item, sleep, late = hub.item(gate), shell.sleep, []

            def slow(place, left=None):
                if place >= shell.first_caller:
                    late.append(place)
                    gate.go.release()
                    self.assertTrue(until(lambda: not shell.bells[place].empty()))
                sleep(place, left)

            shell.sleep = slow
            item.queue()
            self.soon(item.flush, LATE)
            self.assertEqual(len(late), 1)
            shell.sleep = sleep
        judged(self.text)


if __name__ == "__main__":
    unittest.main()
