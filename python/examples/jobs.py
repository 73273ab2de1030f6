"""Prints how many runs there are in a second: `jobs.py LOAD ROUNDS WORKERS`, as rust/examples/jobs.rs."""
import itertools
import sys
import threading
import time

import cmwq


def main():
    load, rounds, workers = sys.argv[1], int(sys.argv[2]), int(sys.argv[3])
    runs, count = itertools.count(1), 0
    queues = {str(number): cmwq.max_active(512) for number in range(4)}
    with cmwq.Hub(workers=workers, waits=4, queues=queues) as hub:
        if load == "self":
            def again(run):
                if next(runs) < rounds:
                    run.requeue()
            item = hub.item(again)
            begun = time.perf_counter()
            item.queue()
            hub.drain()
        else:
            items = []

            def work_of(at):
                def leaf(run):
                    next(runs)

                def root(run):
                    next(runs)
                    for other in items[at + 1:at + 64]:
                        other.queue()
                return root if load == "fanout" and at % 64 == 0 else leaf
            items += [hub.queue(str(at // 64)).item(work_of(at), cpu=0) for at in range(256)]

            def call(caller):
                queue = hub.queue(str(caller))
                for _ in range(rounds):
                    if load == "fanout":
                        items[caller * 64].queue()
                        queue.drain()
                    else:
                        for item in items[caller * 64:caller * 64 + 64]:
                            item.queue()
                        queue.flush()
            callers = [threading.Thread(target=call, args=(caller,)) for caller in range(4)]
            begun = time.perf_counter()
            for caller in callers:
                caller.start()
            for caller in callers:
                caller.join()
        spent, count = time.perf_counter() - begun, next(runs) - 1
    print(f"{count / spent:.0f}")


if __name__ == "__main__":
    main()
