"""The loads that `bench/run` times, and whose instructions `bench/instructions` counts: files of calls, and scripts."""

ROOM = 1000000


def steady():
    """One item, queued, started and finished."""
    def turn(number):
        return ['c0 queue 0 0 0', 'w0n0 take', 'w0n0 finish']
    return [f'shape 1 2 1 3 {ROOM}', 'wq 1 -'], turn


def wide():
    """All that a shape can have at most: each item is queued, its run sleeps among seven others, and sixteen queues are
    flushed."""
    def is_high(queue):
        return queue % 4 == 1

    def turn(number):
        calls, pools = [], {}
        for item in range(256):
            queue, cpu = (item + number) % 64, (item * 7 + number) % 4
            calls.append(f'c{item % 64} queue {item} {queue} {cpu}')
            pool = f'{cpu}{"h" if is_high(queue) else "n"}'
            pools[pool] = pools.get(pool, 0) + 1
        tickets = []
        for queue in range(0, 64, 4):
            tickets.append((queue, len(calls)))
            calls.append(f'c{queue} flush {queue}')
        for pool, items in pools.items():
            for first in range(0, items, 8):
                workers = [f'w{pool}{worker}' for worker in range(min(8, items - first))]
                for worker in workers:
                    calls += [f'{worker} take', f'{worker} sleep']
                for worker in workers:
                    calls += [f'{worker} wake', f'{worker} finish']
        start = number * (len(calls) + len(tickets))
        return calls + [f'c{caller} end {start + place}' for caller, place in tickets]

    queues = [f'wq {8 if queue % 2 else 4} {"h" if is_high(queue) else "-"}' for queue in range(64)]
    return [f'shape 4 8 64 256 {ROOM}'] + queues, turn


def flushes():
    """Forty flushes of one queue at once, most of them in overflow."""
    def turn(number):
        start = number * 86
        calls = ['c0 queue 0 0 0'] + [f'c{caller} flush 0' for caller in range(40)] + ['c0 queue 1 0 0']
        calls += ['w0n0 take', 'w0n0 finish'] * 2
        return calls + [f'c{caller} end {start + 1 + caller}' for caller in range(40)]
    return [f'shape 1 2 64 2 {ROOM}', 'wq 1 -'], turn


def timers():
    """All items booked, a third of them booked anew, and all fired and run."""
    def turn(number):
        calls = [f'c0 delay {item} 0 0 {1 + item * 37 % 256}' for item in range(256)]
        calls += [f'c0 modify {item} 0 0 {1 + item * 11 % 256}' for item in range(0, 256, 3)]
        return calls + ['c0 tick 16'] * 16 + ['c0 fire'] * 256 + ['w0n0 take', 'w0n0 finish'] * 256
    return [f'shape 1 2 1 256 {ROOM}', 'wq 512 -'], turn


def backlog():
    """All items wait for the one that may be active."""
    def turn(number):
        calls = [f'c0 queue {item} 0 0' for item in range(256)] + ['c0 cancel 17', 'c0 queue 17 0 0']
        return calls + ['w0n0 take', 'w0n0 finish'] * 256
    return [f'shape 1 2 1 256 {ROOM}', 'wq 1 -'], turn


KINDS = {make.__name__: make for make in (steady, wide, flushes, timers, backlog)}


def script(workers, items, callers, room=ROOM):
    """A script with one wide queue."""
    queue = {'name': 'q', 'max_active': 512, 'high': False, 'intensive': False}
    return {'cpus': 1, 'workers': workers, 'room': room, 'queues': [queue],
            'items': [{'name': name, 'does': does} for name, does in items], 'callers': callers}


def pair():
    """One caller and one worker: an item queues itself until the room is used up."""
    return script(1, [('a', [['queue', 'a', 'q', 0]])], [[['queue', 'a', 'q', 0]]], 300000)


def crowd():
    """Eight callers and four workers: each caller queues 32 items of its own and flushes, over and over."""
    def calls(caller):
        return ([['queue', f'{caller * 32 + item}', 'q', 0] for item in range(32)] + [['flush', 'q']]) * 30
    return script(4, [(f'{item}', []) for item in range(256)], [calls(caller) for caller in range(8)])


def flushers():
    """Sixty-four callers, each of which queues an item of its own and flushes, over and over."""
    return script(4, [(f'{caller}', []) for caller in range(64)],
                  [[['queue', f'{caller}', 'q', 0], ['flush', 'q']] * 300 for caller in range(64)])


SCRIPTS = {make.__name__: make for make in (pair, crowd, flushers)}


def short():
    """Three callers that queue three items and flush: schedules of 17 moves."""
    return script(2, [('a', []), ('b', []), ('c', [])],
                  [[['queue', 'a', 'q', 0], ['queue', 'b', 'q', 0], ['flush', 'q']],
                   [['queue', 'b', 'q', 0], ['queue', 'c', 'q', 0], ['flush', 'q']],
                   [['queue', 'a', 'q', 0], ['flush', 'q']]])


def long():
    """Three callers of more calls, and items that wait at a gate, queue and flush."""
    a, b, c = (['queue', name, 'q', 0] for name in 'abc')
    items = [('a', [['open', 'g'], ['queue', 'd', 'q', 0]]), ('b', [['sleep_at', 'g'], c]), ('c', []),
             ('d', [['flush_item', 'c']])]
    made = script(3, items, [[a, b, ['flush', 'q'], c, ['drain', 'q']],
                             [b, c, ['flush', 'q'], ['delay', 'd', 'q', 0, 1], ['tick', 1]],
                             [a, ['flush_item', 'b'], ['cancel_sync', 'c']]])
    return dict(made, waits=1)


def many():
    """Sixty-four workers, most of them idle: an item opens the gate of thirty others."""
    items = [('0', [['open', 'g']])] + [(f'{item}', [['sleep_at', 'g']]) for item in range(1, 32)]
    calls = [['queue', f'{item}', 'q', item % 4] for item in range(32)]
    return dict(script(8, items, [calls + [['flush', 'q']]]), cpus=4)


SCHEDULES = {make.__name__: make for make in (short, long, many)}


def make_load(kind, most, target):
    """Writes a load of as many whole turns as so many calls have, but one at least. Answers how many calls it has."""
    head, turn = KINDS[kind]()
    count = 0
    with open(target, 'w') as file:
        calls = head
        for number in range(max(1, most // len(turn(0)))):
            file.write('\n'.join(calls) + '\n')
            calls = turn(number)
            count += len(calls)
        file.write('\n'.join(calls) + '\n')
    return count
