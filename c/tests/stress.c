/*
 * A hub with threads: stress [ROUNDS [FIRST [SECONDS]]]. Callers and runs make random calls and waits. Everything ends,
 * no item is in two runs, each flush waits for what was queued before it, and each history is legal. A round that does
 * not end in time ends the test.
 */
#define _GNU_SOURCE
#include <pthread.h>
#include <sched.h>
#include <unistd.h>

/* In some rounds who sleeps wakes for nothing, and signals come late. */
static unsigned restless, calls;
static int wait_restlessly(pthread_cond_t *cond, pthread_mutex_t *lock)
{
    if (!restless || __atomic_add_fetch(&calls, 1, __ATOMIC_RELAXED) % 4)
        return pthread_cond_wait(cond, lock);
    pthread_mutex_unlock(lock);
    sched_yield();
    return pthread_mutex_lock(lock);
}
static int signal_late(pthread_cond_t *cond)
{
    unsigned now = restless ? __atomic_add_fetch(&calls, 1, __ATOMIC_RELAXED) : 1;

    if (now % 8 == 0)
        usleep(now % 64);
    return pthread_cond_signal(cond);
}
#define pthread_cond_wait wait_restlessly
#define pthread_cond_signal signal_late
#include "cmwq_hub.h"
#include "check.h"

enum { ITEMS = 12, CALLERS = 4, CALLS = 60, QUEUES = 3, TEXT = 1 << 22 };

static struct cmwq_hub hub;
static struct cmwq_options options;
static struct { uint64_t random; unsigned inside; } items[ITEMS];
static unsigned seed, ran, refused, timed_out;
static char text[TEXT];
static size_t written;
static bool closes;

static unsigned below(uint64_t *state, unsigned n) { return next_random(state) % n; }

static bool keep(void *data, const char *part, size_t len)
{
    (void)data;
    CHECK(len > 0 && part[len - 1] == '\n' && written + len <= TEXT);
    memcpy(text + written, part, len);
    written += len;
    return true;
}

/* What a call may return. */
static void may(int result, bool run)
{
    switch (-result) {
    case CMWQ_CLOSED:
        CHECK(closes && !run);
        return;
    case CMWQ_STOPPED:
        CHECK(closes || run);
        return;
    case CMWQ_ITSELF: case CMWQ_DEADLOCK:
        __atomic_add_fetch(&refused, 1, __ATOMIC_RELAXED);
        CHECK(run);
        return;
    case CMWQ_TIMED_OUT:
        __atomic_add_fetch(&timed_out, 1, __ATOMIC_RELAXED);
        CHECK(!run);
        return;
    case CMWQ_IS_FOREIGN: case CMWQ_IS_DRAINING: case CMWQ_NO_CALLER:
        return;
    default:
        if (result < 0)
            fprintf(stderr, "seed %u: status %d\n", seed, -result);
        CHECK(result >= 0);
    }
}

static void act(uint64_t *state, bool run)
{
    unsigned item = below(state, ITEMS), queue = below(state, QUEUES), cpu = below(state, options.cpus),
             timeout = CMWQ_FOREVER;

    if (!run && below(state, 4) == 0)
        timeout = below(state, 3);
    switch (below(state, 16)) {
    case 0: case 1: case 2: case 3: case 4:
        may(cmwq_queue_work_on(&hub, cpu, queue, item), run);
        return;
    case 5:
        may(cmwq_queue_delayed_work_on(&hub, cpu, queue, item, below(state, 4)), run);
        return;
    case 6:
        may(cmwq_mod_delayed_work_on(&hub, cpu, queue, item, below(state, 4)), run);
        return;
    case 7:
        may(cmwq_cancel_work(&hub, item), run);
        return;
    case 8: case 9:
        may(cmwq_flush_work(&hub, item, timeout), run);
        return;
    case 10:
        may(cmwq_flush_delayed_work(&hub, item, timeout), run);
        return;
    case 11:
        may(cmwq_cancel_work_sync(&hub, item, timeout), run);
        return;
    case 12: case 13:
        may(cmwq_flush_workqueue(&hub, queue, timeout), run);
        return;
    case 14:
        if (!run)
            may(cmwq_drain_workqueue(&hub, queue, timeout), run);
        return;
    default:
        may(cmwq_work_busy(&hub, item), run);
        if (!run && below(state, 4) == 0) {
            may(cmwq_freeze_workqueues(&hub), run);
            may(cmwq_thaw_workqueues(&hub), run);
        }
        if (below(state, 8) == 0)
            may(cmwq_workqueue_set_max_active(&hub, queue, 8 + below(state, 8)), run);
    }
}

static void work(struct cmwq_run *run, void *data)
{
    uint64_t *state = &items[run->item].random;

    CHECK(data == &items[run->item] && run->hub == &hub &&
          __atomic_add_fetch(&items[run->item].inside, 1, __ATOMIC_SEQ_CST) == 1);
    __atomic_add_fetch(&ran, 1, __ATOMIC_RELAXED);
    for (unsigned n = below(state, 3); n > 0; n--)
        act(state, true);
    if (below(state, 4) == 0) {
        int slept = cmwq_worker_sleeping(&hub);

        CHECK(slept == 1);
        sched_yield();
        act(state, true);
        CHECK(cmwq_worker_sleeping(&hub) == -CMWQ_IS_MISUSE);
        if (below(state, 2)) /* else the hub wakes it */
            CHECK(cmwq_worker_running(&hub) == 1);
    }
    CHECK(__atomic_sub_fetch(&items[run->item].inside, 1, __ATOMIC_SEQ_CST) == 0);
}

static void *call(void *at)
{
    uint64_t state = (uint64_t)seed * 1000 + *(unsigned *)at + 1;

    state *= 0x9e3779b97f4a7c15;
    for (unsigned n = 0; n < CALLS; n++)
        act(&state, false);
    return NULL;
}

static void round_of(uint64_t state)
{
    struct cmwq_queue queues[QUEUES];
    struct cmwq_work works[ITEMS];
    pthread_t threads[CALLERS];
    unsigned names[CALLERS];
    uint8_t line[CMWQ_LINE];
    size_t len = 0;
    uint32_t status;

    for (unsigned k = 0; k < QUEUES; k++)
        queues[k] = (struct cmwq_queue){(uint16_t)(1 + below(&state, 4)), (uint8_t)below(&state, 2),
                                        (uint8_t)below(&state, 2), (uint8_t)below(&state, 2)};
    for (unsigned k = 0; k < ITEMS; k++) {
        items[k].random = state * (k + 1) | 1;
        works[k] = (struct cmwq_work){work, &items[k]};
    }
    options = (struct cmwq_options){
        .queues = queues, .queue_count = QUEUES, .works = works, .items = ITEMS, .journal = keep};
    options.cpus = 1 + below(&state, 2);
    options.workers = 1 + below(&state, 5);
    options.waits = 1 + below(&state, 12);
    options.keep = 1 + below(&state, 200);
    options.tick_ns = 100000;
    options.spins = 1 + below(&state, 2) * 2000;
    closes = below(&state, 4) == 0;
    restless = below(&state, 3) == 0;
    written = 0;
    CHECK(cmwq_hub_open(&hub, &options) == CMWQ_OK);
    for (unsigned k = 0; k < CALLERS; k++) {
        names[k] = k;
        CHECK(pthread_create(&threads[k], NULL, call, &names[k]) == 0);
    }
    if (closes) {
        usleep(below(&state, 3000));
        CHECK(cmwq_hub_close(&hub) == CMWQ_OK && cmwq_hub_close(&hub) == -CMWQ_CLOSED);
    }
    for (unsigned k = 0; k < CALLERS; k++)
        pthread_join(threads[k], NULL);
    CHECK(cmwq_hub_close(&hub) == (closes ? -CMWQ_CLOSED : CMWQ_OK));
    status = cmwq_check((const uint8_t *)text, written, line, sizeof line, &len);
    if (status != CMWQ_OK)
        fprintf(stderr, "%.*s%.*s", (int)written, text, (int)len, (const char *)line);
    CHECK(status == CMWQ_OK);
}

int main(int argc, char **argv)
{
    unsigned rounds = argc > 1 ? (unsigned)atoi(argv[1]) : 200, first = argc > 2 ? (unsigned)atoi(argv[2]) : 0;
    unsigned seconds = argc > 3 ? (unsigned)atoi(argv[3]) : 60;

    for (seed = first; seed < first + rounds; seed++) {
        alarm(seconds);
        round_of((uint64_t)(seed + 1) * 0x9e3779b97f4a7c15);
    }
    printf("%u rounds, %u runs, %u waits refused, %u left\n", rounds, ran, refused, timed_out);
    return 0;
}
