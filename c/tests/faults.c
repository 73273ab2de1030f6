/* What a hub must survive: numbers out of bounds, no memory and no threads, two closes, no room, no space, a frozen
 * queue, waits that can't end. */
#define _GNU_SOURCE
#include <pthread.h>
#include <stdbool.h>
#include <stdlib.h>
#include <unistd.h>

/* Each of these may fail, or is counted; also what the library asks of the heap. */
static unsigned allocations_left = ~0u, threads_left = ~0u, signals;
static int blocks;
struct block { bool ok; void *at; };
struct block rattle_alloc(size_t size, size_t align);
struct block rattle_realloc(void *old, size_t kept, size_t size, size_t align);
void rattle_dealloc(void *at);
static void *calloc_or_not(size_t many, size_t size)
{
    void *at = allocations_left-- ? calloc(many, size) : NULL;

    blocks += at != NULL;
    return at;
}
static void free_and_count(void *at)
{
    blocks -= at != NULL;
    free(at);
}
struct block rattle_alloc(size_t size, size_t align)
{
    void *at = calloc_or_not(1, size ? size : align);

    return (struct block){at != NULL, at};
}
struct block rattle_realloc(void *old, size_t kept, size_t size, size_t align)
{
    void *at = allocations_left-- ? realloc(old, size ? size : align) : NULL;

    (void)kept;
    return (struct block){at != NULL, at ? at : old};
}
void rattle_dealloc(void *at) { free_and_count(at); }
static int atfork_or_not(void (*before)(void), void (*after)(void), void (*child)(void))
{
    return allocations_left-- ? pthread_atfork(before, after, child) : 12;
}
static int create_or_not(pthread_t *thread, const pthread_attr_t *attr, void *(*body)(void *), void *at)
{
    return __atomic_fetch_sub(&threads_left, 1, __ATOMIC_SEQ_CST) ? pthread_create(thread, attr, body, at) : 11;
}
static int count_signal(pthread_cond_t *cond)
{
    __atomic_add_fetch(&signals, 1, __ATOMIC_RELAXED);
    return pthread_cond_signal(cond);
}
static __thread unsigned lock_after_us, locks;
static int lock_slowly(pthread_mutex_t *lock)
{
    if (locks++ && lock_after_us) /* not at first */
        usleep(lock_after_us);
    return pthread_mutex_lock(lock);
}
#define calloc calloc_or_not
#define free free_and_count
#define pthread_atfork atfork_or_not
#define pthread_mutex_lock lock_slowly
#define pthread_create create_or_not
#define pthread_cond_signal count_signal
#include "cmwq_hub.h"
#include "check.h"

enum { ITEMS = 4, TEXT = 1 << 20 };

static struct cmwq_hub hub, other;
static struct cmwq_queue queues[2] = {{.max_active = 4}, {.max_active = 1, .high = 1, .freezable = 1}};
static struct cmwq_work works[ITEMS];
static unsigned ran;
static int results[8];
static char text[TEXT];
static size_t written;
static bool gate_open, takes = true;
static unsigned slow_us;

/* At its head, at entries and at its end the journal makes no call of its hub: else it might wait for itself. */
static bool keep(void *data, const char *part, size_t len)
{
    struct cmwq_options options = {.items = 1};

    (void)data;
    CHECK(written + len <= TEXT && part[len - 1] == '\n');
    CHECK(cmwq_queue_work_on(&hub, 0, 0, 0) == -CMWQ_NOT_NOW &&
          cmwq_flush_work(&hub, 0, CMWQ_FOREVER) == -CMWQ_NOT_NOW);
    CHECK(cmwq_cancel_work(&hub, 0) == -CMWQ_NOT_NOW && cmwq_work_busy(&hub, 0) == -CMWQ_NOT_NOW &&
          cmwq_work_busy(&hub, ITEMS) == -CMWQ_NOT_NOW);
    CHECK(cmwq_freeze_workqueues(&hub) == -CMWQ_NOT_NOW && cmwq_worker_sleeping(&hub) == -CMWQ_NOT_NOW);
    CHECK(cmwq_hub_close(&hub) == -CMWQ_NOT_NOW && cmwq_hub_open(&hub, &options) == -CMWQ_NOT_NOW);
    usleep(slow_us);
    memcpy(text + written, part, len);
    __atomic_store_n(&written, written + len, __ATOMIC_RELEASE);
    return takes;
}

static void count(struct cmwq_run *run, void *data)
{
    (void)run;
    (void)data;
    __atomic_add_fetch(&ran, 1, __ATOMIC_RELAXED);
}

static void wait_at_gate(struct cmwq_run *run, void *data)
{
    while (!__atomic_load_n(&gate_open, __ATOMIC_ACQUIRE))
        usleep(100);
    count(run, data);
}

static struct cmwq_options made(void (*work)(struct cmwq_run *run, void *data))
{
    struct cmwq_options options = {.queues = queues, .queue_count = 2, .works = works, .items = ITEMS, .workers = 2};

    for (int k = 0; k < ITEMS; k++)
        works[k] = (struct cmwq_work){work, NULL};
    ran = 0;
    written = 0;
    gate_open = false;
    takes = true;
    slow_us = 0;
    return options;
}

static void open_hub(struct cmwq_options options) { CHECK(cmwq_hub_open(&hub, &options) == CMWQ_OK); }

/* How many lines the history has. */
static unsigned lines(void)
{
    unsigned count = 0;

    for (size_t k = 0; k < written; k++)
        count += text[k] == '\n';
    return count;
}

static void judge(void)
{
    uint8_t line[CMWQ_LINE];
    size_t len = 0;

    if (cmwq_check((const uint8_t *)text, written, line, sizeof line, &len) != CMWQ_OK)
        fprintf(stderr, "%.*s%.*s", (int)written, text, (int)len, (char *)line);
    CHECK(cmwq_check((const uint8_t *)text, written, line, sizeof line, &len) == CMWQ_OK);
}

static void refuse_numbers(struct cmwq_hub *of)
{
    static const unsigned items[] = {ITEMS, 255, 256, 60000, 65535, 65536, 65537, ~0u},
                          places[] = {2, 3, 64, 255, 256, 257, 65536, ~0u};

    for (int k = 0; k < 8; k++) {
        unsigned item = items[k], place = places[k];

        CHECK(cmwq_queue_work_on(of, 0, 0, item) == -CMWQ_REFUSED &&
              cmwq_queue_work_on(of, 0, place, 0) == -CMWQ_REFUSED);
        CHECK(cmwq_queue_work_on(of, place, 0, 0) == -CMWQ_REFUSED &&
              cmwq_queue_delayed_work_on(of, 0, 0, item, 1) == -CMWQ_REFUSED);
        CHECK(cmwq_mod_delayed_work_on(of, 0, place, 0, 1) == -CMWQ_REFUSED &&
              cmwq_cancel_work(of, item) == -CMWQ_REFUSED);
        CHECK(cmwq_cancel_work_sync(of, item, CMWQ_FOREVER) == -CMWQ_REFUSED &&
              cmwq_flush_work(of, item, CMWQ_FOREVER) == -CMWQ_REFUSED);
        CHECK(cmwq_flush_delayed_work(of, item, CMWQ_FOREVER) == -CMWQ_REFUSED &&
              cmwq_work_busy(of, item) == -CMWQ_REFUSED);
        CHECK(cmwq_flush_workqueue(of, place, CMWQ_FOREVER) == -CMWQ_REFUSED &&
              cmwq_drain_workqueue(of, place, CMWQ_FOREVER) == -CMWQ_REFUSED);
        CHECK(cmwq_destroy_workqueue(of, place, CMWQ_FOREVER) == -CMWQ_REFUSED &&
              cmwq_workqueue_set_max_active(of, place, 1) == -CMWQ_REFUSED);
    }
    CHECK(cmwq_workqueue_set_max_active(of, 0, 0) == -CMWQ_REFUSED &&
          cmwq_workqueue_set_max_active(of, 0, 1000) == 512);
    CHECK(cmwq_queue_delayed_work_on(of, 0, 0, 0, UINT64_MAX) == -CMWQ_REFUSED &&
          cmwq_queue_delayed_work_on(of, 0, 0, 0, UINT32_MAX + 1ull) == -CMWQ_REFUSED);
}

static void refuse_in_run(struct cmwq_run *run, void *data)
{
    refuse_numbers(run->hub);
    results[0] = cmwq_hub_close(run->hub);
    results[1] = cmwq_flush_work(run->hub, run->item, CMWQ_FOREVER);
    results[2] = cmwq_destroy_workqueue(run->hub, 0, CMWQ_FOREVER);
    results[3] = cmwq_drain_workqueue(run->hub, 0, CMWQ_FOREVER);
    results[4] = cmwq_flush_work(run->hub, 3, 10);
    results[5] = cmwq_worker_running(run->hub);
    count(run, data);
}

static void test_numbers(void)
{
    struct cmwq_options options = made(refuse_in_run), wrong;

    open_hub(options);
    refuse_numbers(&hub);
    CHECK(cmwq_worker_sleeping(&hub) == -CMWQ_REFUSED && cmwq_hub_open(&hub, &options) == -CMWQ_NOT_NOW);
    CHECK(cmwq_queue_work_on(&hub, 0, 0, 1) == 1 && cmwq_flush_workqueue(&hub, 0, CMWQ_FOREVER) == 1 && ran == 1);
    CHECK(results[0] == -CMWQ_NOT_NOW && results[1] == -CMWQ_ITSELF && results[2] == -CMWQ_ITSELF &&
          results[3] == -CMWQ_ITSELF);
    CHECK(results[4] == 0 && results[5] == -CMWQ_IS_MISUSE);
    CHECK(cmwq_hub_close(&hub) == CMWQ_OK && cmwq_hub_close(&hub) == -CMWQ_CLOSED);
    CHECK(cmwq_queue_work_on(&hub, 0, 0, 0) == -CMWQ_CLOSED && cmwq_flush_work(&hub, 0, 1) == -CMWQ_CLOSED &&
          cmwq_work_busy(&hub, 0) == -CMWQ_CLOSED);
    CHECK(cmwq_hub_close(&other) == -CMWQ_CLOSED && cmwq_queue_work_on(&other, 0, 0, 0) == -CMWQ_CLOSED);
    for (int k = 0; k < 9; k++) {
        static const unsigned numbers[9][5] = {{65, 1, 1, 1, 2},    {1, 65, 1, 1, 2},  {257, 1, 1, 1, 2},
                                               {1, 257, 1, 1, 2},   {1, 1, 0, 1, 2},   {1, 1, 65536, 1, 2},
                                               {1, 1, 65537, 1, 2}, {1, 1, 1, 255, 2}, {1, 1, 1, 1, 0}};

        wrong = options;
        wrong.cpus = numbers[k][0];
        wrong.workers = numbers[k][1];
        wrong.items = numbers[k][2];
        wrong.waits = numbers[k][3];
        wrong.queue_count = numbers[k][4];
        CHECK(cmwq_hub_open(&hub, &wrong) == -CMWQ_REFUSED && cmwq_hub_close(&hub) == -CMWQ_CLOSED);
    }
}

static void test_nothing_left(void)
{
    struct cmwq_options options = made(count);

    options.journal = keep;
    for (unsigned k = 0;; k++) {
        int result;

        written = 0;
        allocations_left = k;
        result = cmwq_hub_open(&hub, &options);
        if (result == CMWQ_OK) { /* later calls take no memory */
            allocations_left = 0;
            CHECK(k > 6 && cmwq_queue_work_on(&hub, 0, 0, 0) == 1 && cmwq_queue_delayed_work_on(&hub, 0, 1, 1, 1) == 1);
            CHECK(cmwq_flush_work(&hub, 0, CMWQ_FOREVER) >= 0 && cmwq_drain_workqueue(&hub, 1, CMWQ_FOREVER) == 1);
            CHECK(cmwq_hub_close(&hub) == CMWQ_OK && blocks == 0 && allocations_left == 0);
            break;
        }
        CHECK(result == -CMWQ_NO_MEMORY && cmwq_hub_close(&hub) == -CMWQ_CLOSED && written == 0 && blocks == 0);
    }
    allocations_left = ~0u;
    for (unsigned k = 0; k < 2; k++) {
        written = 0;
        threads_left = k;
        CHECK(cmwq_hub_open(&hub, &options) == -CMWQ_NO_THREAD && cmwq_hub_close(&hub) == -CMWQ_CLOSED && blocks == 0);
    }
    for (unsigned k = 2; k < 5; k++) { /* the clock, the journal, and no, one or two workers */
        unsigned item = 0;

        written = ran = 0;
        threads_left = k;
        CHECK(cmwq_hub_open(&hub, &options) == CMWQ_OK && cmwq_queue_work_on(&hub, 0, 0, item) == 1);
        CHECK(cmwq_flush_work(&hub, item, CMWQ_FOREVER) == -CMWQ_NO_THREAD ? k == 2 : k > 2);
        CHECK(cmwq_queue_work_on(&hub, 0, 1, 1) == (k == 2 ? -CMWQ_NO_THREAD : 1)); /* of another pool */
        CHECK(cmwq_flush_work(&hub, 1, CMWQ_FOREVER) == -CMWQ_NO_THREAD ? k < 4 : k == 4);
        CHECK(ran == k - 2);
        CHECK(cmwq_queue_all(&hub, 0, 0, &item, 1, NULL) == (k < 4 ? -CMWQ_NO_THREAD : 1));
        CHECK(cmwq_hub_close(&hub) == CMWQ_OK && blocks == 0);
        judge();
    }
    threads_left = ~0u;
}

/* A frozen queue has an item, a queue a timer: both end with the hub. Then it is opened again. */
static void test_frozen(void)
{
    struct cmwq_options options = made(count);

    options.journal = keep;
    for (int k = 0; k < 3; k++) {
        ran = 0;
        written = 0;
        open_hub(options);
        CHECK(cmwq_freeze_workqueues(&hub) == 1 && cmwq_freeze_workqueues(&hub) == 0 &&
              cmwq_queue_work_on(&hub, 0, 1, 0) == 1);
        CHECK(cmwq_queue_delayed_work_on(&hub, 0, 0, 1, 1000000) == 1 && cmwq_work_busy(&hub, 0) == 1 &&
              cmwq_work_busy(&hub, 1) == 1);
        CHECK(cmwq_flush_work(&hub, 0, 20) == -CMWQ_TIMED_OUT && cmwq_flush_workqueue(&hub, 1, 0) == -CMWQ_TIMED_OUT);
        CHECK(cmwq_drain_workqueue(&hub, 1, 0) == -CMWQ_TIMED_OUT &&
              cmwq_queue_work_on(&hub, 0, 1, 2) == -CMWQ_IS_DRAINING);
        CHECK(cmwq_destroy_workqueue(&hub, 0, CMWQ_FOREVER) == -CMWQ_HAS_TIMERS &&
              cmwq_queue_work_on(&hub, 0, 0, 0) == 0);
        CHECK(cmwq_hub_close(&hub) == CMWQ_OK && ran == 1);
        judge();
    }
}

/* Batches of items, some of which are pending, or not there; also by a run, which queues on a queue that is drained. */
static void queue_many(struct cmwq_run *run, void *data)
{
    unsigned all[ITEMS];
    uint64_t queued;

    (void)data;
    if (__atomic_add_fetch(&ran, 1, __ATOMIC_RELAXED) > 1)
        return;
    for (unsigned k = 0; k < ITEMS; k++)
        all[k] = k;
    while (!__atomic_load_n(&gate_open, __ATOMIC_ACQUIRE))
        usleep(100);
    results[0] = cmwq_queue_all(run->hub, 0, 0, all, ITEMS, &queued);
    results[1] = (int)queued;
}
static void test_batches(void)
{
    struct cmwq_options options = made(queue_many);
    unsigned twice[3 * CMWQ_BATCH];
    uint64_t queued[3];

    for (unsigned k = 0; k < 3 * CMWQ_BATCH; k++)
        twice[k] = k < CMWQ_BATCH ? 1 : k % ITEMS;
    options.journal = keep;
    open_hub(options);
    CHECK(cmwq_freeze_workqueues(&hub) == 1 && cmwq_queue_work_on(&hub, 0, 1, 1) == 1);
    CHECK(cmwq_queue_all(&hub, 0, 1, twice, 3 * CMWQ_BATCH, queued) == ITEMS - 1);
    CHECK(queued[0] == 0 && queued[1] == (1u << ITEMS) - 3 && queued[2] == 0);
    CHECK(cmwq_queue_all(&hub, 0, 1, NULL, 0, NULL) == 0 && cmwq_cancel_work(&hub, 0) == 1);
    twice[0] = 0;
    twice[1] = ITEMS;
    CHECK(cmwq_queue_all(&hub, 0, 1, twice, 3, queued) == -CMWQ_REFUSED && queued[0] == 1);
    twice[1] = UINT16_MAX + 1u;
    CHECK(cmwq_queue_all(&hub, 0, 1, twice, 3, queued) == -CMWQ_REFUSED && queued[0] == 0);
    CHECK(cmwq_queue_all(&hub, 1, 1, twice, 1, NULL) == -CMWQ_REFUSED &&
          cmwq_queue_all(&hub, 0, 9, twice, 1, NULL) == -CMWQ_REFUSED);
    for (unsigned k = 0; k < ITEMS; k++)
        CHECK(cmwq_cancel_work(&hub, k) == 1);
    CHECK(cmwq_queue_work_on(&hub, 0, 0, 0) == 1 && cmwq_drain_workqueue(&hub, 0, 0) == -CMWQ_TIMED_OUT);
    while (!__atomic_load_n(&ran, __ATOMIC_ACQUIRE))
        usleep(100);
    twice[1] = 2;
    CHECK(cmwq_queue_all(&hub, 0, 1, twice, 2, queued) == -CMWQ_IS_FOREIGN && cmwq_work_busy(&hub, 2) == 0);
    CHECK(cmwq_queue_all(&hub, 0, 0, twice + 1, 1, queued) == -CMWQ_IS_DRAINING && queued[0] == 0);
    __atomic_store_n(&gate_open, true, __ATOMIC_RELEASE);
    CHECK(cmwq_drain_workqueue(&hub, 0, CMWQ_FOREVER) >= 0);
    CHECK(ran == 1 + ITEMS && results[0] == ITEMS && results[1] == (1 << ITEMS) - 1);
    CHECK(cmwq_hub_close(&hub) == CMWQ_OK && cmwq_queue_all(&hub, 0, 0, twice, 2, queued) == -CMWQ_CLOSED);
    CHECK(queued[0] == 0);
    judge();
}

static void sleep_often(struct cmwq_run *run, void *data)
{
    while (!__atomic_load_n(&gate_open, __ATOMIC_ACQUIRE))
        usleep(100);
    for (int k = 0; k < 40; k++) {
        int slept = cmwq_worker_sleeping(run->hub);

        CHECK(slept == 1 || slept == -CMWQ_FULL);
        if (slept != 1)
            __atomic_store_n(&results[0], slept, __ATOMIC_RELAXED);
        if (slept == 1)
            CHECK(cmwq_worker_running(run->hub) == 1);
    }
    count(run, data);
}

/* No room for a sleep: the run goes on, and all that was queued runs. */
static void test_room(void)
{
    struct cmwq_options options = made(sleep_often);

    options.room = 60;
    options.journal = keep;
    open_hub(options);
    for (unsigned item = 0; item < ITEMS; item++)
        CHECK(cmwq_queue_work_on(&hub, 0, 0, item) == 1);
    __atomic_store_n(&gate_open, true, __ATOMIC_RELEASE);
    while (__atomic_load_n(&ran, __ATOMIC_RELAXED) < ITEMS)
        usleep(100);
    CHECK(cmwq_queue_work_on(&hub, 0, 0, 0) == -CMWQ_FULL && cmwq_flush_work(&hub, 0, 5) == -CMWQ_FULL);
    CHECK(cmwq_queue_delayed_work_on(&hub, 0, 0, 0, 5) == -CMWQ_FULL && cmwq_hub_close(&hub) == CMWQ_OK &&
          ran == ITEMS && results[0] == -CMWQ_FULL);
    judge();
    /* nothing thaws it: the hub ends all the same */
    options = made(count);
    options.room = 10;
    open_hub(options);
    CHECK(cmwq_freeze_workqueues(&hub) == 1 && cmwq_queue_work_on(&hub, 0, 1, 0) == 1);
    while (cmwq_cancel_work(&hub, 2) == 0)
        ;
    CHECK(cmwq_hub_close(&hub) == CMWQ_OK);
}

/* Within a time also of a hub that is quiet, with a slow journal and hardly any space, and until it wants no more. */
static void test_journal(void)
{
    struct cmwq_options options = made(count);
    size_t before;

    options.journal = keep;
    open_hub(options);
    CHECK(cmwq_queue_work_on(&hub, 0, 0, 0) == 1 && cmwq_flush_work(&hub, 0, CMWQ_FOREVER) >= 0);
    for (int k = 0; k < 1000 && !memmem(text, __atomic_load_n(&written, __ATOMIC_ACQUIRE), "finish", 6); k++)
        usleep(5000);
    CHECK(memmem(text, __atomic_load_n(&written, __ATOMIC_ACQUIRE), "finish", 6));
    CHECK(cmwq_hub_close(&hub) == CMWQ_OK);
    judge();

    written = 0;
    options.keep = 1;
    slow_us = 1000;
    open_hub(options);
    for (unsigned k = 0; k < 100; k++)
        CHECK(cmwq_queue_work_on(&hub, 0, 0, k % ITEMS) >= 0);
    CHECK(cmwq_hub_close(&hub) == CMWQ_OK && ran <= 101);
    judge();

    slow_us = 0;
    takes = false;
    open_hub(options);
    before = written;
    for (unsigned k = 0; k < 3000; k++)
        CHECK(cmwq_queue_work_on(&hub, 0, 0, k % ITEMS) >= 0);
    CHECK(cmwq_hub_close(&hub) == -CMWQ_NO_JOURNAL && written == before);
}

static void test_timeouts(void)
{
    struct cmwq_options options = made(wait_at_gate);
    uint64_t begun;

    options.waits = 2;
    options.journal = keep;
    open_hub(options);
    begun = cmwq_hub_now_(&hub);
    CHECK(cmwq_queue_work_on(&hub, 0, 0, 0) == 1 && cmwq_flush_work(&hub, 0, 30) == -CMWQ_TIMED_OUT);
    CHECK(cmwq_hub_now_(&hub) - begun >= 30000000);
    while (cmwq_work_busy(&hub, 0) != 2)
        usleep(100);
    /* a wait that was left takes no caller: many for the same, for others, and those that follow */
    for (int k = 0; k < 1000; k++)
        CHECK(cmwq_flush_work(&hub, 0, 0) == -CMWQ_TIMED_OUT);
    for (int k = 0; k < 20; k++) {
        CHECK(cmwq_flush_workqueue(&hub, 0, 0) == -CMWQ_TIMED_OUT && cmwq_cancel_work_sync(&hub, 1, CMWQ_FOREVER) == 0);
        CHECK(cmwq_queue_work_on(&hub, 0, 0, 2 + (unsigned)k % 2) >= 0);
        CHECK(cmwq_flush_work(&hub, 0, 0) == -CMWQ_TIMED_OUT);
    }
    CHECK(cmwq_drain_workqueue(&hub, 0, 0) == -CMWQ_TIMED_OUT && cmwq_drain_workqueue(&hub, 0, 1) == -CMWQ_TIMED_OUT);
    CHECK(cmwq_cancel_work_sync(&hub, 0, 0) == -CMWQ_TIMED_OUT && cmwq_cancel_work_sync(&hub, 0, 1) == -CMWQ_TIMED_OUT);
    CHECK(cmwq_queue_work_on(&hub, 0, 0, 0) == 0 && cmwq_queue_work_on(&hub, 0, 0, 1) == -CMWQ_IS_DRAINING);
    __atomic_store_n(&gate_open, true, __ATOMIC_RELEASE);
    /* the hub ends their tickets then */
    CHECK(cmwq_drain_workqueue(&hub, 0, CMWQ_FOREVER) == 1 && cmwq_cancel_work_sync(&hub, 0, CMWQ_FOREVER) == 0);
    CHECK(cmwq_queue_work_on(&hub, 0, 0, 0) == 1 && cmwq_flush_workqueue(&hub, 0, CMWQ_FOREVER) == 1);
    CHECK(cmwq_hub_close(&hub) == CMWQ_OK && ran >= 4 && lines() < 200);
    judge();
}

static uint64_t began;

static void note_time(struct cmwq_run *run, void *data)
{
    began = cmwq_hub_now_(run->hub);
    count(run, data);
}

/* A run leaves a wait whose item holds on until the gate opens, and is awake then. */
static void leave_in_run(struct cmwq_run *run, void *data)
{
    CHECK(cmwq_queue_work_on(run->hub, 0, 0, 1) == 1);
    results[0] = cmwq_flush_work(run->hub, 1, 1);
    results[1] = cmwq_worker_running(run->hub);
    CHECK(cmwq_worker_sleeping(run->hub) == 1);
    results[2] = cmwq_flush_work(run->hub, 1, 0);
    results[3] = cmwq_worker_running(run->hub);
    count(run, data);
}

static void test_timeouts_in_runs(void)
{
    struct cmwq_options options = made(wait_at_gate);

    works[0].run = leave_in_run;
    options.journal = keep;
    open_hub(options);
    CHECK(cmwq_queue_work_on(&hub, 0, 0, 0) == 1 && cmwq_flush_work(&hub, 0, CMWQ_FOREVER) >= 0 && ran == 1);
    CHECK(results[0] == -CMWQ_TIMED_OUT && results[1] == -CMWQ_IS_MISUSE);
    CHECK(results[2] == -CMWQ_TIMED_OUT && results[3] == 1);
    __atomic_store_n(&gate_open, true, __ATOMIC_RELEASE);
    CHECK(cmwq_hub_close(&hub) == CMWQ_OK && ran == 2);
    judge();
}

static void test_delays(void)
{
    struct cmwq_options options = made(note_time);

    works[1].run = wait_at_gate;
    options.tick_ns = 3000000;
    options.journal = keep;
    open_hub(options);
    for (unsigned ticks = 1; ticks < 6; ticks++) {
        uint64_t before;

        usleep(1700 * ticks);
        before = cmwq_hub_now_(&hub);
        CHECK(cmwq_queue_delayed_work_on(&hub, 0, 0, 0, ticks) == 1);
        while (cmwq_work_busy(&hub, 0))
            usleep(100);
        CHECK(began - before >= ticks * options.tick_ns);
    }
    /* timers that a drain has held back, of one that was left too */
    CHECK(cmwq_queue_delayed_work_on(&hub, 0, 0, 0, 2) == 1 && cmwq_mod_delayed_work_on(&hub, 0, 0, 0, 1) == 1);
    CHECK(cmwq_drain_workqueue(&hub, 0, CMWQ_FOREVER) == 1);
    while (cmwq_work_busy(&hub, 0))
        usleep(100);
    /* a drain holds back a timer that is due, and one that isn't yet when its queue is empty: the clock is told then */
    CHECK(cmwq_queue_work_on(&hub, 0, 0, 1) == 1 && cmwq_queue_delayed_work_on(&hub, 0, 0, 0, 1) == 1);
    CHECK(cmwq_queue_delayed_work_on(&hub, 0, 0, 2, 30) == 1 && cmwq_drain_workqueue(&hub, 0, 0) == -CMWQ_TIMED_OUT);
    usleep(10000);
    __atomic_store_n(&gate_open, true, __ATOMIC_RELEASE);
    while (cmwq_work_busy(&hub, 0) || cmwq_work_busy(&hub, 2))
        usleep(100);
    CHECK(cmwq_hub_close(&hub) == CMWQ_OK && ran == 9);
    judge();
}

/* A process may have many hubs: none of them takes a key for threads, of which a process has some 1,000. */
/* The time of the first entry that has this in its line, by the ticks before it. */
static uint64_t time_of(const char *entry)
{
    const char *at = (const char *)memmem(text, written, entry, strlen(entry)), *tick = text;
    uint64_t time = 0;

    CHECK(at);
    while ((tick = (const char *)memmem(tick, (size_t)(at - tick), " = now ", 7))) {
        tick += 7;
        time = strtoull(tick, NULL, 10);
    }
    return time;
}

static void rest_and_note(struct cmwq_run *run, void *data)
{
    (void)data;
    usleep(20000);
    began = cmwq_hub_now_(run->hub) / run->hub->is.tick_ns;
}

/* With @ticks an entry is made no sooner than it says; without, time stands still if nothing is delayed. */
static void test_ticks(bool ticks)
{
    struct cmwq_options options = made(rest_and_note);
    uint64_t called;

    options.journal = keep;
    options.ticks = ticks;
    open_hub(options);
    usleep(20000);
    called = cmwq_hub_now_(&hub) / hub.is.tick_ns;
    CHECK(called >= 20 && cmwq_queue_work_on(&hub, 0, 0, 0) == 1 && cmwq_flush_work(&hub, 0, CMWQ_FOREVER) == 1);
    CHECK(cmwq_hub_close(&hub) == CMWQ_OK);
    judge();
    CHECK(ticks ? time_of(" queue 0 ") >= called && time_of(" finish ") >= began : time_of(" finish ") == 0);
    CHECK(!ticks || (time_of(" take ") < began && began >= called + 20));
}

static void test_many_hubs(void)
{
    static struct cmwq_hub many[64];
    static pthread_key_t keys[PTHREAD_KEYS_MAX];
    struct cmwq_options options = made(count);
    unsigned taken = 0;

    options.workers = 1;
    while (taken < PTHREAD_KEYS_MAX && pthread_key_create(&keys[taken], NULL) == 0)
        taken++;
    for (unsigned k = 0; k < 64; k++)
        CHECK(cmwq_hub_open(&many[k], &options) == CMWQ_OK && cmwq_queue_work_on(&many[k], 0, 0, k % ITEMS) == 1);
    /* in whatever order they are closed */
    for (unsigned k = 0; k < 64; k++)
        CHECK(cmwq_hub_close(&many[k * 37 % 64]) == CMWQ_OK);
    CHECK(ran == 64);
    while (taken-- > 0)
        CHECK(pthread_key_delete(keys[taken]) == 0);
}

/* A journal that calls another hub is called in a run of that one: it is the run there. */
static bool call_hub(void *data, const char *part, size_t len)
{
    (void)data;
    (void)len;
    results[2] = cmwq_flush_work(&hub, 0, CMWQ_FOREVER);
    results[3] = cmwq_queue_work_on(&other, 0, 0, 0);
    results[4] += strncmp(part, "history", 7) == 0 || strncmp(part, "end", 3) == 0;
    return true;
}

static void open_other(struct cmwq_run *run, void *data)
{
    struct cmwq_options options = {.queues = queues, .queue_count = 1, .items = 1, .journal = call_hub};

    CHECK(cmwq_hub_open(&other, &options) == CMWQ_OK);
    CHECK(results[2] == -CMWQ_ITSELF && results[3] == -CMWQ_NOT_NOW && cmwq_queue_work_on(&other, 0, 0, 0) == 1);
    CHECK(cmwq_hub_close(run->hub) == -CMWQ_NOT_NOW && cmwq_hub_close(&other) == CMWQ_OK);
    CHECK(results[2] == -CMWQ_ITSELF && results[3] == -CMWQ_NOT_NOW);
    count(run, data);
}

static void call_other(struct cmwq_run *run, void *data)
{
    /* an outsider there: it may wait with a timeout, and for an item of this number */
    results[0] = cmwq_flush_work(&other, run->item, 1000);
    results[1] = cmwq_hub_close(&other);
    count(run, data);
}

static void test_two_hubs(void)
{
    struct cmwq_options options = made(count);

    CHECK(cmwq_hub_open(&other, &options) == CMWQ_OK && cmwq_queue_work_on(&other, 0, 0, 0) == 1);
    CHECK(cmwq_flush_workqueue(&other, 0, CMWQ_FOREVER) == 1);
    options = made(call_other);
    open_hub(options);
    CHECK(cmwq_queue_work_on(&hub, 0, 0, 0) == 1 && cmwq_flush_work(&hub, 0, CMWQ_FOREVER) >= 0);
    CHECK(results[0] >= 0 && results[1] == CMWQ_OK && cmwq_hub_close(&hub) == CMWQ_OK);

    options = made(open_other);
    results[4] = 0;
    open_hub(options);
    CHECK(cmwq_queue_work_on(&hub, 0, 0, 0) == 1 && cmwq_hub_close(&hub) == CMWQ_OK && ran == 1 && results[4] == 2);
}

/* One queueing wakes one worker. */
static void test_signals(void)
{
    struct cmwq_options options = made(count);
    unsigned before;

    options.workers = 32;
    options.spins = 1;
    open_hub(options);
    usleep(20000);
    before = __atomic_load_n(&signals, __ATOMIC_RELAXED);
    for (unsigned k = 0; k < 100; k++)
        CHECK(cmwq_queue_work_on(&hub, 0, 0, 0) >= 0 && cmwq_flush_work(&hub, 0, CMWQ_FOREVER) >= 0);
    CHECK(__atomic_load_n(&signals, __ATOMIC_RELAXED) - before <= 200);
    CHECK(cmwq_hub_close(&hub) == CMWQ_OK);
}

static void again(struct cmwq_run *run, void *data)
{
    count(run, data);
    if (ran < 20000)
        cmwq_queue_work_on(run->hub, 0, 0, run->item);
}

/* A start costs the same with many items. */
static void test_items(void)
{
    struct cmwq_options options = made(again);
    static struct cmwq_work many[65535];
    uint64_t least[2] = {UINT64_MAX, UINT64_MAX};

    for (unsigned k = 0; k < 65535; k++)
        many[k] = works[0];
    options.works = many;
    options.workers = 1;
    for (int k = 0; k < 6 || (k < 40 && least[1] >= 10 * least[0]); k++) { /* a busy machine may need more */
        uint64_t took;

        options.items = k % 2 ? 65535 : 16;
        ran = 0;
        open_hub(options);
        took = cmwq_hub_now_(&hub);
        CHECK(cmwq_queue_work_on(&hub, 0, 0, options.items - 1) == 1 &&
              cmwq_drain_workqueue(&hub, 0, CMWQ_FOREVER) == 1);
        took = cmwq_hub_now_(&hub) - took;
        least[k % 2] = took < least[k % 2] ? took : least[k % 2];
        CHECK(cmwq_hub_close(&hub) == CMWQ_OK && ran == 20000);
    }
    CHECK(least[1] < 10 * least[0]);
}

static void *wait_long(void *at)
{
    int result;

    (void)at;
    lock_after_us = 60000;
    result = cmwq_flush_workqueue(&hub, 0, CMWQ_FOREVER);
    CHECK(result == 1 || result == -CMWQ_STOPPED || result == -CMWQ_CLOSED);
    return NULL;
}

/* A hub is closed under calls that wait: they were named, and come back only when its threads have gone. */
static void test_waiters(void)
{
    for (int round = 0; round < 5; round++) {
        struct cmwq_options options = made(wait_at_gate);
        pthread_t threads[3];

        options.spins = 1u << 31;
        options.journal = keep;
        open_hub(options);
        CHECK(cmwq_queue_work_on(&hub, 0, 0, 0) == 1);
        for (int k = 0; k < 3; k++)
            CHECK(pthread_create(&threads[k], NULL, wait_long, NULL) == 0);
        usleep(6000);
        __atomic_store_n(&gate_open, true, __ATOMIC_RELEASE);
        CHECK(cmwq_hub_close(&hub) == CMWQ_OK);
        for (int k = 0; k < 3; k++)
            pthread_join(threads[k], NULL);
        judge();
    }
}

int main(void)
{
    alarm(540);
    test_nothing_left(); /* first, as the file asks once in a process to be told of forks */
    test_numbers();
    test_frozen();
    test_batches();
    test_room();
    test_journal();
    test_timeouts();
    test_timeouts_in_runs();
    test_delays();
    test_ticks(true);
    test_ticks(false);
    test_two_hubs();
    test_many_hubs();
    test_waiters();
    test_signals();
    test_items();
    return 0;
}
