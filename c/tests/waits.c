/* Work functions that wait: what would never end is refused, all else ends, and the history is legal. */
#include "cmwq_hub.h"
#include "check.h"
#include <unistd.h>

enum { MOST = 24, TEXT = 1 << 22 };

/* What the function of an item waits for, and what came of that. @run: its function, in place of that of all. */
struct item {
    enum cmwq_kind kind;
    uint16_t other;
    bool waits;
    unsigned ran;
    int result;
    void (*run)(struct cmwq_run *run, void *data);
};

static struct cmwq_hub hub;
static struct item items[MOST];
static struct cmwq_work works[MOST];
static unsigned together; /* so many runs wait for one another before they wait */
static unsigned arrived;
static pthread_mutex_t gate = PTHREAD_MUTEX_INITIALIZER;
static pthread_cond_t opened = PTHREAD_COND_INITIALIZER;
static char text[TEXT];
static size_t written;

static bool keep(void *data, const char *part, size_t len)
{
    (void)data;
    CHECK(written + len <= TEXT);
    memcpy(text + written, part, len);
    written += len;
    return true;
}

/* Sleeps until all that should have arrived. */
static void meet(struct cmwq_run *run)
{
    CHECK(cmwq_worker_sleeping(run->hub) == 1);
    pthread_mutex_lock(&gate);
    arrived++;
    pthread_cond_broadcast(&opened);
    while (arrived < together)
        pthread_cond_wait(&opened, &gate);
    pthread_mutex_unlock(&gate);
    CHECK(cmwq_worker_running(run->hub) == 1);
}

static void work(struct cmwq_run *run, void *data)
{
    struct item *item = (struct item *)data;

    pthread_mutex_lock(&gate); /* which holds the runs back until all is queued */
    pthread_mutex_unlock(&gate);
    if (together && item->waits)
        meet(run);
    if (item->waits)
        switch (item->kind) {
        case CMWQ_FLUSH:
            item->result = cmwq_flush_workqueue(run->hub, item->other, CMWQ_FOREVER);
            break;
        case CMWQ_DRAIN:
            item->result = cmwq_drain_workqueue(run->hub, item->other, CMWQ_FOREVER);
            break;
        case CMWQ_FLUSH_ITEM:
            item->result = cmwq_flush_work(run->hub, item->other, CMWQ_FOREVER);
            break;
        case CMWQ_FLUSH_DELAYED:
            item->result = cmwq_flush_delayed_work(run->hub, item->other, CMWQ_FOREVER);
            break;
        default:
            item->result = cmwq_cancel_work_sync(run->hub, item->other, CMWQ_FOREVER);
        }
    item->ran++;
}

static void open_hub(unsigned cpus, unsigned workers, const struct cmwq_queue *queues, size_t len, unsigned waits)
{
    struct cmwq_options options = {.queues = queues,
                                   .queue_count = len,
                                   .works = works,
                                   .items = MOST,
                                   .cpus = cpus,
                                   .workers = workers,
                                   .waits = waits};

    options.keep = 64;
    options.journal = keep;
    arrived = 0;
    written = 0;
    for (int i = 0; i < MOST; i++) {
        items[i].ran = 0;
        items[i].result = -99;
        works[i].run = items[i].run ? items[i].run : work;
        works[i].data = &items[i];
    }
    CHECK(cmwq_hub_open(&hub, &options) == CMWQ_OK);
}

static void queue_item(unsigned item, unsigned queue, unsigned cpu)
{
    CHECK(cmwq_queue_work_on(&hub, cpu, queue, item) == 1);
}

/* Lets all end, and judges the history. */
static void close_hub(void)
{
    uint8_t verdict[CMWQ_LINE];
    size_t len = 0;
    uint32_t status;

    CHECK(cmwq_hub_close(&hub) == CMWQ_OK);
    status = cmwq_check((const uint8_t *)text, written, verdict, sizeof verdict, &len);
    if (status != CMWQ_OK)
        fprintf(stderr, "%.*s%.*s", (int)written, text, (int)len, (const char *)verdict);
    CHECK(status == CMWQ_OK);
}

static void waits(uint16_t item, enum cmwq_kind kind, uint16_t other)
{
    items[item].kind = kind;
    items[item].other = other;
    items[item].waits = true;
}

static void nobody_waits(void)
{
    memset(items, 0, sizeof items);
    together = 0;
}

static void ring(uint16_t many, enum cmwq_kind kind)
{
    struct cmwq_queue queue = {.max_active = 8};
    unsigned refused = 0;

    nobody_waits();
    together = many;
    for (uint16_t i = 0; i < many; i++)
        waits(i, kind, (uint16_t)((i + 1) % many));
    open_hub(1, 4, &queue, 1, 4);
    for (uint16_t i = 0; i < many; i++)
        queue_item(i, 0, 0);
    close_hub();
    for (uint16_t i = 0; i < many; i++) {
        CHECK(items[i].ran == 1 && (items[i].result >= 0 || items[i].result == -CMWQ_DEADLOCK));
        refused += items[i].result == -CMWQ_DEADLOCK;
    }
    CHECK(refused == 1);
}

/* Item 0, of queue 0, waits for queue 1; item 1, of queue 1, for item 0. */
static void ring_by_a_queue(void)
{
    struct cmwq_queue queues[2] = {{.max_active = 8}, {.max_active = 8}};

    nobody_waits();
    together = 2;
    waits(0, CMWQ_FLUSH, 1);
    waits(1, CMWQ_CANCEL_SYNC, 0);
    open_hub(1, 4, queues, 2, 4);
    queue_item(0, 0, 0);
    queue_item(1, 1, 0);
    close_hub();
    CHECK((items[0].result == -CMWQ_DEADLOCK) + (items[1].result == -CMWQ_DEADLOCK) == 1);
    CHECK((items[0].result >= 0) + (items[1].result >= 0) == 1);
}

static void alone(void)
{
    struct cmwq_queue queues[2] = {{.max_active = 1}, {.max_active = 1}};

    nobody_waits();
    waits(0, CMWQ_CANCEL_SYNC, 0);
    waits(1, CMWQ_FLUSH, 0);
    waits(2, CMWQ_FLUSH, 1);
    waits(3, CMWQ_CANCEL_SYNC, 5);
    waits(4, CMWQ_DRAIN, 0);
    open_hub(1, 1, queues, 2, 1);
    for (uint16_t i = 0; i < 5; i++)
        queue_item(i, 0, 0);
    close_hub();
    CHECK(items[0].result == -CMWQ_ITSELF && items[1].result == -CMWQ_ITSELF && items[4].result == -CMWQ_ITSELF);
    CHECK(items[2].result == 1 && items[3].result == 0);
}

/* Item 0 waits for item 1, which is pending: for the only place, which item 0 has, or for the only worker. */
static void held(uint16_t width, unsigned workers, unsigned cpu, int wanted)
{
    struct cmwq_queue queue = {.max_active = width};

    nobody_waits();
    waits(0, CMWQ_FLUSH_ITEM, 1);
    open_hub(2, workers, &queue, 1, 2);
    pthread_mutex_lock(&gate); /* so that item 1 is pending when item 0 looks */
    queue_item(0, 0, 0);
    queue_item(1, 0, cpu);
    pthread_mutex_unlock(&gate);
    close_hub();
    CHECK((items[0].result == wanted || (wanted == 1 && items[0].result == 0)) && items[1].ran == 1);
}

static uint8_t below(uint64_t *state, unsigned n) { return (uint8_t)(next_random(state) % n); }

/* Random waits of random items: all ends. */
static void random_waits(unsigned seed)
{
    static const enum cmwq_kind kinds[] = {CMWQ_CANCEL_SYNC, CMWQ_FLUSH_ITEM, CMWQ_FLUSH_DELAYED, CMWQ_FLUSH,
                                           CMWQ_DRAIN};
    uint64_t state = seed + 1;
    struct cmwq_queue queues[3] = {{.max_active = 1}, {.max_active = 1}, {.max_active = 1}};
    unsigned cpus, workers;

    nobody_waits();
    cpus = 1u + below(&state, 4);
    workers = 1u + below(&state, 8);
    for (int q = 0; q < 3; q++) {
        queues[q].max_active = (uint16_t)(1 + below(&state, 4));
        queues[q].high = below(&state, 2);
    }
    for (uint16_t i = 0; i < MOST; i++)
        if (below(&state, 4)) {
            waits(i, kinds[below(&state, 5)], 0);
            items[i].other = below(&state, items[i].kind == CMWQ_FLUSH || items[i].kind == CMWQ_DRAIN ? 3 : MOST);
        }
    open_hub(cpus, workers, queues, 3, 1u + below(&state, 8));
    for (int round = 0; round < 60; round++) {
        unsigned cpu = below(&state, cpus), queue = below(&state, 3), item = below(&state, MOST);

        if (below(&state, 5))
            cmwq_queue_work_on(&hub, cpu, queue, item);
        else
            cmwq_mod_delayed_work_on(&hub, cpu, queue, item, below(&state, 3));
    }
    close_hub();
}

static unsigned told; /* bits: the first wait was left; the other run waits for the one that left */

static bool is_told(unsigned bit) { return __atomic_load_n(&told, __ATOMIC_ACQUIRE) & bit; }

/* Item 0 blocks until item 1 waits for nothing any more. */
static void block_on(struct cmwq_run *run, void *data)
{
    (void)data;
    CHECK(cmwq_worker_sleeping(run->hub) == 1);
    while (!is_told(2))
        usleep(1000);
    CHECK(cmwq_worker_running(run->hub) == 1);
}

/* Item 1 leaves its wait for item 2, and item 2 waits for item 1 then. */
static void leave(struct cmwq_run *run, void *data)
{
    (void)data;
    for (unsigned k = 0; k < 3; k++) {
        CHECK(cmwq_flush_work(run->hub, 2, 1) == -CMWQ_TIMED_OUT);
        CHECK(cmwq_cancel_work_sync(run->hub, 0, k) == -CMWQ_TIMED_OUT);
        CHECK(cmwq_queue_work_on(run->hub, 0, 0, 3) >= 0); /* the run is awake */
    }
    CHECK(cmwq_worker_sleeping(run->hub) == 1 && cmwq_flush_workqueue(run->hub, 1, 1) == -CMWQ_TIMED_OUT);
    __atomic_or_fetch(&told, 1, __ATOMIC_RELEASE);
    while (!is_told(4))
        usleep(1000);
    usleep(10000);
    CHECK(cmwq_worker_running(run->hub) == 1);
    __atomic_or_fetch(&told, 2, __ATOMIC_RELEASE);
    CHECK(cmwq_flush_work(run->hub, 0, 60000) >= 0);
}

static void wait_for_it(struct cmwq_run *run, void *data)
{
    (void)data;
    CHECK(cmwq_worker_sleeping(run->hub) == 1);
    while (!is_told(1))
        usleep(1000);
    CHECK(cmwq_worker_running(run->hub) == 1);
    __atomic_or_fetch(&told, 4, __ATOMIC_RELEASE);
    CHECK(cmwq_flush_work(run->hub, 1, CMWQ_FOREVER) >= 0);
}

/* A wait of a run with a time limit is left. */
static void time_limits(void)
{
    struct cmwq_queue queues[2] = {{.max_active = 8}, {.max_active = 8}};

    nobody_waits();
    told = 0;
    items[0].run = block_on;
    items[1].run = leave;
    items[2].run = wait_for_it;
    open_hub(1, 4, queues, 2, 4);
    queue_item(0, 1, 0);
    queue_item(2, 0, 0);
    while (cmwq_work_busy(&hub, 0) != 2 || cmwq_work_busy(&hub, 2) != 2)
        usleep(1000);
    queue_item(1, 0, 0);
    CHECK(cmwq_flush_workqueue(&hub, 0, CMWQ_FOREVER) == 1);
    close_hub();
    CHECK(items[3].ran >= 1);
}

int main(int argc, char **argv)
{
    unsigned seeds = argc > 1 ? (unsigned)atoi(argv[1]) : 100;

    alarm(540);
    ring(2, CMWQ_CANCEL_SYNC);
    ring(3, CMWQ_CANCEL_SYNC);
    ring(4, CMWQ_FLUSH_ITEM);
    ring_by_a_queue();
    alone();
    held(1, 4, 0, -CMWQ_DEADLOCK);
    held(2, 1, 0, -CMWQ_DEADLOCK);
    held(2, 2, 0, 1);
    held(1, 1, 1, 1);
    time_limits();
    for (unsigned seed = 0; seed < seeds; seed++)
        random_waits(seed);
    return 0;
}
