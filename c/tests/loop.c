/*
 * A loop in one thread: single cases, and schedules by a seed with a time of its own. In each schedule work functions
 * and callers make random calls, waits are left, and the loop is stopped or closed at any time. Each start is one run,
 * no wait is told early, and the history is legal.
 *
 *     loop [SEEDS [FIRST]]
 */
#include "cmwq_loop.h"
#include "check.h"
#include <poll.h>

enum { ITEMS = 8, QUEUES = 2, CALLERS = 40, TEXT = 1 << 22, MS = 1000000 };

static struct cmwq_loop loop;
static struct cmwq_loop_work works[ITEMS];
static char text[TEXT];
static size_t written;
static uint64_t time_now, seed;

static bool keep(void *data, const char *part, size_t len)
{
    (void)data;
    CHECK(written + len < TEXT);
    memcpy(text + written, part, len);
    written += len;
    text[written] = 0;
    CHECK(cmwq_loop_queue_work_on(&loop, 0, 0, 0) == (loop.open ? -CMWQ_NOT_NOW : -CMWQ_CLOSED));
    return true;
}

static uint64_t now(void *data)
{
    (void)data;
    return time_now;
}

static unsigned below(unsigned most) { return next_random(&seed) % most; }

/* How many entries have this reply. */
static unsigned count(const char *word)
{
    unsigned many = 0;

    for (const char *at = text; (at = strstr(at, word)); at++)
        many++;
    return many;
}

static void judge(void)
{
    uint8_t line[CMWQ_LINE] = {0};
    size_t len;
    uint32_t status = cmwq_check((const uint8_t *)text, written, line, sizeof line - 1, &len);

    if (status != CMWQ_OK)
        fprintf(stderr, "%u %s\n%.4000s\n", status, (const char *)line, text);
    CHECK(status == CMWQ_OK);
}

/* ---- schedules ---- */

struct caller {
    struct cmwq_loop_wait wait;
    bool waits;
    int item;           /* whose run went on when the wait began; -1: none */
    unsigned runs;      /* how many of its runs had ended then */
};
static struct caller callers[CALLERS];
static struct item { bool inside; unsigned calls, ended, left; } items[ITEMS];
static unsigned told, left_waits, left_runs, refused, in_line, goes_on;

static void ended(struct cmwq_loop_wait *wait, int result)
{
    struct caller *caller = (struct caller *)wait->data;

    CHECK(caller->waits && cmwq_loop_leave(&loop, wait) == 0);
    CHECK(cmwq_loop_run(&loop) == -CMWQ_NOT_NOW && cmwq_loop_close(&loop) == -CMWQ_NOT_NOW);
    if (result >= 0 && caller->item >= 0)
        CHECK(items[caller->item].ended > caller->runs); /* it has waited for that run */
    CHECK(result >= 0 || result == -CMWQ_STOPPED || result == -CMWQ_IS_GONE || result == -CMWQ_IS_DRAINING
          || result == -CMWQ_HAS_TIMERS || result == -CMWQ_FULL);
    caller->waits = false;
    told++;
}

/* A call that waits, of the run if there is no caller. */
static int waits(struct caller *caller)
{
    unsigned item = below(ITEMS), queue = below(QUEUES);
    struct cmwq_loop_wait *wait = caller ? &caller->wait : NULL;

    if (caller) {
        /* (a queueing may be taken back later, and what waits for it ends) */
        caller->item = items[item].inside && cmwq_loop_work_busy(&loop, item) == 2 ? (int)item : -1;
        caller->runs = items[item].ended;
    }
    switch (below(caller ? 6 : 4)) {
    case 0:
        return cmwq_loop_flush_work(&loop, item, wait);
    case 1:
        return cmwq_loop_flush_delayed_work(&loop, item, wait);
    case 2:
        return cmwq_loop_cancel_work_sync(&loop, item, wait);
    default:
        break;
    }
    if (caller)
        caller->item = -1;
    return below(4) || !caller ? cmwq_loop_flush_workqueue(&loop, queue, wait)
           : below(8) ? cmwq_loop_drain_workqueue(&loop, queue, wait)
                      : cmwq_loop_destroy_workqueue(&loop, queue, wait);
}

/* A call that doesn't wait. */
static void calls(void)
{
    unsigned item = below(ITEMS), queue = below(QUEUES), cpu = below(loop.shape.cpus);
    int result = below(6) < 3 ? cmwq_loop_queue_work_on(&loop, cpu, queue, item)
                 : below(3) == 0 ? cmwq_loop_queue_delayed_work_on(&loop, cpu, queue, item, 1 + below(5))
                 : below(2) ? cmwq_loop_mod_delayed_work_on(&loop, cpu, queue, item, below(5))
                            : cmwq_loop_cancel_work(&loop, item);

    CHECK(result >= 0 || result == -CMWQ_STOPPED || result == -CMWQ_FULL || result == -CMWQ_IS_FOREIGN
          || result == -CMWQ_IS_DRAINING || result == -CMWQ_IS_GONE);
}

static bool work(struct cmwq_loop_run *run, void *data)
{
    struct item *item = (struct item *)data;
    int result;

    CHECK(item == &items[run->item] && loop.current == run);
    if (run->calls == 0) {
        CHECK(!item->inside && run->state == 0 && run->result == 0);
        item->inside = true;
        item->calls++;
        item->left = below(4);
    } else {
        CHECK(item->inside && run->state == run->number + run->calls);
    }
    run->state = run->number + run->calls + 1;
    if (item->left == 0) {
        item->inside = false;
        item->ended++;
        return true;
    }
    item->left--;
    switch (below(5)) {
    case 0:
        calls();
        return false;
    case 1:
        CHECK(cmwq_loop_resume(&loop, run->item) == 1); /* at once */
        return false;
    case 2:
        return false;
    default:
        result = waits(NULL);
    }
    refused += result == -CMWQ_ITSELF || result == -CMWQ_DEADLOCK;
    goes_on += result == -CMWQ_WAITS;
    if (result == -CMWQ_WAITS && below(3) == 0)
        CHECK(waits(NULL) == -CMWQ_NOT_NOW);
    if (result == -CMWQ_WAITS && below(3) == 0)
        calls(); /* of nobody: the run sleeps */
    if (result == -CMWQ_WAITS && below(6) == 0) {
        item->inside = false; /* it ends after its wait */
        item->ended++;
        return true;
    }
    if (result != -CMWQ_WAITS)
        cmwq_loop_resume(&loop, run->item);
    return false;
}

/* What comes from outside: time, calls, waits that begin or are left, and runs that can go on. */
static void outside(void)
{
    struct caller *caller = &callers[below(CALLERS)];
    unsigned item = below(ITEMS);
    int result;

    switch (below(9)) {
    case 0:
        time_now += below(3 * MS);
        break;
    case 1: case 2:
        calls();
        break;
    case 3: case 4:
        if (caller->waits && below(3) == 0) {
            CHECK(cmwq_loop_leave(&loop, &caller->wait) == 1 && cmwq_loop_leave(&loop, &caller->wait) == 0);
            caller->waits = false;
            left_waits++;
        } else if (caller->waits) {
            CHECK(cmwq_loop_flush_work(&loop, item, &caller->wait) == -CMWQ_NOT_NOW);
        } else {
            caller->waits = true;
            result = waits(caller);
            in_line += caller->wait.before_ != NULL;
            if (result != -CMWQ_WAITS)
                caller->waits = false;
        }
        break;
    case 5:
        result = below(2) ? cmwq_loop_freeze_workqueues(&loop) : cmwq_loop_thaw_workqueues(&loop);
        CHECK(result >= 0 || result == -CMWQ_FULL || result == -CMWQ_STOPPED);
        break;
    case 6:
        result = cmwq_loop_leave_work(&loop, item);
        CHECK(result == 0 || result == 1);
        left_runs += result == 1;
        break;
    default:
        result = cmwq_loop_resume(&loop, item);
        CHECK(result == (cmwq_loop_work_busy(&loop, item) >= 2));
    }
}

static void play(uint64_t of)
{
    struct cmwq_queue queues[QUEUES];
    struct cmwq_loop_options options;
    bool closes;

    seed = of * 0x9e3779b97f4a7c15u | 1;
    for (int k = 0; k < 9; k++)
        next_random(&seed);
    written = 0;
    time_now = 0;
    memset(items, 0, sizeof items);
    memset(callers, 0, sizeof callers);
    memset(&options, 0, sizeof options);
    for (unsigned k = 0; k < QUEUES; k++) {
        queues[k].max_active = (uint16_t)(1 + below(3));
        queues[k].high = (uint8_t)below(2);
        queues[k].intensive = (uint8_t)below(2);
        queues[k].freezable = (uint8_t)below(2);
    }
    for (unsigned k = 0; k < ITEMS; k++)
        works[k] = (struct cmwq_loop_work){work, &items[k]};
    for (unsigned k = 0; k < CALLERS; k++) {
        callers[k].wait.ended = ended;
        callers[k].wait.data = &callers[k];
    }
    options.hub.queues = queues;
    options.hub.queue_count = QUEUES;
    options.hub.items = ITEMS;
    options.hub.cpus = 1 + below(2);
    options.hub.workers = 1 + below(5);
    options.hub.waits = 1 + below(6);
    options.hub.keep = 1 + below(60);
    options.hub.room = below(6) ? 0 : 50 + below(200);
    options.hub.journal = keep;
    options.works = works;
    options.now = now;
    CHECK(cmwq_loop_open(&loop, &options) == CMWQ_OK && cmwq_loop_open(&loop, &options) == -CMWQ_NOT_NOW);
    for (unsigned acts = below(300); acts > 0; acts--) {
        outside();
        if (below(3) == 0)
            CHECK(cmwq_loop_run(&loop) >= 0);
    }
    closes = below(6) == 0;
    if (!closes)
        CHECK(cmwq_loop_stop(&loop) == CMWQ_OK && cmwq_loop_stop(&loop) == CMWQ_OK);
    for (unsigned turns = 0; !closes && !cmwq_loop_is_over(&loop); turns++) {
        CHECK(turns < 10000);
        CHECK(cmwq_loop_run(&loop) >= 0);
        for (unsigned k = 0; k < ITEMS; k++)
            cmwq_loop_resume(&loop, k);
    }
    for (unsigned k = 0; !closes && k < ITEMS; k++)
        CHECK(!items[k].inside && cmwq_loop_work_busy(&loop, k) == 0);
    for (unsigned k = 0; !closes && k < CALLERS; k++)
        CHECK(!callers[k].waits);
    CHECK(cmwq_loop_close(&loop) == CMWQ_OK && cmwq_loop_close(&loop) == -CMWQ_CLOSED);
    for (unsigned k = 0; k < CALLERS; k++)
        CHECK(!callers[k].waits);
    judge();
    unsigned starts = 0;
    for (unsigned k = 0; k < ITEMS; k++)
        starts += items[k].calls;
    CHECK(closes || starts == count(" = finished"));
    CHECK(starts <= count(" = started"));
}

/* ---- single cases ---- */

static struct cmwq_queue queue = {.max_active = 4}, intensive = {.max_active = 4, .intensive = 1};
static int order[16], orders;

static bool steps(struct cmwq_loop_run *run, void *data) /* is called three times */
{
    order[orders++] = *(int *)data + (int)run->calls;
    return run->calls == 2;
}

static bool flushes(struct cmwq_loop_run *run, void *data) /* itself in vain, and then the first item */
{
    if (run->calls == 0) {
        CHECK(cmwq_loop_flush_work(&loop, run->item, NULL) == -CMWQ_ITSELF);
        CHECK(cmwq_loop_run(&loop) == -CMWQ_NOT_NOW && cmwq_loop_close(&loop) == -CMWQ_NOT_NOW);
        return cmwq_loop_flush_work(&loop, 0, NULL) != -CMWQ_WAITS;
    }
    order[orders++] = *(int *)data + run->result;
    return true;
}

static void is_told(struct cmwq_loop_wait *wait, int result)
{
    *(int *)wait->data = result;
}

/* Whether the fd is readable within so many milliseconds. */
static int readable(int most)
{
    struct pollfd fd = {cmwq_loop_fd(&loop), POLLIN, 0};

    return poll(&fd, 1, most);
}

/* Opens a loop of two items. */
static void opens(struct cmwq_queue *of, bool (*first)(struct cmwq_loop_run *, void *), unsigned keeps)
{
    static int numbers[] = {10, 20};
    struct cmwq_loop_work both[] = {{first, &numbers[0]}, {flushes, &numbers[1]}};
    struct cmwq_loop_options options = {.hub = {.queues = of, .queue_count = 1, .items = 2, .waits = 2, .keep = keeps},
                                        .works = both};

    written = 0;
    orders = 0;
    options.hub.journal = keep;
    CHECK(cmwq_loop_open(&loop, &options) == CMWQ_OK);
}

static void turns_of_a_run(void)
{
    struct cmwq_loop_wait wait = {.ended = is_told}, other = wait, last = wait;
    int result = -99, results[2] = {-99, -99};

    wait.data = &result;
    other.data = &results[0];
    last.data = &results[1];
    opens(&queue, steps, 0);
    CHECK(cmwq_loop_flush_work(&loop, 0, &wait) == 0 && cmwq_loop_flush_work(&loop, 0, NULL) == -CMWQ_REFUSED);
    CHECK(cmwq_loop_queue_work_on(&loop, 0, 0, 0) == 1 && cmwq_loop_queue_work_on(&loop, 0, 0, 0) == 0);
    CHECK(cmwq_loop_queue_work_on(&loop, 0, 0, 2) == -CMWQ_REFUSED && cmwq_loop_work_busy(&loop, 0) == 1);
    CHECK(cmwq_loop_queue_work_on(&loop, 0, 0, 1) == 1 && cmwq_loop_resume(&loop, 0) == 0);
    CHECK(cmwq_loop_run(&loop) == 2 && orders == 1 && cmwq_loop_work_busy(&loop, 0) == 2);
    CHECK(cmwq_loop_flush_workqueue(&loop, 0, &wait) == -CMWQ_WAITS);
    CHECK(!strcmp(cmwq_why(-CMWQ_WAITS), "the wait goes on"));
    CHECK(cmwq_loop_flush_work(&loop, 0, &other) == -CMWQ_WAITS);
    CHECK(cmwq_loop_cancel_work_sync(&loop, 1, &last) == -CMWQ_WAITS);
    CHECK(other.before_ && last.before_); /* the run has one caller, and the first wait the other one */
    CHECK(cmwq_loop_run(&loop) == 0 && cmwq_loop_run(&loop) == 0);
    CHECK(cmwq_loop_leave(&loop, &wait) == 1 && cmwq_loop_run(&loop) == 0 && !other.before_ && last.before_);
    CHECK(cmwq_loop_resume(&loop, 0) == 1 && cmwq_loop_resume(&loop, 0) == 1 && cmwq_loop_run(&loop) == 1);
    CHECK(orders == 2 && results[0] == -99);
    CHECK(cmwq_loop_resume(&loop, 0) == 1 && cmwq_loop_run(&loop) > 0);
    CHECK(orders == 4 && order[3] == 21 && results[0] == 1 && results[1] == 0 && result == -99);
    CHECK(cmwq_loop_resume(&loop, 1) == 0 && cmwq_loop_resume(&loop, 7) == -CMWQ_REFUSED);
    CHECK(cmwq_loop_workqueue_set_max_active(&loop, 0, 600) == 512);
    CHECK(cmwq_loop_close(&loop) == CMWQ_OK);
    judge();
    CHECK(count("slept") == 3 && count("woke") == 3);
}

/* A run leaves its wait, and ends then. */
static void a_run_leaves_its_wait(void)
{
    opens(&queue, steps, 0);
    CHECK(cmwq_loop_queue_work_on(&loop, 0, 0, 0) == 1 && cmwq_loop_queue_work_on(&loop, 0, 0, 1) == 1);
    CHECK(cmwq_loop_leave_work(&loop, 1) == 0 && cmwq_loop_leave_work(&loop, 2) == -CMWQ_REFUSED);
    CHECK(cmwq_loop_run(&loop) == 2 && orders == 1 && cmwq_loop_leave_work(&loop, 0) == 0);
    CHECK(cmwq_loop_leave_work(&loop, 1) == 1 && cmwq_loop_leave_work(&loop, 1) == 0);
    CHECK(cmwq_loop_run(&loop) == 1 && orders == 2 && order[1] == 20 - CMWQ_TIMED_OUT);
    CHECK(cmwq_loop_work_busy(&loop, 1) == 0 && cmwq_loop_work_busy(&loop, 0) == 2);
    for (int k = 0; k < 2; k++)
        CHECK(cmwq_loop_resume(&loop, 0) == 1 && cmwq_loop_run(&loop) == 1);
    CHECK(cmwq_loop_close(&loop) == CMWQ_OK);
    judge();
    CHECK(count(" = done") == 1); /* the wait that was left has ended, and nobody was told */
}

static bool once(struct cmwq_loop_run *run, void *data)
{
    (void)data;
    return run->calls == 1;
}

/* The only caller has 64 waits that were left. Once one of them has ended, it is lent again. */
static void too_many_tickets(void)
{
    static struct cmwq_loop_work many[66];
    struct cmwq_loop_options options = {
        .hub = {.queues = &queue, .queue_count = 1, .items = 66, .waits = 1, .journal = keep}, .works = many};
    int result = -99;
    struct cmwq_loop_wait wait = {.ended = is_told, .data = &result};

    for (unsigned k = 0; k < 66; k++)
        many[k].run = once;
    written = 0;
    CHECK(cmwq_loop_open(&loop, &options) == CMWQ_OK);
    for (unsigned k = 0; k < 66; k++)
        CHECK(cmwq_loop_queue_work_on(&loop, 0, 0, k) == 1);
    for (unsigned k = 0; k < 64; k++)
        CHECK(cmwq_loop_flush_work(&loop, k, &wait) == -CMWQ_WAITS && cmwq_loop_leave(&loop, &wait) == 1);
    CHECK(cmwq_loop_flush_work(&loop, 65, &wait) == -CMWQ_WAITS && wait.before_);
    CHECK(cmwq_loop_run(&loop) == 4 && cmwq_loop_run(&loop) == 0 && wait.before_);
    CHECK(cmwq_loop_resume(&loop, 0) == 1 && cmwq_loop_run(&loop) > 0 && !wait.before_ && result == -99);
    CHECK(cmwq_loop_close(&loop) == CMWQ_OK && result == -CMWQ_STOPPED);
    judge();
}

/* Runs of such a queue make no entries where they have not ended. */
static void intensive_runs(void)
{
    opens(&intensive, steps, 0);
    CHECK(cmwq_loop_queue_work_on(&loop, 0, 0, 0) == 1);
    for (int k = 0; k < 3; k++)
        CHECK(cmwq_loop_run(&loop) == 1 && cmwq_loop_resume(&loop, 0) == (k < 2));
    CHECK(cmwq_loop_close(&loop) == CMWQ_OK);
    judge();
    CHECK(count("slept") == 0 && count("finished") == 1);
}

static bool again(struct cmwq_loop_run *run, void *data)
{
    (void)data;
    orders++;
    return cmwq_loop_queue_work_on(run->loop, 0, 0, run->item) == 1;
}

/* The fd is readable while there is something to do, and when a timer is due. */
static void readiness(void)
{
    opens(&queue, steps, 1);
    CHECK(cmwq_loop_run(&loop) == 0 && cmwq_loop_fd(&loop) >= 0 && cmwq_loop_fd(&loop) == cmwq_loop_fd(&loop));
    CHECK(readable(0) == 0 && cmwq_loop_due(&loop) == -1);
    CHECK(cmwq_loop_queue_work_on(&loop, 0, 0, 0) == 1 && readable(0) == 1 && cmwq_loop_due(&loop) == 0);
    CHECK(cmwq_loop_run(&loop) == 1 && readable(0) == 0);
    CHECK(cmwq_loop_resume(&loop, 0) == 1 && readable(0) == 1 && cmwq_loop_run(&loop) == 1 && readable(0) == 0);
    CHECK(cmwq_loop_resume(&loop, 0) == 1 && cmwq_loop_run(&loop) == 1 && readable(0) == 0);
    CHECK(cmwq_loop_queue_delayed_work_on(&loop, 0, 0, 0, 3600000) == 1 && readable(0) == 0);
    CHECK(cmwq_loop_due(&loop) > 3000000 && cmwq_loop_mod_delayed_work_on(&loop, 0, 0, 0, 3) == 1);
    CHECK(readable(-1) == 1 && cmwq_loop_due(&loop) == 0 && cmwq_loop_run(&loop) == 1 && readable(0) == 0);
    CHECK(cmwq_loop_queue_delayed_work_on(&loop, 0, 0, 1, 3600000) == 1 && cmwq_loop_stop(&loop) == CMWQ_OK);
    CHECK(cmwq_loop_work_busy(&loop, 1) == 0 && cmwq_loop_queue_work_on(&loop, 0, 0, 1) == -CMWQ_STOPPED);
    CHECK(!cmwq_loop_is_over(&loop) && cmwq_loop_close(&loop) == CMWQ_OK && cmwq_loop_is_over(&loop));
    judge();
    CHECK(cmwq_loop_fd(&loop) == -CMWQ_CLOSED && cmwq_loop_due(&loop) == -1 && cmwq_loop_run(&loop) == -CMWQ_CLOSED);
    CHECK(cmwq_loop_work_busy(&loop, 0) == -CMWQ_CLOSED && cmwq_loop_resume(&loop, 0) == -CMWQ_CLOSED);
    opens(&queue, again, 0); /* what always has something to do lets the others go on */
    CHECK(cmwq_loop_fd(&loop) >= 0 && cmwq_loop_queue_work_on(&loop, 0, 0, 0) == 1);
    for (int k = 1; k < 4; k++)
        CHECK(cmwq_loop_run(&loop) == CMWQ_BATCH && orders == k * CMWQ_BATCH && readable(0) == 1);
    CHECK(cmwq_loop_close(&loop) == CMWQ_OK);
    judge();
}

static bool resumes(struct cmwq_loop_run *run, void *data) /* itself, and flushes the other item in its last call */
{
    (void)data;
    if (run->calls < 2)
        return cmwq_loop_resume(run->loop, run->item) != 1;
    CHECK(cmwq_loop_queue_work_on(run->loop, 0, 0, 1) == 1);
    return cmwq_loop_flush_work(run->loop, 1, NULL) == -CMWQ_WAITS;
}

static bool three(struct cmwq_loop_run *run, void *data)
{
    (void)data;
    return run->calls == 2;
}

/* A run may be resumed in its own call, and ends after its wait if it goes on. */
static void the_end_of_a_run(void)
{
    struct cmwq_loop_work both[] = {{resumes, NULL}, {three, NULL}};
    struct cmwq_loop_options options = {.hub = {.queues = &queue, .queue_count = 1, .items = 2}, .works = both};

    CHECK(cmwq_loop_open(&loop, &options) == CMWQ_OK && cmwq_loop_queue_work_on(&loop, 0, 0, 0) == 1);
    CHECK(cmwq_loop_run(&loop) == 4 && cmwq_loop_work_busy(&loop, 0) == 2 && cmwq_loop_work_busy(&loop, 1) == 2);
    CHECK(cmwq_loop_resume(&loop, 1) == 1 && cmwq_loop_run(&loop) == 1 && cmwq_loop_work_busy(&loop, 0) == 2);
    CHECK(cmwq_loop_resume(&loop, 0) == 1 && cmwq_loop_run(&loop) == 0); /* it waits */
    CHECK(cmwq_loop_resume(&loop, 1) == 1 && cmwq_loop_run(&loop) == 1 && cmwq_loop_work_busy(&loop, 0) == 0);
    CHECK(cmwq_loop_stop(&loop) == CMWQ_OK && cmwq_loop_run(&loop) == 0 && cmwq_loop_is_over(&loop));
    CHECK(cmwq_loop_close(&loop) == CMWQ_OK);
}

/* A drain holds timers back, also one that was left. */
static void timers_after_a_drain(void)
{
    static int number = 10;
    struct cmwq_loop_work both[] = {{steps, &number}, {steps, &number}};
    struct cmwq_loop_options options = {.hub = {.queues = &queue, .queue_count = 1, .items = 2}, .works = both};
    struct cmwq_loop_wait wait = {.ended = is_told};

    options.now = now;
    time_now = 0;
    orders = 0;
    CHECK(cmwq_loop_open(&loop, &options) == CMWQ_OK && cmwq_loop_queue_work_on(&loop, 0, 0, 0) == 1);
    CHECK(cmwq_loop_run(&loop) == 1 && cmwq_loop_queue_delayed_work_on(&loop, 0, 0, 1, 50) == 1);
    CHECK(cmwq_loop_due(&loop) == 50 && cmwq_loop_drain_workqueue(&loop, 0, &wait) == -CMWQ_WAITS);
    CHECK(cmwq_loop_run(&loop) == 0 && cmwq_loop_leave(&loop, &wait) == 1 && cmwq_loop_leave(&loop, &wait) == 0);
    time_now = 20 * MS;
    CHECK(cmwq_loop_queue_delayed_work_on(&loop, 0, 0, 0, 5) == -CMWQ_IS_DRAINING && cmwq_loop_due(&loop) == -1);
    for (int k = 0; k < 2; k++)
        CHECK(cmwq_loop_resume(&loop, 0) == 1 && cmwq_loop_run(&loop) == 1);
    CHECK(cmwq_loop_due(&loop) == 30 && cmwq_loop_run(&loop) == 0 && cmwq_loop_work_busy(&loop, 1) == 1);
    time_now = 60 * MS;
    CHECK(cmwq_loop_due(&loop) == 0 && cmwq_loop_run(&loop) == 1 && cmwq_loop_work_busy(&loop, 1) == 2);
    CHECK(cmwq_loop_close(&loop) == CMWQ_OK);
}

static bool refuses(void *data, const char *part, size_t len)
{
    (void)part;
    (void)len;
    return ++*(int *)data < 3;
}

static void what_is_refused(void)
{
    struct cmwq_loop_options options = {.hub = {.queues = &queue, .queue_count = 1, .items = 2, .waits = 255}};
    struct cmwq_loop_wait wait = {.ended = is_told};
    int told_it = 0, result = -99;

    CHECK(cmwq_loop_open(&loop, &options) == -CMWQ_REFUSED);
    options.hub.waits = 1;
    options.hub.queue_count = 0;
    CHECK(cmwq_loop_open(&loop, &options) == -CMWQ_REFUSED);
    options.hub.queue_count = 1;
    options.hub.durable = "journal";
    CHECK(cmwq_loop_open(&loop, &options) == -CMWQ_REFUSED);
    options.hub.durable = NULL;
    options.hub.journal = refuses;
    options.hub.journal_data = &told_it;
    options.now = now;
    CHECK(cmwq_loop_open(&loop, &options) == CMWQ_OK && cmwq_loop_fd(&loop) == -CMWQ_REFUSED);
    CHECK(cmwq_loop_queue_work_on(&loop, 0, 0, 0) == 1); /* it does nothing */
    CHECK(cmwq_loop_run(&loop) == 1 && cmwq_loop_queue_work_on(&loop, 0, 0, 1) == 1);
    wait.data = &result;
    CHECK(cmwq_loop_flush_work(&loop, 1, &wait) == -CMWQ_WAITS && cmwq_loop_run(&loop) == 2 && result == 1);
    CHECK(cmwq_loop_freeze_workqueues(&loop) == 1 && cmwq_loop_thaw_workqueues(&loop) == 1);
    CHECK(cmwq_loop_cancel_work(&loop, 0) == 0 && cmwq_loop_destroy_workqueue(&loop, 0, &wait) == -CMWQ_WAITS);
    CHECK(cmwq_loop_run(&loop) == 1 && result == 1 && cmwq_loop_queue_work_on(&loop, 0, 0, 1) == -CMWQ_IS_GONE);
    CHECK(cmwq_loop_close(&loop) == -CMWQ_NO_JOURNAL && told_it == 3);
}

int main(int many, char **words)
{
    unsigned seeds = many > 1 ? (unsigned)atoi(words[1]) : 2000, first = many > 2 ? (unsigned)atoi(words[2]) : 0;

    turns_of_a_run();
    a_run_leaves_its_wait();
    too_many_tickets();
    intensive_runs();
    readiness();
    the_end_of_a_run();
    timers_after_a_drain();
    what_is_refused();
    for (unsigned of = first; of < first + seeds; of++)
        play(of);
    CHECK(seeds < 200 || (told && left_waits && left_runs && refused && in_line && goes_on));
    printf("%u schedules, %u waits told, %u left, %u refused, %u in line, %u of runs\n", seeds, told, left_waits,
           refused, in_line, goes_on);
    return 0;
}
