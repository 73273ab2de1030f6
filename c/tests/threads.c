/* The threads of a hub start when they are first needed; and threads that call have callers of their own. */
#include "cmwq_hub.h"
#include "check.h"
#include <dirent.h>
#include <unistd.h>

enum { ITEMS = 40, TEXT = 1 << 16 };

static struct cmwq_hub hub;
static struct cmwq_queue queues[3] = {
    {.max_active = 64}, {.max_active = 64, .intensive = 1}, {.max_active = 64, .high = 1, .freezable = 1}};
static struct cmwq_work works[ITEMS];
static pthread_mutex_t lock = PTHREAD_MUTEX_INITIALIZER;
static pthread_cond_t changed = PTHREAD_COND_INITIALIZER;
static unsigned inside, ran;
static bool open_gate;
static char text[TEXT];
static size_t written;

static bool keep(void *data, const char *lines, size_t len)
{
    (void)data;
    CHECK(written + len < TEXT);
    memcpy(text + written, lines, len);
    written += len;
    text[written] = 0;
    return true;
}

/* How many threads this process has. */
static unsigned threads_now(void)
{
    DIR *tasks = opendir("/proc/self/task");
    unsigned count = 0;

    CHECK(tasks);
    for (struct dirent *it; (it = readdir(tasks));) count += it->d_name[0] != '.';
    closedir(tasks);
    return count;
}

/* A thread that was joined may still be seen for a moment. */
static void wait_for_ends(unsigned count)
{
    while (threads_now() != count) usleep(1000);
}

static void *end_at_once(void *none) { return none; }

static void wait_at_gate(struct cmwq_run *run, void *data)
{
    (void)run;
    (void)data;
    pthread_mutex_lock(&lock);
    inside++;
    pthread_cond_broadcast(&changed);
    while (!open_gate) pthread_cond_wait(&changed, &lock);
    inside--;
    ran++;
    pthread_mutex_unlock(&lock);
}

static void wait_inside(unsigned count)
{
    pthread_mutex_lock(&lock);
    while (inside != count) pthread_cond_wait(&changed, &lock);
    pthread_mutex_unlock(&lock);
}

static void set_gate(bool is_open)
{
    pthread_mutex_lock(&lock);
    open_gate = is_open;
    pthread_cond_broadcast(&changed);
    pthread_mutex_unlock(&lock);
}

static void open_hub(unsigned callers)
{
    struct cmwq_options options = {.queues = queues, .queue_count = 3, .works = works, .items = ITEMS, .cpus = 16,
                                   .workers = 8, .waits = 4, .callers = callers, .journal = keep};

    written = 0;
    for (int k = 0; k < ITEMS; k++) works[k] = (struct cmwq_work){wait_at_gate, NULL};
    CHECK(cmwq_hub_open(&hub, &options) == CMWQ_OK);
}

static void judge(void)
{
    uint8_t told[200];
    size_t len;

    CHECK(cmwq_hub_close(&hub) == CMWQ_OK);
    CHECK(cmwq_check((const uint8_t *)text, written, told, sizeof told, &len) == CMWQ_OK);
}

static void test_lazy(void)
{
    unsigned before = threads_now(), others;

    open_hub(0);
    others = before + 2; /* the clock and the journal */
    CHECK(threads_now() == others);
    set_gate(true);
    for (int k = 0; k < 50; k++) { /* one worker does them all, or the next one of its pool */
        CHECK(cmwq_queue_work_on(&hub, 1, 0, 0) == 1 && cmwq_flush_work(&hub, 0, CMWQ_FOREVER) >= 0);
        CHECK(threads_now() <= others + 2);
    }
    set_gate(false);
    for (unsigned k = 1; k <= 8; k++) { /* of a pool whose runs are intensive, as many as there are workers */
        CHECK(cmwq_queue_work_on(&hub, 2, 1, k) == 1);
        wait_inside(k);
        CHECK(threads_now() <= others + 2 + k);
    }
    CHECK(cmwq_queue_work_on(&hub, 2, 1, 9) == 1);
    set_gate(true);
    CHECK(cmwq_flush_workqueue(&hub, 1, CMWQ_FOREVER) == 1);
    CHECK(threads_now() <= others + 2 + 8);
    judge();
    CHECK(ran == 59);
    wait_for_ends(before);
}

/* All pools at once have something to start: all workers are named, and those start that have a run. */
static void test_thaw(bool ends)
{
    unsigned before = threads_now();

    ran = 0;
    open_hub(0);
    set_gate(true);
    CHECK(cmwq_freeze_workqueues(&hub) == 1);
    for (unsigned k = 0; k < ITEMS; k++) CHECK(cmwq_queue_work_on(&hub, k % 16, 2, k) == 1);
    CHECK(threads_now() == before + 2);
    if (!ends) CHECK(cmwq_thaw_workqueues(&hub) == 1 && cmwq_drain_workqueue(&hub, 2, CMWQ_FOREVER) == 1);
    judge(); /* which thaws */
    CHECK(ran == ITEMS);
    wait_for_ends(before);
}

static int callers_of[6];

static void *call(void *at)
{
    unsigned k = *(unsigned *)at;

    CHECK(cmwq_queue_work_on(&hub, 0, 0, k) == 1);
    callers_of[k] = cmwq_hub_caller(&hub);
    CHECK(cmwq_cancel_work_sync(&hub, k + 10, CMWQ_FOREVER) == 0);
    CHECK(cmwq_queue_work_on(&hub, 1, 0, k + 20) == 1 && callers_of[k] == cmwq_hub_caller(&hub));
    wait_inside(5 * 2); /* so that all threads are there at once */
    return NULL;
}

static void test_callers(unsigned callers)
{
    pthread_t threads[6];
    unsigned numbers[6], of_caller[7] = {0};
    char line[40];

    for (int k = 0; k < ITEMS; k++) queues[0].intensive = 1;
    inside = 0;
    open_hub(callers);
    set_gate(false);
    CHECK(cmwq_hub_caller(&hub) == (callers ? 1 : 0));
    for (unsigned k = 1; k < 6; k++) {
        numbers[k] = k;
        CHECK(pthread_create(&threads[k], NULL, call, &numbers[k]) == 0);
    }
    for (unsigned k = 1; k < 6; k++) pthread_join(threads[k], NULL);
    set_gate(true);
    judge();
    for (unsigned k = 1; k < 6; k++) of_caller[callers_of[k]]++;
    if (callers == 6) /* each has its own */
        for (unsigned c = 2; c <= 6; c++) CHECK(of_caller[c] == 1);
    else /* the last is shared; or all share caller 0 */
        CHECK(callers == 3 ? of_caller[2] == 1 && of_caller[3] == 4 : of_caller[0] == 5);
    for (unsigned k = 1; k < 6; k++) {
        snprintf(line, sizeof line, "\nc%d %d queue %u 0 0 = ", callers_of[k], 0, k);
        CHECK(callers != 6 || strstr(text, line));
    }
    queues[0].intensive = 0;
}

int main(void)
{
    struct cmwq_options wrong = {.queues = queues, .queue_count = 3, .items = 1, .waits = 200, .callers = 55};
    pthread_t first; /* a sanitizer may have a thread of its own from then on */

    alarm(540);
    CHECK(pthread_create(&first, NULL, end_at_once, NULL) == 0 && pthread_join(first, NULL) == 0);
    test_lazy();
    test_thaw(false);
    test_thaw(true);
    for (unsigned callers = 0; callers <= 6; callers += 3) test_callers(callers);
    CHECK(cmwq_hub_caller(&hub) == -CMWQ_CLOSED && cmwq_hub_open(&hub, &wrong) == -CMWQ_REFUSED);
    return 0;
}
