/*
 * The loads of bench/pools on cmwq_hub.h: jobs LOAD ROUNDS WORKERS ITEMS [journal|intensive|batches|entries
 * [MICROSECONDS]]
 * Prints how many runs there were in a second of the clock, or with `entries` how many entries there were in all. Each
 * of four callers has ITEMS items, and each run works for so many microseconds (none: 0).
 */
#include "cmwq_hub.h"

enum { CALLERS = 4 };

static struct cmwq_hub hub;
static unsigned long runs, rounds;
static unsigned each, *numbers; /* numbers[k] is k */
static bool fanout, itself, batches;
static double busy;

static double now(void)
{
    struct timespec at;

    clock_gettime(CLOCK_MONOTONIC, &at);
    return (double)at.tv_sec + (double)at.tv_nsec * 1e-9;
}

/* Queues so many items from this one on. */
static void queue(unsigned on, unsigned first, unsigned many)
{
    if (batches)
        cmwq_queue_all(&hub, 0, on, numbers + first, many, NULL);
    else
        for (unsigned k = 0; k < many; k++)
            cmwq_queue_work_on(&hub, 0, on, first + k);
}

static void work(struct cmwq_run *run, void *data)
{
    unsigned long before = __atomic_fetch_add(&runs, 1, __ATOMIC_RELAXED);

    (void)data;
    if (busy > 0)
        for (double end = now() + busy; now() < end;)
            ;
    if (itself) {
        if (before + 1 < rounds)
            cmwq_queue_work_on(&hub, 0, 0, run->item);
    } else if (fanout && run->item % each == 0) {
        queue(run->item / each, run->item + 1, each - 1);
    }
}

static void *call(void *at)
{
    unsigned me = *(unsigned *)at;

    for (unsigned long round = 0; round < rounds; round++) {
        queue(me, me * each, fanout ? 1 : each);
        if ((fanout ? cmwq_drain_workqueue(&hub, me, CMWQ_FOREVER) : cmwq_flush_workqueue(&hub, me, CMWQ_FOREVER)) < 0)
            exit(1);
    }
    return NULL;
}

/* Counts the entries of a history's text: each has one sign of equality. */
static bool count(void *data, const char *text, size_t len)
{
    for (size_t k = 0; k < len; k++)
        *(unsigned long *)data += text[k] == '=';
    return true;
}

static bool forget(void *data, const char *text, size_t len)
{
    return fwrite(text, 1, len, (FILE *)data) == len;
}

int main(int argc, char **argv)
{
    struct cmwq_queue queues[CALLERS];
    struct cmwq_options options = {.queues = queues, .queue_count = CALLERS, .waits = CALLERS};
    pthread_t threads[CALLERS];
    unsigned names[CALLERS];
    unsigned long entries = 0;
    double begun;

    if (argc < 4)
        return 2;
    itself = !strcmp(argv[1], "self");
    fanout = !strcmp(argv[1], "fanout");
    rounds = strtoul(argv[2], NULL, 10);
    options.workers = (unsigned)atoi(argv[3]);
    each = argc > 4 ? (unsigned)atoi(argv[4]) : 64;
    busy = argc > 6 ? atof(argv[6]) * 1e-6 : 0;
    options.items = CALLERS * each;
    for (unsigned k = 0; k < CALLERS; k++)
        queues[k] = (struct cmwq_queue){.max_active = 512, .intensive = argc > 5 && !strcmp(argv[5], "intensive")};
    if (argc > 5 && !strcmp(argv[5], "journal")) {
        options.journal = forget;
        options.journal_data = fopen("/dev/null", "w");
    } else if (argc > 5 && !strcmp(argv[5], "entries")) {
        options.journal = count;
        options.journal_data = &entries;
    }
    batches = argc > 5 && !strcmp(argv[5], "batches");
    struct cmwq_work *works = calloc(options.items, sizeof *works);
    numbers = calloc(options.items, sizeof *numbers);
    for (unsigned k = 0; k < options.items; k++) {
        works[k].run = work;
        numbers[k] = k;
    }
    options.works = works;
    if (cmwq_hub_open(&hub, &options) < 0)
        return 1;
    begun = now();
    if (itself) {
        cmwq_queue_work_on(&hub, 0, 0, options.items - 1);
        cmwq_drain_workqueue(&hub, 0, CMWQ_FOREVER);
    } else {
        for (unsigned k = 0; k < CALLERS; k++) {
            names[k] = k;
            pthread_create(&threads[k], NULL, call, &names[k]);
        }
        for (unsigned k = 0; k < CALLERS; k++)
            pthread_join(threads[k], NULL);
    }
    if (options.journal != count)
        printf("%.0f\n", (double)runs / (now() - begun));
    free(works);
    free(numbers);
    if (cmwq_hub_close(&hub) < 0)
        return 1;
    if (options.journal == count)
        printf("%lu\n", entries);
    return 0;
}
