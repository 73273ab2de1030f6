/*
 * Forks: in a child each hub is closed, says so, and frees nothing that it may not. A child that is forked while other
 * threads make calls finds no lock held. The parent's hubs go on, and their histories are legal.
 */
#define _GNU_SOURCE
#include "cmwq_hub.h"
#include "check.h"
#include <signal.h>
#include <sys/wait.h>
#include <unistd.h>

/* ThreadSanitizer lets no child of a process with threads start a thread. */
#if defined __SANITIZE_THREAD__
#define MAY_OPEN 0
#elif defined __has_feature
#if __has_feature(thread_sanitizer)
#define MAY_OPEN 0
#endif
#endif
#ifndef MAY_OPEN
#define MAY_OPEN 1
#endif

enum { ITEMS = 4, TEXT = 1 << 22, CALLERS = 3, FORKS = 60, FINE = 7 };

static struct cmwq_hub hub, other;
static struct cmwq_queue queues[1] = {{.max_active = 4}};
static struct cmwq_work works[ITEMS];
static char text[TEXT];
static size_t written;
static unsigned ran;
static bool ended;
static pid_t child;
static bool torn;               /* of a child: a thread was about to change a hub, of which nothing is given up then */
static const char *fork_at;     /* the journal forks when it gets a text that begins so */

/* Waits for the child, which must have ended by itself, with this status. */
static void join_child(int status)
{
    int how;

    CHECK(child > 0 && waitpid(child, &how, 0) == child);
    if (!WIFEXITED(how) || WEXITSTATUS(how) != status)
        fprintf(stderr, "the child ended with status %x\n", (unsigned)how);
    CHECK(WIFEXITED(how) && WEXITSTATUS(how) == status);
}

/* What every call returns in a child. */
static void try_closed(struct cmwq_hub *of)
{
    CHECK(cmwq_queue_work_on(of, 0, 0, 0) == -CMWQ_CLOSED);
    CHECK(cmwq_queue_delayed_work_on(of, 0, 0, 1, 5) == -CMWQ_CLOSED);
    CHECK(cmwq_flush_work(of, 0, CMWQ_FOREVER) == -CMWQ_CLOSED && cmwq_drain_workqueue(of, 0, 10) == -CMWQ_CLOSED);
    CHECK(cmwq_work_busy(of, 0) == -CMWQ_CLOSED && cmwq_worker_sleeping(of) == -CMWQ_CLOSED);
    CHECK(cmwq_hub_close(of) == -CMWQ_CLOSED && cmwq_hub_close(of) == -CMWQ_CLOSED);
    CHECK(cmwq_queue_work_on(of, 0, 0, 0) == -CMWQ_CLOSED);
}

/* Forks. A child that hangs is ended. Return: whether this is the child */
static bool fork_here(void)
{
    pid_t made = fork();

    CHECK(made >= 0);
    if (made == 0) {
        alarm(60);
        torn = hub.torn || other.torn;
    } else {
        child = made;
    }
    return made == 0;
}

/* Ends a child in which all went well. Leaks are looked for at an exit, and a torn hub leaves some. */
static void end_child(void)
{
    if (torn) _exit(FINE);
    exit(FINE);
}

static bool keep(void *data, const char *part, size_t len)
{
    const char *now = __atomic_load_n(&fork_at, __ATOMIC_ACQUIRE);

    CHECK(written + len <= TEXT && (!data || data == &other));
    memcpy(text + written, part, len);
    written += len;
    if (!now || strncmp(part, now, strlen(now)))
        return true;
    __atomic_store_n(&fork_at, NULL, __ATOMIC_RELEASE);
    if (fork_here()) {
        CHECK(cmwq_hub_open(&hub, &(struct cmwq_options){.items = 0}) == -CMWQ_REFUSED);
        try_closed(&hub);
    }
    return true;
}

static void count(struct cmwq_run *run, void *data)
{
    (void)run;
    (void)data;
    __atomic_add_fetch(&ran, 1, __ATOMIC_RELAXED);
}

static struct cmwq_options made(void (*work)(struct cmwq_run *run, void *data))
{
    struct cmwq_options options = {
        .queues = queues, .queue_count = 1, .works = works, .items = ITEMS, .workers = 2, .journal = keep,
    };

    for (int k = 0; k < ITEMS; k++)
        works[k] = (struct cmwq_work){work, NULL};
    written = 0;
    ran = 0;
    return options;
}

static void open_hub(struct cmwq_options options) { CHECK(cmwq_hub_open(&hub, &options) == CMWQ_OK); }

static void close_hub(void)
{
    uint8_t line[CMWQ_LINE];
    size_t len = 0;

    CHECK(cmwq_hub_close(&hub) == CMWQ_OK);
    if (cmwq_check((const uint8_t *)text, written, line, sizeof line, &len) != CMWQ_OK)
        fprintf(stderr, "%.*s%.*s", (int)written, text, (int)len, (char *)line);
    CHECK(cmwq_check((const uint8_t *)text, written, line, sizeof line, &len) == CMWQ_OK);
}

/* A child of a hub that is at rest: all calls say that it is closed, and it may be opened again. */
static void test_rest(void)
{
    struct cmwq_options options = made(count), quiet = options;

    quiet.journal = NULL;
    CHECK(cmwq_hub_open(&other, &quiet) == CMWQ_OK);
    for (int round = 0; round < 3; round++) {
        written = 0;
        open_hub(options);
        CHECK(cmwq_queue_work_on(&hub, 0, 0, 0) == 1 && cmwq_flush_work(&hub, 0, CMWQ_FOREVER) >= 0);
        CHECK(cmwq_queue_delayed_work_on(&hub, 0, 0, 1, 1000000) == 1);
        if (fork_here()) {
            if (round != 1)
                try_closed(&hub);
            if (MAY_OPEN) {
                written = ran = 0;
                open_hub(options);
                CHECK(cmwq_queue_work_on(&hub, 0, 0, 0) == 1);
                CHECK(cmwq_flush_work(&hub, 0, CMWQ_FOREVER) >= 0 && ran == 1);
                close_hub();
            }
            if (round != 2)
                try_closed(&other);
            end_child();
        }
        join_child(FINE);
        CHECK(cmwq_work_busy(&hub, 1) == 1 && cmwq_queue_work_on(&hub, 0, 0, 0) == 1);
        CHECK(cmwq_flush_work(&hub, 0, CMWQ_FOREVER) >= 0);
        close_hub();
        CHECK(cmwq_queue_work_on(&other, 0, 0, 0) == 1 && cmwq_flush_work(&other, 0, CMWQ_FOREVER) >= 0);
    }
    CHECK(cmwq_hub_close(&other) == CMWQ_OK);
    /* none is open */
    if (fork_here()) {
        try_closed(&hub);
        end_child();
    }
    join_child(FINE);
}

static void *call(void *at)
{
    unsigned item = *(unsigned *)at;

    while (!__atomic_load_n(&ended, __ATOMIC_ACQUIRE)) {
        CHECK(cmwq_queue_work_on(&hub, 0, 0, item) >= 0 && cmwq_flush_work(&hub, item, CMWQ_FOREVER) >= 0);
        CHECK(cmwq_mod_delayed_work_on(&hub, 0, 0, item, 1) >= 0);
        CHECK(cmwq_cancel_work_sync(&hub, item, CMWQ_FOREVER) >= 0);
    }
    return NULL;
}

/* Children of a hub that is called from all sides. */
static void test_busy(void)
{
    struct cmwq_options options = made(count);
    pthread_t threads[CALLERS];
    unsigned names[CALLERS];

    options.journal = NULL;
    open_hub(options);
    for (unsigned k = 0; k < CALLERS; k++) {
        names[k] = k;
        CHECK(pthread_create(&threads[k], NULL, call, &names[k]) == 0);
    }
    for (int round = 0; round < FORKS; round++) {
        if (fork_here()) {
            try_closed(&hub);
            _exit(FINE);
        }
        join_child(FINE);
    }
    __atomic_store_n(&ended, true, __ATOMIC_RELEASE);
    for (unsigned k = 0; k < CALLERS; k++)
        pthread_join(threads[k], NULL);
    CHECK(cmwq_hub_close(&hub) == CMWQ_OK);
}

static void fork_in_run(struct cmwq_run *run, void *data)
{
    if (fork_here()) {
        if (run->item == 0)
            try_closed(run->hub);
        return; /* then the child ends: its only thread does */
    }
    count(run, data);
}

/* Children that are forked in a work function, and in the journal: at its head, at an entry, and at its end. */
static void test_inside(void)
{
    static const char *const texts[] = {"history", "c0", "end"};
    struct cmwq_options options = made(fork_in_run);

    open_hub(options);
    for (unsigned item = 0; item < 2; item++) {
        CHECK(cmwq_queue_work_on(&hub, 0, 0, item) == 1);
        CHECK(cmwq_flush_work(&hub, item, CMWQ_FOREVER) >= 0 && ran == item + 1);
        join_child(0);
    }
    close_hub();
    options = made(count);
    for (unsigned k = 0; k < 3; k++) {
        int result;

        written = 0;
        child = 0;
        fork_at = texts[k];
        result = cmwq_hub_open(&hub, &options);
        if (k == 0 && child == 0) {
            CHECK(result == -CMWQ_CLOSED);
            end_child();
        }
        CHECK(result == CMWQ_OK);
        CHECK(cmwq_queue_work_on(&hub, 0, 0, 0) == 1 && cmwq_flush_work(&hub, 0, CMWQ_FOREVER) >= 0);
        result = cmwq_hub_close(&hub);
        if (k == 2 && child == 0) {
            CHECK(result == -CMWQ_CLOSED);
            end_child();
        }
        CHECK(result == CMWQ_OK);
        join_child(k == 1 ? 0 : FINE);
    }
}

int main(void)
{
    alarm(540);
    test_rest();
    test_busy();
    test_inside();
    return 0;
}
