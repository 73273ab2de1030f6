/*
 * A durable hub whose program is killed again and again, also while it resumes: lives [KILLS]. Each call that was
 * acknowledged is followed by a run of its item, in that life or in a later one. Then a work function that makes the
 * program crash each time is left out by the user.
 */
#include "cmwq_hub.h"
#include "holds.h"
#include <poll.h>
#include <signal.h>
#include <sys/wait.h>

enum { ITEMS = 32, CALLERS = 4, CRASH = 31, BEGINS = 'b', ACKNOWLEDGED = 'a', RUNS = 'r', RESUMED = 's' };

static struct cmwq_hub hub;
static char folder[256], journal[300];
static int tells;

struct event { char what; unsigned char item, caller, no; };

static void tell(char what, unsigned item, unsigned caller)
{
    struct event event = {what, (unsigned char)item, (unsigned char)caller, 0};

    if (write(tells, &event, sizeof event) != sizeof event) _exit(3);
}

static void work(struct cmwq_run *run, void *data)
{
    struct timespec some = {0, run->item % 4 * 100000};

    (void)data;
    tell(RUNS, run->item, 0);
    nanosleep(&some, NULL);
}

static void crash(struct cmwq_run *run, void *data)
{
    (void)data;
    _exit(cmwq_hub_sync(run->hub) == CMWQ_OK ? 9 : 8); /* so it is known that it was queued */
}

static bool again(void *data, unsigned item)
{
    (void)data;
    return item != CRASH;
}

static struct cmwq_options usual(void)
{
    static const struct cmwq_queue queues[] = {{.max_active = 1}, {.max_active = 2, .intensive = 1}, {.max_active = 3}};
    static struct cmwq_work works[ITEMS];
    struct cmwq_options options = {.items = ITEMS, .works = works, .queues = queues, .queue_count = 3, .cpus = 2};

    for (int k = 0; k < ITEMS; k++) works[k].run = k == CRASH ? crash : work;
    options.workers = 2;
    options.durable = journal;
    options.each = true;
    return options;
}

static void *calls(void *at)
{
    unsigned me = *(unsigned *)at, seed = me * 77 + (unsigned)getpid();

    for (;;) {
        unsigned item = (unsigned)rand_r(&seed) % CRASH;
        int result;

        tell(BEGINS, item, me);
        if (rand_r(&seed) % 2) result = cmwq_mod_delayed_work_on(&hub, item % 2, item % 3, item, rand_r(&seed) % 30u);
        else result = cmwq_queue_work_on(&hub, item % 2, item % 3, item);
        if (result >= 0) tell(ACKNOWLEDGED, item, me);
    }
    return NULL;
}

/* A life that is killed. */
static void live(enum cmwq_sync sync)
{
    struct cmwq_options options = usual();
    unsigned names[CALLERS];
    pthread_t threads[CALLERS];
    int result;

    options.sync = sync;
    result = cmwq_hub_open(&hub, &options);
    if (result < 0) {
        fprintf(stderr, "open: %s, line %llu\n", cmwq_why(result), (unsigned long long)hub.line);
        _exit(4);
    }
    tell(RESUMED, 0, 0);
    for (unsigned k = 0; k < CALLERS; k++) {
        names[k] = k;
        if (pthread_create(&threads[k], NULL, calls, &names[k])) _exit(5);
    }
    for (;;) pause();
}

/* A last one, until nothing is left to do. */
static void live_on(void)
{
    struct cmwq_options options = usual();
    struct timespec some = {0, 2000000};

    if (cmwq_hub_open(&hub, &options) != CMWQ_OK) _exit(4);
    for (unsigned k = 0; k < ITEMS;)
        if (cmwq_work_busy(&hub, k) == 0) k++;
        else nanosleep(&some, NULL);
    _exit(cmwq_hub_close(&hub) == CMWQ_OK ? 0 : 6);
}

/* One that crashes in a run, at once or of what it resumes; or not, where that run is left out. */
static void live_and_crash(bool queues, bool leaves_out)
{
    struct cmwq_options options = usual();

    if (leaves_out) options.again = again;
    if (cmwq_hub_open(&hub, &options) != CMWQ_OK) _exit(4);
    if (queues) cmwq_queue_work_on(&hub, 0, 0, CRASH);
    if (!leaves_out) for (;;) pause();
    if (cmwq_work_busy(&hub, CRASH) != 0 || cmwq_queue_work_on(&hub, 0, 0, 1) != 1) _exit(5);
    _exit(cmwq_hub_close(&hub) == CMWQ_OK ? 0 : 6);
}

static uint64_t events, begun[CALLERS], wanted[ITEMS], run_at[ITEMS], acknowledged, resumed;

static void take(const struct event *event)
{
    events++;
    if (event->what == BEGINS) begun[event->caller] = events;
    if (event->what == RUNS) run_at[event->item] = events;
    if (event->what == RESUMED) resumed++;
    if (event->what == ACKNOWLEDGED) {
        acknowledged++;
        if (wanted[event->item] < begun[event->caller]) wanted[event->item] = begun[event->caller];
    }
}

static uint64_t now(void)
{
    struct timespec it;

    clock_gettime(CLOCK_MONOTONIC, &it);
    return (uint64_t)it.tv_sec * 1000000 + (uint64_t)it.tv_nsec / 1000;
}

/* Lets a child live so long, in microseconds, from its beginning on or once it has resumed; 0: until it ends by itself.
   Return: how it ended */
static int watch(pid_t child, int from, unsigned micros, bool is_resumed)
{
    uint64_t before = resumed, end = now() + micros;
    struct event some[64];
    int status;
    ssize_t many;

    for (bool lives = true;;) {
        struct pollfd poll_it = {from, POLLIN, 0};

        if (is_resumed && resumed > before) end = now() + micros, is_resumed = false;
        if (lives && micros && !is_resumed && now() >= end) {
            kill(child, SIGKILL);
            lives = false;
        }
        if (lives && micros && poll(&poll_it, 1, micros < 5000 ? 0 : 1) == 0) continue;
        many = read(from, some, sizeof some);
        if (many <= 0) break;
        CHECK(many % (ssize_t)sizeof *some == 0);
        for (ssize_t k = 0; k < many / (ssize_t)sizeof *some; k++) take(&some[k]);
    }
    close(from);
    CHECK(waitpid(child, &status, 0) == child);
    return status;
}

static pid_t begin(int *from)
{
    int ends[2];
    pid_t child;

    CHECK(pipe(ends) == 0);
    child = fork();
    CHECK(child >= 0);
    if (child == 0) {
        close(ends[0]);
        tells = ends[1];
    } else {
        close(ends[1]);
        *from = ends[0];
    }
    return child;
}

int main(int argc, char **argv)
{
    unsigned kills = argc > 1 ? (unsigned)atoi(argv[1]) : 40, seed = 1;
    const char *place = getenv("TMPDIR");
    int from = -1, status;
    pid_t child;

    alarm(kills > 100 ? 3000 : 540);
    snprintf(folder, sizeof folder, "%s/cmwq_lives.XXXXXX", place ? place : "/tmp");
    CHECK(mkdtemp(folder));
    snprintf(journal, sizeof journal, "%s/journal", folder);
    for (unsigned k = 0; k < kills; k++) {
        unsigned micros = 1 + (unsigned)rand_r(&seed) % (k % 3 ? 40000 : 4000); /* a third of them while it resumes */

        child = begin(&from);
        if (child == 0) live(k % 4 ? CMWQ_SYNC_WRITE : CMWQ_SYNC_DATA);
        status = watch(child, from, micros, k % 3);
        CHECK(WIFSIGNALED(status) && WTERMSIG(status) == SIGKILL);
    }
    child = begin(&from);
    if (child == 0) live_on();
    CHECK(watch(child, from, 0, false) == 0);
    for (unsigned k = 0; k < ITEMS; k++) CHECK(run_at[k] >= wanted[k]);
    CHECK(kills < 40 || acknowledged > 0);
    for (int k = 0; k < 4; k++) {
        child = begin(&from);
        if (child == 0) live_and_crash(k == 0, k == 3);
        status = watch(child, from, 0, false);
        CHECK(WIFEXITED(status) && WEXITSTATUS(status) == (k < 3 ? 9 : 0));
    }
    unlink(journal);
    snprintf(journal, sizeof journal, "%s/journal.lock", folder);
    unlink(journal);
    snprintf(journal, sizeof journal, "%s/journal.new", folder);
    unlink(journal);
    CHECK(rmdir(folder) == 0);
    printf("%u kills, %llu of them while it resumed, %llu calls acknowledged, none lost\n", kills,
           (unsigned long long)(kills - resumed), (unsigned long long)acknowledged);
    return 0;
}
