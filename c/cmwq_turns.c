/* The turns of cmwq_turns.h: a baton that goes from thread to thread, by a seed, in virtual time. A name in parentheses
   is the function, not the macro of that header. */
#include "cmwq_turns.h"
#include <errno.h>
#include <stdbool.h>
#include <stdint.h>
#include <stdio.h>
#include <stdlib.h>
#include <string.h>

enum state { READY, LOCKED, WAITS, SLEEPS, JOINS, POSTED, BARRED, ONCE, DONE };
enum { MOST = 1024, STEP_NS = 100, MOST_SECONDS = 4000 };
#define FOREVER UINT64_MAX

/* @on: the lock, condition or thread for which it waits; @name: of that, or NULL; @until: the time at which it goes on
   all the same, and is late then */
struct thread {
    enum state state; void *on; const char *name; uint64_t until; bool late; uint64_t priority; pthread_cond_t turn;
    pthread_t real; void *(*body)(void *); void *data;
};

static pthread_mutex_t baton = PTHREAD_MUTEX_INITIALIZER;
static struct thread threads[MOST];
static unsigned count, has_turn;
static uint64_t now_ns = 1000000000, random_state, seed;
static _Thread_local unsigned me;

static uint64_t next_random(void)
{
    random_state ^= random_state << 13;
    random_state ^= random_state >> 7;
    random_state ^= random_state << 17;
    return random_state >> 20;
}

/* Takes the baton's lock, and begins at the first call. */
static void enter(void)
{
    (pthread_mutex_lock)(&baton);
    if (count) return;
    seed = getenv("CMWQ_TURNS_SEED") ? strtoull(getenv("CMWQ_TURNS_SEED"), NULL, 10) : 0;
    random_state = UINT64_C(88172645463325252) ^ (seed + 1) * UINT64_C(0x9E3779B97F4A7C15);
    for (int k = 0; k < 8; k++) next_random();
    (pthread_cond_init)(&threads[0].turn, NULL);
    threads[0].real = pthread_self();
    threads[0].priority = next_random();
    count = 1;
}
static int leave(int result)
{
    (pthread_mutex_unlock)(&baton);
    return result;
}

static void stop(void)
{
    static const char *const why[] = {"goes on", "waits for a lock", "waits for the condition", "sleeps",
        "joins another", "waits for the semaphore", "waits at the barrier", "waits for pthread_once()", "has ended"};

    fprintf(stderr, "cmwq_turns: seed %llu: nobody can go on at %.6f s\n", (unsigned long long)seed,
            (double)now_ns * 1e-9 - 1);
    for (unsigned k = 0; k < count; k++) {
        struct thread *it = &threads[k];

        if (it->state == DONE) continue;
        fprintf(stderr, "    thread %u %s", k, why[it->state]);
        if (it->name) fprintf(stderr, " %s at %p", it->name, it->on);
        if (it->state == LOCKED && *(int *)it->on > 0) fprintf(stderr, " that thread %d has", *(int *)it->on - 1);
        fprintf(stderr, it->state == JOINS ? ": thread %u\n" : "\n", (unsigned)((struct thread *)it->on - threads));
    }
    abort();
}

/* Who is next, of those that are ready: of an even seed any of them, rather the one that goes on; of an odd one the one
   of the highest priority, which sinks now and then. */
static unsigned chosen(const unsigned *ready, unsigned many)
{
    unsigned best = ready[0];

    if (seed % 2 == 0) return threads[me].state == READY && next_random() % 3 ? me : ready[next_random() % many];
    if (next_random() % 32 == 0) threads[me].priority = next_random() >> 8;
    for (unsigned k = 1; k < many; k++)
        if (threads[ready[k]].priority > threads[best].priority) best = ready[k];
    return best;
}

/* Gives the turn to somebody who is ready, and waits for the next one. */
static void take_turns(void)
{
    unsigned ready[MOST], many = 0, to;

    for (now_ns += STEP_NS;;) {
        uint64_t least = FOREVER;
        unsigned alive = 0;

        for (unsigned k = 0; k < count; k++) {
            struct thread *it = &threads[k];

            if (it->state == DONE) continue;
            if (it->state != READY && it->until <= now_ns) {
                it->late = true;
                it->state = READY;
            }
            if (it->state == READY) ready[many++] = k;
            else if (it->until < least) least = it->until;
            alive++;
        }
        if (many) break;
        if (!alive) return; /* the last one has ended, after the first */
        if (least == FOREVER || least > (uint64_t)MOST_SECONDS * 1000000000u) stop();
        now_ns = least;
    }
    to = chosen(ready, many);
    if (to == me) return;
    has_turn = to;
    (pthread_cond_signal)(&threads[to].turn);
    while (threads[me].state != DONE && has_turn != me) (pthread_cond_wait)(&threads[me].turn, &baton);
}

/* Makes those ready that wait for this: one of them, or all. */
static void free_those(enum state state, const void *on, bool one)
{
    unsigned found[MOST], many = 0;

    for (unsigned k = 0; k < count; k++)
        if (threads[k].state == state && threads[k].on == on) found[many++] = k;
    if (one && many) threads[found[next_random() % many]].state = READY;
    for (unsigned k = 0; !one && k < many; k++) threads[found[k]].state = READY;
}

/* Waits until somebody frees those that wait for this. Return: whether it was late instead */
static bool wait_on(enum state state, void *on, uint64_t until, const char *name)
{
    threads[me].state = state;
    threads[me].on = on;
    threads[me].name = name;
    threads[me].until = until;
    threads[me].late = false;
    take_turns();
    return threads[me].late;
}

static uint64_t time_of(const struct timespec *at)
{ return at ? (uint64_t)at->tv_sec * 1000000000u + (uint64_t)at->tv_nsec : FOREVER; }

/* The first word of a lock: 0, or who has it, plus 1; of a lock of readers how many they are, or -1: a writer. Return:
   whether it was had before that time */
static bool take(void *lock, uint64_t until)
{
    while (*(int *)lock)
        if (wait_on(LOCKED, lock, until, NULL)) return false;
    *(int *)lock = (int)me + 1;
    return true;
}
static void let_go(void *lock)
{
    *(int *)lock = 0;
    free_those(LOCKED, lock, false);
}

int cmwq_turns_forget(void *it, size_t size) { return memset(it, 0, size), 0; }

int cmwq_turns_lock(void *lock, const struct timespec *until)
{
    enter();
    take_turns();
    return leave(take(lock, time_of(until)) ? 0 : ETIMEDOUT);
}

int cmwq_turns_trylock(void *lock)
{
    int result;

    enter();
    take_turns();
    result = *(int *)lock ? EBUSY : 0;
    if (result == 0) take(lock, FOREVER);
    return leave(result);
}

int cmwq_turns_unlock(void *lock)
{
    enter();
    let_go(lock);
    return leave(0);
}

int cmwq_turns_rdlock(void *lock, const struct timespec *until)
{
    enter();
    take_turns();
    while (*(int *)lock < 0)
        if (wait_on(LOCKED, lock, time_of(until), NULL)) return leave(ETIMEDOUT);
    ++*(int *)lock;
    return leave(0);
}

int cmwq_turns_wrlock(void *lock, const struct timespec *until)
{
    enter();
    take_turns();
    while (*(int *)lock)
        if (wait_on(LOCKED, lock, time_of(until), NULL)) return leave(ETIMEDOUT);
    *(int *)lock = -1;
    return leave(0);
}

int cmwq_turns_tryrdlock(void *lock)
{
    bool is_free;

    enter();
    take_turns();
    is_free = *(int *)lock >= 0;
    *(int *)lock += is_free;
    return leave(is_free ? 0 : EBUSY);
}

int cmwq_turns_trywrlock(void *lock)
{
    bool is_free;

    enter();
    take_turns();
    is_free = *(int *)lock == 0;
    *(int *)lock -= is_free;
    return leave(is_free ? 0 : EBUSY);
}

int cmwq_turns_rwunlock(void *lock)
{
    enter();
    *(int *)lock = *(int *)lock < 0 ? 0 : *(int *)lock - 1;
    if (*(int *)lock == 0) free_those(LOCKED, lock, false);
    return leave(0);
}

int cmwq_turns_wait(void *cond, void *lock, const struct timespec *until, const char *name)
{
    bool late;

    enter();
    let_go(lock);
    late = wait_on(WAITS, cond, time_of(until), name);
    take(lock, FOREVER);
    return leave(late ? ETIMEDOUT : 0);
}

int cmwq_turns_signal(void *cond)
{
    enter();
    free_those(WAITS, cond, true);
    return leave(0);
}

int cmwq_turns_broadcast(void *cond)
{
    enter();
    free_those(WAITS, cond, false);
    return leave(0);
}

/* The first word of a semaphore is its value. */
int cmwq_turns_sem_init(sem_t *sem, unsigned value)
{
    memset(sem, 0, sizeof *sem);
    *(unsigned *)(void *)sem = value;
    return 0;
}

static int fail(int why)
{
    errno = why;
    return leave(-1);
}

int cmwq_turns_sem_wait(sem_t *sem, const struct timespec *until, const char *name)
{
    unsigned *value = (unsigned *)(void *)sem;

    enter();
    take_turns();
    while (*value == 0)
        if (wait_on(POSTED, sem, time_of(until), name)) return fail(ETIMEDOUT);
    --*value;
    return leave(0);
}

int cmwq_turns_sem_trywait(sem_t *sem)
{
    unsigned *value = (unsigned *)(void *)sem;

    enter();
    take_turns();
    if (*value == 0) return fail(EAGAIN);
    --*value;
    return leave(0);
}

int cmwq_turns_sem_post(sem_t *sem)
{
    enter();
    ++*(unsigned *)(void *)sem;
    free_those(POSTED, sem, true);
    return leave(0);
}

int cmwq_turns_sem_value(sem_t *sem, int *value)
{
    enter();
    *value = (int)*(unsigned *)(void *)sem;
    return leave(0);
}

/* The words of a barrier: how many it is for; how many are there; and how often it has opened. */
int cmwq_turns_barrier_init(void *barrier, unsigned many)
{
    if (many == 0) return EINVAL;
    memset(barrier, 0, sizeof(pthread_barrier_t));
    *(unsigned *)barrier = many;
    return 0;
}

int cmwq_turns_barrier_wait(void *barrier, const char *name)
{
    unsigned *words = (unsigned *)barrier, opened;

    enter();
    take_turns();
    if (++words[1] == words[0]) {
        words[1] = 0;
        words[2]++;
        free_those(BARRED, barrier, false);
        return leave(PTHREAD_BARRIER_SERIAL_THREAD);
    }
    for (opened = words[2]; words[2] == opened;) wait_on(BARRED, barrier, FOREVER, name);
    return leave(0);
}

/* 0: nobody has begun; 1: somebody has; 2: it is done. */
int cmwq_turns_once(pthread_once_t *once, void (*body)(void))
{
    enter();
    take_turns();
    while (*once == 1) wait_on(ONCE, once, FOREVER, NULL);
    if (*once == 2) return leave(0);
    *once = 1;
    leave(0);
    body();
    enter();
    *once = 2;
    free_those(ONCE, once, false);
    return leave(0);
}

int cmwq_turns_yield(void)
{
    enter();
    take_turns();
    return leave(0);
}

/* One sleep in four is late, by up to a millisecond. */
static int sleep_by(int flags, const struct timespec *time)
{
    uint64_t late;

    enter();
    late = next_random() % 4 ? 0 : next_random() % 1000000;
    wait_on(SLEEPS, NULL, (flags & TIMER_ABSTIME ? 0 : now_ns) + time_of(time) + late, NULL);
    return leave(0);
}

int cmwq_turns_sleep(const struct timespec *time) { return sleep_by(0, time); }

/* What the header has these names for. */
int cmwq_turns_nanosleep(const struct timespec *time, struct timespec *left);
int cmwq_turns_nanosleep(const struct timespec *time, struct timespec *left) { return (void)left, sleep_by(0, time); }

int cmwq_turns_clock_nanosleep(clockid_t clock, int flags, const struct timespec *time, struct timespec *left);
int cmwq_turns_clock_nanosleep(clockid_t clock, int flags, const struct timespec *time, struct timespec *left)
{ return (void)clock, (void)left, sleep_by(flags, time); }

unsigned cmwq_turns_seconds(unsigned seconds);
unsigned cmwq_turns_seconds(unsigned seconds)
{ return (unsigned)cmwq_turns_sleep(&(struct timespec){(time_t)seconds, 0}); }

int cmwq_turns_clock(struct timespec *now)
{
    enter();
    now->tv_sec = (time_t)(now_ns / 1000000000u);
    now->tv_nsec = (long)(now_ns % 1000000000u);
    return leave(0);
}

time_t cmwq_turns_time(time_t *now);
time_t cmwq_turns_time(time_t *now)
{
    struct timespec at;

    cmwq_turns_clock(&at);
    if (now) *now = at.tv_sec;
    return at.tv_sec;
}

int cmwq_turns_day(struct timeval *now, void *zone);
int cmwq_turns_day(struct timeval *now, void *zone)
{
    struct timespec at;

    (void)zone;
    cmwq_turns_clock(&at);
    *now = (struct timeval){at.tv_sec, at.tv_nsec / 1000};
    return 0;
}

/* The calling thread has ended. What runs in it after that is beside the others. */
static void end_thread(void)
{
    enter();
    threads[me].state = DONE;
    free_those(JOINS, &threads[me], false);
    take_turns();
    leave(0);
}

void cmwq_turns_exit(void *result)
{
    end_thread();
    (pthread_exit)(result);
}

static void *run_thread(void *at)
{
    struct thread *own = (struct thread *)at;
    void *result;

    (pthread_mutex_lock)(&baton);
    me = (unsigned)(own - threads);
    while (has_turn != me) (pthread_cond_wait)(&own->turn, &baton);
    (pthread_mutex_unlock)(&baton);
    result = own->body(own->data);
    end_thread();
    return result;
}

int cmwq_turns_create(pthread_t *thread, void *(*body)(void *), void *data)
{
    struct thread *it;
    int result;

    enter();
    if (count == MOST) return leave(EAGAIN);
    it = &threads[count];
    it->body = body;
    it->data = data;
    it->priority = next_random();
    (pthread_cond_init)(&it->turn, NULL);
    result = (pthread_create)(&it->real, NULL, run_thread, it);
    *thread = it->real;
    count += result == 0;
    return leave(result);
}

int cmwq_turns_join(pthread_t thread, void **result)
{
    enter();
    for (unsigned k = 0; k < count; k++) /* (of those that have ended, one may have had the same name) */
        while (pthread_equal(threads[k].real, thread) && threads[k].state != DONE)
            wait_on(JOINS, &threads[k], FOREVER, NULL);
    leave(0);
    return (pthread_join)(thread, result);
}
