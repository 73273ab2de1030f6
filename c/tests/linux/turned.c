/* Calls of POSIX beside those of the workqueues: semaphores, barriers, pthread_once(), locks with a limit of time, ends
   of threads, sleeps and clocks. They do here what they do anywhere, also by turns. */
#include "check.h"
#include <errno.h>
#include <semaphore.h>
#include <sys/time.h>
#include <unistd.h>

enum { THREADS = 4, ROUNDS = 20 };

static sem_t items, room;
static pthread_barrier_t barrier;
static pthread_once_t once = PTHREAD_ONCE_INIT;
static pthread_mutex_t lock = PTHREAD_MUTEX_INITIALIZER;
static pthread_rwlock_t shared = PTHREAD_RWLOCK_INITIALIZER;
static int taken, given, inside, serials, begun, exited;

static struct timespec after(clockid_t clock, long ms)
{
    struct timespec at;

    clock_gettime(clock, &at);
    at.tv_nsec += ms * 1000000;
    at.tv_sec += at.tv_nsec / 1000000000;
    at.tv_nsec %= 1000000000;
    return at;
}

static void begin(void)
{
    CHECK(ADD(begun, 1) == 1);
    rest(1000);
    ADD(begun, 1);
}

static void give(struct work_struct *work)
{
    (void)work;
    cmwq_linux_blocks();
    sem_wait(&room);
    cmwq_linux_goes_on();
    ADD(given, 1);
    sem_post(&items);
}

static void *take(void *at)
{
    CHECK(pthread_once(&once, begin) == 0 && GET(begun) == 2);
    for (int k = 0; k < ROUNDS; k++) {
        int result, now;

        sem_wait(&items);
        ADD(taken, 1);
        sem_post(&room);
        now = ADD(inside, 1);
        CHECK(now <= THREADS * (k + 1));
        result = pthread_barrier_wait(&barrier);
        CHECK(result == 0 || result == PTHREAD_BARRIER_SERIAL_THREAD);
        CHECK(GET(inside) >= THREADS * (k + 1));
        if (result) ADD(serials, 1);
    }
    if (at == &items) pthread_exit(&exited);
    return at;
}

static void *hold(void *at)
{
    struct timespec soon = after(CLOCK_REALTIME, 2);

    CHECK(pthread_mutex_timedlock(&lock, &soon) == ETIMEDOUT);
    CHECK(pthread_mutex_trylock(&lock) == EBUSY);
    CHECK(pthread_rwlock_trywrlock(&shared) == EBUSY && pthread_rwlock_tryrdlock(&shared) == 0);
    pthread_rwlock_unlock(&shared);
    soon = after(CLOCK_REALTIME, 2);
    CHECK(pthread_rwlock_timedwrlock(&shared, &soon) == ETIMEDOUT);
    soon = after(CLOCK_REALTIME, 1000000);
    CHECK(pthread_rwlock_timedrdlock(&shared, &soon) == 0);
    pthread_rwlock_unlock(&shared);
    return at;
}

static void test_threads(void)
{
    struct work_struct works[THREADS * ROUNDS];
    pthread_t threads[THREADS];
    int value;

    sem_init(&items, 0, 0);
    sem_init(&room, 0, 3);
    CHECK(pthread_barrier_init(&barrier, NULL, THREADS) == 0);
    for (int k = 0; k < THREADS; k++)
        CHECK(pthread_create(&threads[k], NULL, take, k ? &barrier : (void *)&items) == 0);
    for (int k = 0; k < THREADS * ROUNDS; k++) {
        INIT_WORK_ONSTACK(&works[k], give);
        queue_work(system_unbound_wq, &works[k]);
    }
    for (int k = 0; k < THREADS; k++) {
        void *result;

        CHECK(pthread_join(threads[k], &result) == 0 && result == (k ? (void *)&barrier : &exited));
    }
    flush_workqueue(system_unbound_wq);
    CHECK(taken == THREADS * ROUNDS && given == taken && serials == ROUNDS && inside == taken);
    CHECK(sem_getvalue(&room, &value) == 0 && value == 3 && sem_trywait(&items) == -1 && errno == EAGAIN);
    CHECK(sem_destroy(&items) == 0 && sem_destroy(&room) == 0 && pthread_barrier_destroy(&barrier) == 0);
}

static void test_limits(void)
{
    struct timespec soon;
    pthread_t thread;
    sem_t none;

    pthread_mutex_lock(&lock);
    CHECK(pthread_rwlock_tryrdlock(&shared) == 0);
    CHECK(pthread_create(&thread, NULL, hold, NULL) == 0 && pthread_join(thread, NULL) == 0);
    pthread_mutex_unlock(&lock);
    pthread_rwlock_unlock(&shared);
    CHECK(pthread_rwlock_trywrlock(&shared) == 0 && pthread_rwlock_tryrdlock(&shared) == EBUSY);
    pthread_rwlock_unlock(&shared);
    soon = after(CLOCK_REALTIME, 1000000);
    CHECK(pthread_mutex_timedlock(&lock, &soon) == 0 && pthread_rwlock_timedwrlock(&shared, &soon) == 0);
    pthread_mutex_unlock(&lock);
    pthread_rwlock_unlock(&shared);
    sem_init(&none, 0, 0);
    soon = after(CLOCK_REALTIME, 2);
    CHECK(sem_timedwait(&none, &soon) == -1 && errno == ETIMEDOUT && sem_post(&none) == 0);
    CHECK(sem_timedwait(&none, &soon) == 0 && sem_destroy(&none) == 0);
}

/* A second of a sleep takes none of a program by turns, whose time is the same for each clock. */
static void test_time(void)
{
    struct timespec begin = after(CLOCK_MONOTONIC, 0), then = after(CLOCK_MONOTONIC, 1), now;
    struct timeval day;
    unsigned seconds = 1;
    time_t first = time(NULL), last;

#ifdef CMWQ_TURNS_H
    seconds = 100;
    CHECK(first == begin.tv_sec);
#endif
    CHECK(clock_nanosleep(CLOCK_MONOTONIC, TIMER_ABSTIME, &then, NULL) == 0);
    now = after(CLOCK_MONOTONIC, 0);
    CHECK(now.tv_sec > then.tv_sec || (now.tv_sec == then.tv_sec && now.tv_nsec >= then.tv_nsec));
    CHECK(clock_nanosleep(CLOCK_MONOTONIC, 0, &(struct timespec){0, 1000000}, NULL) == 0 && usleep(1000) == 0);
    CHECK(sleep(seconds) == 0);
    CHECK(gettimeofday(&day, NULL) == 0 && day.tv_sec >= first + (time_t)seconds);
    CHECK(time(&last) >= day.tv_sec - 1 && last >= day.tv_sec - 1); /* (its clock may be some milliseconds behind) */
    now = after(CLOCK_MONOTONIC, 0);
    CHECK(now.tv_sec - begin.tv_sec >= (time_t)seconds);
}

int main(void)
{
    test_threads();
    test_limits();
    test_time();
    return cmwq_linux_close() != 0;
}
