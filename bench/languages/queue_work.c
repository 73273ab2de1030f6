/* queue_work() of linux/workqueue.h, and a pool by hand with the same promises, in turns: SUBMITTERS WORKERS RUNS. Each
 * submitter queues 64 works, and flushes. Prints the runs a second of both, at the median of nine turns. */
#include <linux/workqueue.h>
#include <pthread.h>
#include <stdio.h>
#include <stdlib.h>
#include <time.h>

enum { BATCH = 64, TURNS = 9, MOST = 64 };

/* The pool: jobs in a list under a lock. A job that is pending is not queued again; a flush waits for all. */
struct job { struct job *next; void (*run)(struct job *job); bool pending; };

static pthread_mutex_t lock = PTHREAD_MUTEX_INITIALIZER;
static pthread_cond_t some = PTHREAD_COND_INITIALIZER, none = PTHREAD_COND_INITIALIZER;
static struct job *first, **last = &first;
static unsigned open_jobs, idle;
static bool over;

static void *serve(void *at)
{
    pthread_mutex_lock(&lock);
    for (;;) {
        struct job *job;

        for (; !first && !over; idle--) {
            idle++;
            pthread_cond_wait(&some, &lock);
        }
        if (!(job = first)) break;
        if (!(first = job->next)) last = &first;
        job->pending = false;
        pthread_mutex_unlock(&lock);
        job->run(job);
        pthread_mutex_lock(&lock);
        if (--open_jobs == 0) pthread_cond_broadcast(&none);
    }
    pthread_mutex_unlock(&lock);
    return at;
}

static bool queue_job(struct job *job)
{
    bool was_pending, wakes;

    pthread_mutex_lock(&lock);
    was_pending = job->pending;
    if (!was_pending) {
        job->pending = true;
        job->next = NULL;
        *last = job;
        last = &job->next;
        open_jobs++;
    }
    wakes = !was_pending && idle > 0;
    pthread_mutex_unlock(&lock);
    if (wakes) pthread_cond_signal(&some);
    return !was_pending;
}

static void flush_jobs(void)
{
    pthread_mutex_lock(&lock);
    while (open_jobs) pthread_cond_wait(&none, &lock);
    pthread_mutex_unlock(&lock);
}

static struct workqueue_struct *wq;
static struct work_struct works[MOST][BATCH];
static struct job jobs[MOST][BATCH];
static long ran, rounds;

static void run_work(struct work_struct *work) { (void)work, __atomic_add_fetch(&ran, 1, __ATOMIC_RELAXED); }
static void run_job(struct job *job) { (void)job, __atomic_add_fetch(&ran, 1, __ATOMIC_RELAXED); }

static void *submit_works(void *at)
{
    struct work_struct *mine = (struct work_struct *)at;

    for (long r = 0; r < rounds; r++) {
        for (int k = 0; k < BATCH; k++) queue_work(wq, &mine[k]);
        flush_workqueue(wq);
    }
    return at;
}

static void *submit_jobs(void *at)
{
    struct job *mine = (struct job *)at;

    for (long r = 0; r < rounds; r++) {
        for (int k = 0; k < BATCH; k++) queue_job(&mine[k]);
        flush_jobs();
    }
    return at;
}

/* Runs a second. */
static double turn(bool of_pool, int submitters)
{
    struct timespec begun, ended;
    pthread_t threads[MOST];
    long before = ran;

    clock_gettime(CLOCK_MONOTONIC, &begun);
    for (int k = 0; k < submitters; k++)
        if (pthread_create(&threads[k], NULL, of_pool ? submit_jobs : submit_works,
                           of_pool ? (void *)jobs[k] : (void *)works[k])) exit(1);
    for (int k = 0; k < submitters; k++) pthread_join(threads[k], NULL);
    clock_gettime(CLOCK_MONOTONIC, &ended);
    return (double)(ran - before) /
           ((double)(ended.tv_sec - begun.tv_sec) + (double)(ended.tv_nsec - begun.tv_nsec) * 1e-9);
}

static int compare(const void *one, const void *other)
{ return (*(const double *)one > *(const double *)other) - (*(const double *)one < *(const double *)other); }

int main(int count, char **words)
{
    int submitters = count > 1 ? atoi(words[1]) : 1, workers = count > 2 ? atoi(words[2]) : 1;
    long runs = count > 3 ? atol(words[3]) : 100000;
    struct cmwq_linux_options options = {.cpus = 1, .workers = (unsigned)workers};
    double speeds[2][TURNS];
    pthread_t threads[MOST];

    if (submitters < 1 || submitters > MOST || workers < 1 || workers > MOST || runs < 1) return 2;
    if (cmwq_linux_open(&options) < 0 || !(wq = alloc_workqueue("bench", WQ_UNBOUND, workers))) return 1;
    rounds = runs / TURNS / submitters / BATCH + 1;
    for (int s = 0; s < MOST; s++)
        for (int k = 0; k < BATCH; k++) {
            INIT_WORK(&works[s][k], run_work);
            jobs[s][k].run = run_job;
        }
    for (int k = 0; k < workers; k++)
        if (pthread_create(&threads[k], NULL, serve, NULL)) return 1;
    for (int k = 0; k < TURNS; k++)
        for (int of_pool = 0; of_pool < 2; of_pool++) speeds[of_pool][k] = turn(of_pool, submitters);
    pthread_mutex_lock(&lock);
    over = true;
    pthread_cond_broadcast(&some);
    pthread_mutex_unlock(&lock);
    for (int k = 0; k < workers; k++) pthread_join(threads[k], NULL);
    destroy_workqueue(wq);
    for (int k = 0; k < 2; k++) qsort(speeds[k], TURNS, sizeof **speeds, compare);
    printf("%.0f %.0f\n", speeds[0][TURNS / 2], speeds[1][TURNS / 2]);
    return cmwq_linux_close() != 0;
}
