/* Calls of a durable hub, and lines on the disk alone, in turns: LEVEL CALLERS MILLISECONDS FOLDER. LEVEL is none, write
 * or data. So many threads call, and each waits until its call is durable. On the disk alone they share writes and syncs
 * as in the hub. Prints the calls a second of both, at the median of five turns. */
#define _GNU_SOURCE
#include "cmwq_hub.h"
#include <fcntl.h>
#include <pthread.h>
#include <stdio.h>
#include <stdlib.h>
#include <string.h>
#include <time.h>
#include <unistd.h>

enum { TURNS = 5, MOST = 64, LINE = 64, LATER = 1000000 };

static struct cmwq_hub hub;
static enum cmwq_sync level;
static bool over;
static unsigned long calls[MOST];

/* What was appended and is not written yet; how many lines there are, and how many are durable. */
static pthread_mutex_t lock = PTHREAD_MUTEX_INITIALIZER;
static pthread_cond_t durable = PTHREAD_COND_INITIALIZER;
static char text[2][MOST * LINE];
static size_t len;
static unsigned long made, safe;
static int file, at;
static bool writing;

static void fail(const char *what)
{
    perror(what);
    exit(1);
}

static void write_lines(const char *from, size_t many)
{
    if (write(file, from, many) != (ssize_t)many) fail("write");
    if (level == CMWQ_SYNC_DATA && fdatasync(file) != 0) fail("fdatasync");
}

/* Appends a line, and waits until it is durable. The first who waits writes and syncs for all. */
static void append(unsigned me, unsigned long number)
{
    unsigned long mine;

    pthread_mutex_lock(&lock);
    mine = ++made;
    len += (size_t)snprintf(text[at] + len, LINE, "c0 %lu modify %u 0 0 %d = again %lu\n", number, me, LATER, mine);
    while (safe < mine && level != CMWQ_SYNC_NONE) {
        if (!writing) {
            unsigned long last = made;
            const char *from = text[at];
            size_t many = len;

            writing = true;
            at = 1 - at;
            len = 0;
            pthread_mutex_unlock(&lock);
            write_lines(from, many);
            pthread_mutex_lock(&lock);
            safe = last;
            writing = false;
            pthread_cond_broadcast(&durable);
        } else {
            pthread_cond_wait(&durable, &lock);
        }
    }
    if (level == CMWQ_SYNC_NONE && len > sizeof text[0] / 2) {
        write_lines(text[at], len);
        len = 0;
    }
    pthread_mutex_unlock(&lock);
}

static void *call_hub(void *name)
{
    unsigned me = *(unsigned *)name;

    for (; !__atomic_load_n(&over, __ATOMIC_RELAXED); calls[me]++)
        if (cmwq_mod_delayed_work_on(&hub, 0, 0, me, LATER) < 0) fail("a call of the hub");
    return NULL;
}

static void *call_disk(void *name)
{
    unsigned me = *(unsigned *)name;

    for (; !__atomic_load_n(&over, __ATOMIC_RELAXED); calls[me]++) append(me, calls[me]);
    return NULL;
}

/* How many calls there are in a second. */
static double speed(void *(*call)(void *name), unsigned callers, unsigned milliseconds)
{
    struct timespec some = {milliseconds / 1000, (long)(milliseconds % 1000) * 1000000}, begun, ended;
    pthread_t threads[MOST];
    unsigned names[MOST];
    unsigned long all = 0;

    memset(calls, 0, sizeof calls);
    over = false;
    clock_gettime(CLOCK_MONOTONIC, &begun);
    for (unsigned k = 0; k < callers; k++) {
        names[k] = k;
        if (pthread_create(&threads[k], NULL, call, &names[k]) != 0) fail("a thread");
    }
    nanosleep(&some, NULL);
    __atomic_store_n(&over, true, __ATOMIC_RELAXED);
    for (unsigned k = 0; k < callers; k++) {
        pthread_join(threads[k], NULL);
        all += calls[k];
    }
    clock_gettime(CLOCK_MONOTONIC, &ended);
    return (double)all / ((double)(ended.tv_sec - begun.tv_sec) + (double)(ended.tv_nsec - begun.tv_nsec) / 1e9);
}

static int is_less(const void *a, const void *b)
{
    return (*(const double *)a > *(const double *)b) - (*(const double *)a < *(const double *)b);
}

static void nothing(struct cmwq_run *run, void *data)
{
    (void)run;
    (void)data;
}

int main(int argc, char **argv)
{
    struct cmwq_queue queues[] = {{1, 0, 0, 0}};
    struct cmwq_work works[MOST];
    struct cmwq_options options = {.works = works, .items = MOST, .queues = queues, .queue_count = 1, .each = true};
    double of_hub[TURNS], of_disk[TURNS];
    char journal[4096], lines[4096];
    unsigned callers, milliseconds;

    if (argc != 5 || (callers = (unsigned)atoi(argv[2])) == 0 || callers > MOST) return 2;
    milliseconds = (unsigned)atoi(argv[3]);
    level = !strcmp(argv[1], "data") ? CMWQ_SYNC_DATA : !strcmp(argv[1], "write") ? CMWQ_SYNC_WRITE : CMWQ_SYNC_NONE;
    snprintf(journal, sizeof journal, "%s/journal", argv[4]);
    snprintf(lines, sizeof lines, "%s/lines", argv[4]);
    for (int k = 0; k < MOST; k++) works[k] = (struct cmwq_work){nothing, NULL};
    options.durable = journal;
    options.sync = level;
    for (int turn = 0; turn < TURNS; turn++) {
        unlink(journal);
        if (cmwq_hub_open(&hub, &options) != CMWQ_OK) fail("the hub");
        of_hub[turn] = speed(call_hub, callers, milliseconds);
        if (cmwq_hub_close(&hub) != CMWQ_OK) fail("the end of the hub");
        if ((file = open(lines, O_WRONLY | O_CREAT | O_TRUNC, 0600)) < 0) fail(lines);
        of_disk[turn] = speed(call_disk, callers, milliseconds);
        close(file);
    }
    qsort(of_hub, TURNS, sizeof *of_hub, is_less);
    qsort(of_disk, TURNS, sizeof *of_disk, is_less);
    printf("%.0f %.0f\n", of_hub[TURNS / 2], of_disk[TURNS / 2]);
    return 0;
}
