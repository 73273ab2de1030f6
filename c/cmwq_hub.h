/*
 * A hub: workqueues with threads. The board of cmwq.h decides (what runs, who is woken, what is refused), and that is
 * proved. The shell (cmwq_shell.h) only locks, makes a call of the board, unlocks, and wakes whom the call has named.
 *
 * Any thread may make any call, also in a work function: there it is the run's. Each returns what the kernel's call
 * returns (1: true, 0: false), or minus a status of cmwq.h or below. docs/C.md has examples and a table of the calls.
 */
#ifndef CMWQ_HUB_H
#define CMWQ_HUB_H
#if defined __STRICT_ANSI__ && !defined _POSIX_C_SOURCE && !defined _GNU_SOURCE
#define _POSIX_C_SOURCE 200809L
#endif
#include "cmwq.h"
#include <errno.h>
#include <fcntl.h>
#include <limits.h>
#include <pthread.h>
#include <sched.h>
#include <stdio.h>
#include <stdlib.h>
#include <string.h>
#include <sys/file.h>
#include <time.h>
#include <unistd.h>
#ifndef CLOCK_MONOTONIC
#error "cmwq_hub.h needs POSIX: compile with -std=gnu11, or include it first"
#endif

enum cmwq_hub_status {
    CMWQ_TIMED_OUT = 32,                    /* the time is over; a drain, destroy or cancel goes on all the same */
    CMWQ_NO_THREAD,                         /* a thread could not be started; the hub has failed */
    CMWQ_NO_JOURNAL,                        /* the journal returned false, and what came after is forgotten */
    CMWQ_OTHER_VERSION,                     /* the library has another version than this header */
    CMWQ_NOT_DURABLE,                       /* the call was made, but the disk failed before its entry was on it */
    CMWQ_DISK_FAILED,                       /* the disk has failed: no call is made. Of an open errno says why */
    CMWQ_IN_USE,                            /* another program, or another hub, has the durable journal */
    CMWQ_BAD_JOURNAL,                       /* the durable journal is no legal history: hub->line says in which line */
    CMWQ_OTHER_SHAPE,                       /* it has more items, queues or CPUs than there are now */
    CMWQ_IS_FOREIGN = 64 + CMWQ_FOREIGN,    /* the item runs on another queue */
    CMWQ_IS_DRAINING = 64 + CMWQ_DRAINING,  /* the queue is drained */
    CMWQ_IS_MISUSE = 64 + CMWQ_MISUSE,      /* not at this point: a second sleep, for one */
    CMWQ_IS_GONE = 64 + CMWQ_GONE,          /* the queue was destroyed */
    CMWQ_HAS_TIMERS = 64 + CMWQ_TIMERS      /* the queue can't be destroyed while an item is delayed on it */
};
#define CMWQ_FOREVER UINT_MAX               /* a timeout; others are milliseconds */
#define CMWQ_BATCH 64                       /* so many calls of cmwq_queue_all() are made in one hold of the lock */

/* What a call returned, in words. */
static inline const char *cmwq_why(int result)
{
    static const char *const of_board[] = {"done", "no such number, or outside its limits", "the hub is not open",
        "the history has no room for more", "no memory", "too short", "crowded", "not legal", "the hub is being closed",
        "the hub has failed", "not in a work function or a journal, or not at this point",
        "the run would wait for its own end", "the wait could never end", "too many calls wait", "the wait goes on"};
    static const char *const of_hub[] = {"the time is over", "a thread could not be started",
        "the journal takes no more", "the library has another version",
        "the call was made, but is not on the disk", "the disk has failed", "another hub has the durable journal",
        "the durable journal is no legal history", "the durable journal has more items, queues or CPUs"};
    int status = result < 0 ? -result : CMWQ_OK;

    if (status <= CMWQ_WAITS) return of_board[status];
    if (status >= CMWQ_TIMED_OUT && status <= CMWQ_OTHER_SHAPE) return of_hub[status - CMWQ_TIMED_OUT];
    return status == CMWQ_IS_FOREIGN    ? "the item runs on another queue"
           : status == CMWQ_IS_DRAINING ? "the queue is drained"
           : status == CMWQ_IS_GONE     ? "the queue was destroyed"
           : status == CMWQ_HAS_TIMERS  ? "an item is delayed on the queue" : "not possible at this point";
}

/* What a work function gets, and a work function as INIT_WORK() binds it. No item is in two runs at once. */
struct cmwq_run { struct cmwq_hub *hub; uint64_t number; uint16_t item; struct cmwq_who who; bool asleep, broken_; };
struct cmwq_work { void (*run)(struct cmwq_run *run, void *data); void *data; };

/* How far an entry of a durable hub must have come so that nobody waits for it any more: on the disk, so that it
   outlives a power failure; written to the file, so that it outlives the program; or nobody waits. */
enum cmwq_sync { CMWQ_SYNC_DATA, CMWQ_SYNC_WRITE, CMWQ_SYNC_NONE };

struct cmwq_options {                                       /* in brackets: what 0 means */
    const struct cmwq_queue *queues; size_t queue_count;    /* 1 to 255 */
    const struct cmwq_work *works; unsigned items;          /* one for each item [they do nothing]; 1 to 65,535 */
    unsigned cpus, workers;                                 /* 1 to 64 [1]; in each of a CPU's two pools 1 to 64 [4] */
    unsigned waits;                                         /* so many calls may wait at a time: 1 to 254 [32] */
    unsigned keep; uint64_t room;                           /* entries kept at a time [1,024], and in all [2^62] */
    uint64_t tick_ns; unsigned spins;                       /* [1,000,000]; looks before a thread sleeps [1,000] */
    /* Gets the text of whole lines within 100 ms, from one thread at a time and without the lock [nobody does].
       False: it wants no more. Its calls of the hub are refused. */
    bool (*journal)(void *data, const char *text, size_t len); void *journal_data;
    /* The file with the journal of a durable hub, whose next life takes over what this one leaves [none]. */
    const char *durable; enum cmwq_sync sync;               /* in place of @journal; [fdatasync()] */
    bool each, keep_old;                                    /* calls of no run wait for the disk; FILE.1 has the last */
    /* Whether the run of an item that was broken off is had again; asked in the open [all are]. */
    bool (*again)(void *data, unsigned item); void *again_data;
    void (*ended_)(struct cmwq_hub *hub, unsigned item); /* for cmwq.hpp: a run has ended; under the lock */
    unsigned callers;                                       /* so many threads have a caller of their own [none] */
    bool ticks;                                             /* time is brought up to the clock before each entry */
};

struct cmwq_hub;
#include "cmwq_shell.h"

/* Takes the lock for calls. @run: the run that makes them, or NULL. Return: CMWQ_OK, or why none can be made */
static inline uint32_t cmwq_hub_enter_(struct cmwq_hub *hub, struct cmwq_run **run)
{
    struct cmwq_here_ *here;

    *run = NULL;
    pthread_mutex_lock(&hub->lock);
    hub->inside++;
    if (hub->state == CMWQ_NONE_) return CMWQ_CLOSED;
    here = cmwq_hub_here_(hub);
    if (here && !here->run) return CMWQ_NOT_NOW; /* in the journal */
    if (here) *run = here->run;
    cmwq_hub_space_(hub, hub->is.keep);
    cmwq_hub_pass_(hub);
    return hub->state == CMWQ_NONE_ ? CMWQ_CLOSED : CMWQ_OK;
}

/* The caller of the calling thread, which is in no run: its own, from 1 on; the last of them if there are none left; or
   caller 0, if threads have none. */
static inline uint8_t cmwq_hub_caller_(struct cmwq_hub *hub)
{
#ifdef __cplusplus
    static thread_local unsigned at;
#else
    static _Thread_local unsigned at;
#endif
    pthread_t self;

    if (!hub->is.callers) return 0;
    self = pthread_self();
    if (at < hub->taken && pthread_equal(hub->threads[at], self)) return (uint8_t)(at + 1);
    for (at = 0; at < hub->taken && !pthread_equal(hub->threads[at], self); at++) {}
    if (at < hub->is.callers && at == hub->taken) hub->threads[hub->taken++] = self;
    return (uint8_t)(at < hub->is.callers ? at + 1 : hub->is.callers);
}

/* Lets the lock go after them. */
static inline void cmwq_hub_leave_calls_(struct cmwq_hub *hub)
{
    if (--hub->inside == 0 && hub->state == CMWQ_CLOSING_) pthread_cond_broadcast(&hub->changed);
    cmwq_hub_unlock_(hub);
}

/* Why a call is refused of a hub whose disk has failed, or whose board has for want of a thread. */
static inline uint32_t cmwq_hub_why_(const struct cmwq_hub *hub, uint32_t status)
{
    bool over = status == CMWQ_OVER || status == CMWQ_FAILED;

    if ((over || status == CMWQ_STOPPED) && hub->disk.failed) return CMWQ_DISK_FAILED;
    return over && hub->threadless ? (uint32_t)CMWQ_NO_THREAD : status;
}

/* What a call returns that came to this. */
static inline int cmwq_hub_result_(uint32_t status, uint8_t kind, const struct cmwq_reply *reply)
{
    if (status == CMWQ_OVER || status == CMWQ_FAILED) status = CMWQ_STOPPED;
    switch (status == CMWQ_OK ? reply->kind : (uint8_t)CMWQ_NOTHING) {
    case CMWQ_NOTHING:
        return -(int)status;
    case CMWQ_FOREIGN: case CMWQ_DRAINING: case CMWQ_MISUSE: case CMWQ_GONE: case CMWQ_TIMERS:
        return -64 - reply->kind;
    case CMWQ_CROWD: /* of each lent caller 64 waits were left that go on */
        return -CMWQ_NO_CALLER;
    case CMWQ_NO: case CMWQ_IDLE: case CMWQ_TICKET_NO:
        return 0;
    case CMWQ_YES: case CMWQ_BOOKED:
        return kind != CMWQ_MODIFY;
    default:
        return kind == CMWQ_SET_MAX ? (int)reply->number : 1;
    }
}

/* Every call. @number: ticks, a width, or a timeout */
static inline int cmwq_hub_do_(struct cmwq_hub *hub, uint8_t kind, unsigned cpu, unsigned queue, unsigned item,
                               uint64_t number)
{
    struct cmwq_call call = {0, (uint32_t)number, (uint16_t)item, kind, (uint8_t)queue, (uint8_t)cpu, {0, 0, 0}};
    bool waits = (kind >= CMWQ_FLUSH && kind <= CMWQ_CANCEL_SYNC) || kind == CMWQ_DESTROY;
    bool sleeps = kind == CMWQ_SLEEP || kind == CMWQ_WAKE;
    struct cmwq_reply reply = {0, 0, 0, 0};
    struct cmwq_run *run;
    uint32_t status = cmwq_hub_enter_(hub, &run);

    if (run && (waits || sleeps || (kind <= CMWQ_CANCEL && !run->asleep))) call.who = run->who;
    else if (status == CMWQ_OK) call.who.index = cmwq_hub_caller_(hub);
    if (status == CMWQ_OK && (call.cpu != cpu || call.queue != queue || call.item != item || call.number != number))
        status = CMWQ_REFUSED;
    if (status == CMWQ_OK)
        status = waits ? cmwq_hub_wait_(hub, run, &call, &reply) : cmwq_hub_call_(hub, run, &call, &reply);
    if (status != CMWQ_OK) {
        if (run && waits && hub->keeps) run->asleep = run->broken_ = true; /* it is had again in the next life */
        status = cmwq_hub_why_(hub, status);
    }
    if (hub->is.each && !run && (status == CMWQ_OK || status == CMWQ_TIMED_OUT)) {
        uint32_t synced = cmwq_disk_wait_(hub);

        status = synced == CMWQ_OK ? status : synced;
    }
    cmwq_hub_leave_calls_(hub);
    return cmwq_hub_result_(status, kind, &reply);
}

static inline int cmwq_queue_work_on(struct cmwq_hub *hub, unsigned cpu, unsigned queue, unsigned item)
{ return cmwq_hub_do_(hub, CMWQ_QUEUE, cpu, queue, item, 0); }
/*
 * Queues many items on a queue and CPU, with one hold of the lock for each CMWQ_BATCH of them.
 * @queued: bit k % 64 of queued[k / 64] is set if items[k] was queued, and cleared if it was pending or not tried; or
 * NULL. Return: how many were queued, or minus the status of the first call that fails, after which none is tried
 */
static inline int cmwq_queue_all(struct cmwq_hub *hub, unsigned cpu, unsigned queue, const unsigned *items,
                                 size_t count, uint64_t *queued)
{
    int many = 0, result = 0;

    if (count > INT_MAX) return -CMWQ_REFUSED;
    if (queued) memset(queued, 0, (count + 63) / 64 * sizeof *queued);
    for (size_t k = 0; k < count && result >= 0;) {
        struct cmwq_run *run;
        uint32_t status = cmwq_hub_enter_(hub, &run);
        size_t last = count - k < CMWQ_BATCH ? count : k + CMWQ_BATCH;

        for (; k < last && result >= 0; k++) {
            struct cmwq_call call = {0, 0, (uint16_t)items[k], CMWQ_QUEUE, (uint8_t)queue, (uint8_t)cpu, {0, 0, 0}};
            struct cmwq_reply reply = {0, 0, 0, 0};

            if (run && !run->asleep) call.who = run->who;
            else if (status == CMWQ_OK) call.who.index = cmwq_hub_caller_(hub);
            if (status == CMWQ_OK && (call.cpu != cpu || call.queue != queue || call.item != items[k]))
                status = CMWQ_REFUSED;
            if (status == CMWQ_OK) status = cmwq_hub_call_(hub, run, &call, &reply);
            result = cmwq_hub_result_(cmwq_hub_why_(hub, status), CMWQ_QUEUE, &reply);
            many += result > 0;
            if (queued && result > 0) queued[k / 64] |= UINT64_C(1) << k % 64;
        }
        if (hub->is.each && !run && (result < 0 ? many > 0 : k == count)) {
            status = cmwq_disk_wait_(hub);
            result = status == CMWQ_OK ? result : -(int)status;
        }
        cmwq_hub_leave_calls_(hub);
    }
    return result < 0 ? result : many;
}
static inline int cmwq_queue_delayed_work_on(struct cmwq_hub *hub, unsigned cpu, unsigned queue, unsigned item,
                                             uint64_t ticks)
{ return cmwq_hub_do_(hub, CMWQ_DELAY, cpu, queue, item, ticks); }
static inline int cmwq_mod_delayed_work_on(struct cmwq_hub *hub, unsigned cpu, unsigned queue, unsigned item,
                                           uint64_t ticks)
{ return cmwq_hub_do_(hub, CMWQ_MODIFY, cpu, queue, item, ticks); }
static inline int cmwq_cancel_work(struct cmwq_hub *hub, unsigned item)
{ return cmwq_hub_do_(hub, CMWQ_CANCEL, 0, 0, item, 0); }
static inline int cmwq_cancel_work_sync(struct cmwq_hub *hub, unsigned item, unsigned timeout)
{ return cmwq_hub_do_(hub, CMWQ_CANCEL_SYNC, 0, 0, item, timeout); }
static inline int cmwq_flush_work(struct cmwq_hub *hub, unsigned item, unsigned timeout)
{ return cmwq_hub_do_(hub, CMWQ_FLUSH_ITEM, 0, 0, item, timeout); }
static inline int cmwq_flush_delayed_work(struct cmwq_hub *hub, unsigned item, unsigned timeout)
{ return cmwq_hub_do_(hub, CMWQ_FLUSH_DELAYED, 0, 0, item, timeout); }
static inline int cmwq_flush_workqueue(struct cmwq_hub *hub, unsigned queue, unsigned timeout)
{ return cmwq_hub_do_(hub, CMWQ_FLUSH, 0, queue, 0, timeout); }
static inline int cmwq_drain_workqueue(struct cmwq_hub *hub, unsigned queue, unsigned timeout)
{ return cmwq_hub_do_(hub, CMWQ_DRAIN, 0, queue, 0, timeout); }
static inline int cmwq_destroy_workqueue(struct cmwq_hub *hub, unsigned queue, unsigned timeout)
{ return cmwq_hub_do_(hub, CMWQ_DESTROY, 0, queue, 0, timeout); }
static inline int cmwq_workqueue_set_max_active(struct cmwq_hub *hub, unsigned queue, unsigned max_active)
{ return cmwq_hub_do_(hub, CMWQ_SET_MAX, 0, queue, 0, max_active); }
static inline int cmwq_freeze_workqueues(struct cmwq_hub *hub) { return cmwq_hub_do_(hub, CMWQ_FREEZE, 0, 0, 0, 0); }
static inline int cmwq_thaw_workqueues(struct cmwq_hub *hub) { return cmwq_hub_do_(hub, CMWQ_THAW, 0, 0, 0, 0); }
/* Of a run, around what blocks: others of its pool may start meanwhile. */
static inline int cmwq_worker_sleeping(struct cmwq_hub *hub) { return cmwq_hub_do_(hub, CMWQ_SLEEP, 0, 0, 0, 0); }
static inline int cmwq_worker_running(struct cmwq_hub *hub) { return cmwq_hub_do_(hub, CMWQ_WAKE, 0, 0, 0, 0); }

/* Of a durable hub: returns once all that was called so far is on the disk. So many calls cost one sync. */
static inline int cmwq_hub_sync(struct cmwq_hub *hub)
{
    struct cmwq_run *run;
    uint32_t status = cmwq_hub_enter_(hub, &run);

    if (status == CMWQ_OK) status = hub->disk.is ? cmwq_disk_wait_(hub) : (uint32_t)CMWQ_REFUSED;
    if (status == CMWQ_OK && hub->disk.failed) status = CMWQ_DISK_FAILED;
    cmwq_hub_leave_calls_(hub);
    return -(int)status;
}

/* Has the journal take what there is by now, and waits until it has. For a program that is about to end by a signal. */
static inline void cmwq_hub_tell_all_(struct cmwq_hub *hub)
{
    struct cmwq_run *run;
    uint32_t status = cmwq_hub_enter_(hub, &run);
    uint64_t all = status == CMWQ_OK ? cmwq_board_len(&hub->board) : 0, upto = 0;

    if (status == CMWQ_OK && hub->writes && !hub->disk.is) cmwq_hub_name_(hub, hub->journal);
    while (status == CMWQ_OK && hub->writes && !hub->disk.is && !hub->deaf) {
        /* once more is handed out, what was handed out before is written */
        if (hub->handed >= all && (!hub->busy || (upto && hub->handed > upto))) break;
        if (hub->handed >= all && !upto) upto = hub->handed;
        if (hub->names) { /* who is named is woken first */
            cmwq_hub_unlock_(hub);
            pthread_mutex_lock(&hub->lock);
        } else {
            pthread_cond_wait(&hub->changed, &hub->lock);
        }
    }
    cmwq_hub_leave_calls_(hub);
}

/* Whether an item is pending (1), or runs (2), or both. */
static inline int cmwq_work_busy(struct cmwq_hub *hub, unsigned item)
{
    struct cmwq_here_ *here;
    struct cmwq_item state;
    uint32_t status = CMWQ_CLOSED;

    pthread_mutex_lock(&hub->lock);
    if (hub->state != CMWQ_NONE_) {
        here = cmwq_hub_here_(hub);
        status = here && !here->run ? CMWQ_NOT_NOW : item > UINT16_MAX ? CMWQ_REFUSED : CMWQ_OK;
    }
    if (status == CMWQ_OK && hub->disk.failed) status = CMWQ_DISK_FAILED;
    if (status == CMWQ_OK) status = cmwq_board_item(&hub->board, (uint16_t)item, &state);
    cmwq_hub_unlock_(hub);
    return status == CMWQ_OK ? (state.pending != CMWQ_NOT_PENDING) + 2 * (state.runs != 0) : -(int)status;
}

/* The number of the caller by which the calling thread makes its calls outside of work functions. */
static inline int cmwq_hub_caller(struct cmwq_hub *hub)
{
    struct cmwq_run *run;
    uint32_t status = cmwq_hub_enter_(hub, &run);
    uint8_t caller = status == CMWQ_OK ? cmwq_hub_caller_(hub) : 0;

    cmwq_hub_leave_calls_(hub);
    return status == CMWQ_OK ? caller : -(int)status;
}

/* Ends a hub. @keeps: nothing starts any more, and what is queued or delayed stays in the journal */
static inline int cmwq_hub_end_(struct cmwq_hub *hub, bool keeps)
{
    struct cmwq_here_ here = {NULL, NULL, NULL, false};
    char last[32];
    int status;

    pthread_mutex_lock(&hub->lock);
    status = hub->state == CMWQ_NONE_ ? CMWQ_CLOSED : cmwq_hub_here_(hub) ? CMWQ_NOT_NOW
             : hub->state != CMWQ_OPEN_ ? CMWQ_CLOSED : keeps && !hub->disk.is ? CMWQ_REFUSED : CMWQ_OK;
    if (status == CMWQ_OK && keeps) cmwq_hub_keep_(hub);
    else if (status == CMWQ_OK) cmwq_hub_stop_(hub);
    cmwq_hub_unlock_(hub);
    if (status == CMWQ_CLOSED && hub->forked) return cmwq_hub_free_(hub, -CMWQ_CLOSED);
    if (status != CMWQ_OK) return -status;
    pthread_mutex_lock(&hub->lock);
    while (hub->alive) {
        if (hub->unborn) cmwq_hub_bear_(hub);
        else pthread_cond_wait(&hub->changed, &hub->lock);
    }
    cmwq_hub_unlock_(hub);
    for (struct cmwq_party_ *party = hub->parties; party <= hub->clock; party++)
        if (party->started) pthread_join(party->thread, NULL);
    pthread_mutex_lock(&hub->lock);
    while (hub->inside) pthread_cond_wait(&hub->changed, &hub->lock);
    /* no call makes an entry any more; but calls are still refused, by the board, under the lock */
    status = keeps ? 0 : snprintf(last, sizeof last, "end %llu\n", (unsigned long long)cmwq_board_len(&hub->board));
    hub->over = true;
    cmwq_hub_name_(hub, hub->journal);
    cmwq_hub_unlock_(hub);
    if (hub->journal->started) pthread_join(hub->journal->thread, NULL);
    if (hub->disk.is) hub->disk.failed = !cmwq_disk_end_(hub, last, (size_t)status);
    if (hub->is.journal && !hub->deaf) hub->deaf = !cmwq_hub_tell_(hub, &here, last, (size_t)status);
    if (here.forked) return cmwq_hub_free_(hub, -CMWQ_CLOSED);
    pthread_mutex_lock(&hub->lock);
    while (hub->inside) pthread_cond_wait(&hub->changed, &hub->lock);
    hub->state = CMWQ_NONE_;
    pthread_cond_broadcast(&hub->changed);
    pthread_mutex_unlock(&hub->lock);
    while (__atomic_load_n(&hub->signalling, __ATOMIC_ACQUIRE)) sched_yield();
    return cmwq_hub_free_(hub, hub->disk.failed ? -CMWQ_DISK_FAILED : hub->deaf ? -CMWQ_NO_JOURNAL : CMWQ_OK);
}

/* Lets what is queued end, and gives all up. Calls that wait return -CMWQ_STOPPED. Not in a work function. */
static inline int cmwq_hub_close(struct cmwq_hub *hub) { return cmwq_hub_end_(hub, false); }
/* Of a durable hub: starts nothing more, lets the runs end, and keeps what is queued or delayed for the next open. */
static inline int cmwq_hub_leave(struct cmwq_hub *hub) { return cmwq_hub_end_(hub, true); }

/* Says for what is 0 what it means, and makes the shape. Return: whether all is within its limits */
static inline bool cmwq_options_fill_(struct cmwq_options *is, unsigned workers, unsigned waits,
                                      struct cmwq_shape *shape)
{
    is->cpus = is->cpus ? is->cpus : 1;
    is->workers = is->workers ? is->workers : workers;
    is->waits = is->waits ? is->waits : waits;
    is->keep = is->keep ? is->keep : 1024;
    is->room = is->room ? is->room : UINT64_C(1) << 62;
    is->tick_ns = is->tick_ns ? is->tick_ns : 1000000;
    is->spins = is->spins ? is->spins : 1000;
    is->each = is->each && is->durable;
    if (is->items > UINT16_MAX || is->cpus > 64 || is->workers > 64 || is->waits > 254 || is->keep > 1u << 30 ||
        is->callers > 254 - is->waits)
        return false;
    /* one hold makes at most so many entries: of time, of its calls, of the waits that were left, and of starts */
    shape->keep = is->keep + 3 * is->items + is->waits + CMWQ_BATCH + 16 + 2 * is->cpus * is->workers;
    shape->room = is->room;
    shape->items = (uint16_t)is->items;
    shape->cpus = (uint8_t)is->cpus;
    shape->workers = (uint8_t)is->workers;
    shape->callers = (uint8_t)(is->waits + is->callers + 1);
    return true;
}

/* Opens a hub, which is all zeros or was closed. Threads of workers start when they are first needed. At less than 0
   there is nothing to close. */
static inline int cmwq_hub_open(struct cmwq_hub *hub, const struct cmwq_options *options)
{
    struct cmwq_options is = *options;
    struct cmwq_shape shape;
    struct cmwq_here_ here = {NULL, NULL, NULL, false};
    uint8_t head[1 << 13];
    size_t len = 0;
    uint32_t status;

    if (__atomic_load_n(&hub->state, __ATOMIC_RELAXED) != CMWQ_NONE_) return -CMWQ_NOT_NOW;
    if (cmwq_version() != CMWQ_VERSION) {
        fprintf(stderr, "cmwq: cmwq_hub.h has version %u, and the library %u\n", CMWQ_VERSION, cmwq_version());
        return -CMWQ_OTHER_VERSION;
    }
    if (!cmwq_options_fill_(&is, 4, 32, &shape) || (is.durable && is.journal)) return -CMWQ_REFUSED;
    if (hub->forked) cmwq_hub_free_(hub, CMWQ_OK);
    memset(hub, 0, sizeof *hub);
    hub->is = is;
    hub->here = cmwq_top_;
    hub->shape = shape;
    hub->workers = 2 * is.cpus * is.workers;
    hub->own = is.callers + 1;
    hub->due = UINT64_MAX;
    hub->writes = is.journal || is.durable;
    hub->disk.is = is.durable != NULL;
    hub->disk.file = hub->disk.folder = hub->disk.lock = -1;
    hub->wakes.workers[0].kind = hub->wakes.callers[0] = CMWQ_NOBODY;
    pthread_mutex_init(&hub->lock, NULL);
    pthread_cond_init(&hub->changed, NULL);
    status = cmwq_board_open(&hub->board, &hub->shape, is.queues, is.queue_count, (uint8_t)is.waits);
    if (status == CMWQ_OK) status = cmwq_lines_open(&hub->lines, &hub->board);
    hub->works = (struct cmwq_work *)calloc(is.items, sizeof *hub->works);
    hub->parties = (struct cmwq_party_ *)calloc(hub->workers + is.waits + 2, sizeof *hub->parties);
    hub->threads = (pthread_t *)calloc(is.callers ? is.callers : 1, sizeof *hub->threads);
    if (status == CMWQ_OK) status = cmwq_head(&hub->shape, is.queues, is.queue_count, head, sizeof head, &len);
    if (status == CMWQ_OK && (!hub->works || !hub->parties || !hub->threads || !cmwq_hub_list_(hub)))
        status = CMWQ_NO_MEMORY;
    if (status != CMWQ_OK) return cmwq_hub_free_(hub, -(int)status);
    hub->clock = hub->parties + hub->workers + is.waits;
    hub->journal = hub->clock + 1;
    for (unsigned n = 0; n < is.items && is.works; n++) hub->works[n] = is.works[n];
    if (is.durable) status = (uint32_t)cmwq_disk_open_(hub, head, len);
    if (status != CMWQ_OK) return cmwq_hub_free_(hub, -(int)status);
    hub->begun = cmwq_hub_now_(hub);
    hub->state = CMWQ_OPEN_;
    hub->deaf = is.journal && !cmwq_hub_tell_(hub, &here, head, len);
    if (here.forked) return cmwq_hub_free_(hub, -CMWQ_CLOSED);
    if (cmwq_hub_start_(hub)) return CMWQ_OK;
    cmwq_hub_end_(hub, hub->disk.is);
    return -CMWQ_NO_THREAD;
}

#endif
