/*
 * A loop: workqueues in one thread, which the program drives from its own event loop. Nothing here blocks. A work
 * function that returns false has not ended: it is called again after cmwq_loop_resume() of its item, or when what it
 * waits for has ended. Its run sleeps meanwhile, so others of its pool may start.
 *
 * All calls are made in one thread. Each returns what the kernel's call returns (1: true, 0: false), or minus a status
 * of cmwq.h or cmwq_hub.h, which cmwq_why() says in words. docs/C.md has an example.
 */
#ifndef CMWQ_LOOP_H
#define CMWQ_LOOP_H
#include "cmwq_hub.h"
#include <sys/timerfd.h>
#include <unistd.h>

struct cmwq_loop;

/* What a work function gets. @calls, @result and @state are all 0 at first. */
struct cmwq_loop_run {
    struct cmwq_loop *loop; uint64_t number; uint16_t item; struct cmwq_who who;
    unsigned calls;                             /* how often the function was called before, in this run */
    int result;                                 /* what its last wait has returned */
    uintptr_t state;                            /* what the function likes */
    uint8_t party_;                             /* the caller that is lent to its wait, or 0 */
    bool goes_on_, asleep_, resumed_, over_, intensive_;
};
/* Return: whether the run has ended. No item is in two runs at once */
struct cmwq_loop_work { bool (*run)(struct cmwq_loop_run *run, void *data); void *data; };

/*
 * A wait that no run makes, which lies with the caller, and is all zeros beside the first two. cmwq_loop_run() or
 * cmwq_loop_close() calls @ended with what the wait returns. It may use the wait again, or free it.
 */
struct cmwq_loop_wait {
    void (*ended)(struct cmwq_loop_wait *wait, int result); void *data;
    struct cmwq_loop_wait *next_, **before_;    /* in line */
    struct cmwq_call call_; int result_; uint8_t party_; bool goes_on_;
};

struct cmwq_loop_options {
    struct cmwq_options hub;                    /* as of a hub, but 64 [workers] and 254 [waits]; no works, no spins,
                                                   no ticks, not @durable.
                                                   The journal gets what there is at the end of cmwq_loop_run() */
    const struct cmwq_loop_work *works;         /* one for each item [they do nothing] */
    uint64_t (*now)(void *data);                /* the time in nanoseconds [CLOCK_MONOTONIC] */
    void *now_data;
};

struct cmwq_loop {                              /* all zeros: none. It is never copied */
    struct cmwq_board board; struct cmwq_lines lines; struct cmwq_shape shape; struct cmwq_loop_options is;
    struct cmwq_loop_work *works; struct cmwq_loop_run *runs; /* of each item, and of each worker */
    struct cmwq_loop_wait **waits;              /* of each lent caller: who is told; NULL: a run is, or nobody */
    struct cmwq_loop_run **waiting;             /* of each lent caller: the run that waits */
    uint8_t *queue_of; bool *intensive;         /* the last queue of each item; of each queue */
    uint16_t *ready; bool *is_ready;            /* those who can go on: workers, and then callers; in a ring */
    unsigned parties, workers, first, readies;
    struct cmwq_loop_wait *line, **line_end;    /* waits that begin once a caller may be lent, the oldest first */
    struct cmwq_loop_run *current;              /* the run whose function is called now */
    struct cmwq_wakes wakes;
    uint64_t begun, handed, due, armed;         /* due: the tick of the next timer, 0: not known; armed: as the fd is */
    int fd;
    bool open, running, writing, stopped, frozen, deaf;
    bool lends;                                 /* a caller may be lent to the line */
};

/* ---- the board, and who can go on ---- */

static inline uint64_t cmwq_loop_now_(const struct cmwq_loop *loop)
{
    struct timespec now;

    if (loop->is.now) return loop->is.now(loop->is.now_data) - loop->begun;
    clock_gettime(CLOCK_MONOTONIC, &now);
    return (uint64_t)now.tv_sec * 1000000000u + (uint64_t)now.tv_nsec - loop->begun;
}

static inline void cmwq_loop_name_(struct cmwq_loop *loop, unsigned place)
{
    if (loop->is_ready[place]) return;
    loop->is_ready[place] = true;
    loop->ready[(loop->first + loop->readies++) % loop->parties] = (uint16_t)place;
}

/* Notes whom a call of the board has named. */
static inline uint32_t cmwq_loop_note_(struct cmwq_loop *loop, uint32_t status)
{
    struct cmwq_wakes *wakes = &loop->wakes;

    for (struct cmwq_who *who = wakes->workers; who < wakes->workers + CMWQ_NAMED && who->kind != CMWQ_NOBODY; who++)
        cmwq_loop_name_(loop, (2u * who->cpu + who->kind - 1u) * loop->shape.workers + who->index);
    for (unsigned k = 0; k < CMWQ_NAMED && wakes->callers[k] != CMWQ_NOBODY; k++)
        cmwq_loop_name_(loop, loop->workers + wakes->callers[k]);
    for (unsigned k = 0; wakes->all_workers && k < loop->workers; k++) cmwq_loop_name_(loop, k);
    for (unsigned k = loop->workers + 1; wakes->all_callers && k < loop->parties; k++) cmwq_loop_name_(loop, k);
    if (wakes->clock) loop->due = 0; /* there may be timers that a drain held back */
    wakes->workers[0].kind = wakes->callers[0] = CMWQ_NOBODY; /* as a call that isn't made leaves it so */
    wakes->all_workers = wakes->all_callers = wakes->clock = 0;
    if (loop->line && (cmwq_board_news(&loop->board) & CMWQ_LEFT_ENDED)) loop->lends = true;
    return status;
}

static inline void cmwq_loop_tell_(struct cmwq_loop *loop, const void *text, size_t len)
{
    loop->writing = true; /* so the journal's calls of the loop are refused */
    if (loop->is.hub.journal && !loop->deaf)
        loop->deaf = !loop->is.hub.journal(loop->is.hub.journal_data, (const char *)text, len);
    loop->writing = false;
}

/* Hands out what is kept, if that is more than so much. */
static inline void cmwq_loop_space_(struct cmwq_loop *loop, uint64_t most)
{
    uint8_t text[1 << 12];
    size_t len;

    if (cmwq_board_len(&loop->board) - loop->handed <= most) return;
    cmwq_board_hand_out(&loop->board, &loop->lines);
    loop->handed = cmwq_board_len(&loop->board);
    while (loop->is.hub.journal && !loop->deaf
           && cmwq_lines_write(&loop->lines, text, sizeof text, &len) == CMWQ_OK && len > 0)
        cmwq_loop_tell_(loop, text, len);
    cmwq_lines_forget(&loop->lines);
}

/* A call of one entry, by a run or by nobody's. */
static inline uint32_t cmwq_loop_enter_(struct cmwq_loop *loop, const struct cmwq_call *call, struct cmwq_reply *reply)
{
    cmwq_loop_space_(loop, loop->is.hub.keep);
    return cmwq_loop_note_(loop, cmwq_board_call(&loop->board, call, reply, &loop->wakes));
}

/* Lets the run sleep, or wakes it. If there is no room for its sleep, it stays awake. */
static inline void cmwq_loop_turn_(struct cmwq_loop *loop, struct cmwq_loop_run *run, uint8_t kind)
{
    struct cmwq_call call = {0, 0, 0, kind, 0, 0, run->who};
    struct cmwq_reply reply = {0, 0, 0, 0};

    if (run->asleep_ == (kind == CMWQ_SLEEP)) return;
    if (cmwq_loop_enter_(loop, &call, &reply) == CMWQ_OK) run->asleep_ = reply.kind == CMWQ_SLEPT;
}

/* Brings time up to this tick. */
static inline uint32_t cmwq_loop_advance_(struct cmwq_loop *loop, uint64_t tick)
{
    uint64_t now;
    uint32_t status = CMWQ_OK;

    while (status == CMWQ_OK && (now = cmwq_board_time(&loop->board)) < tick) {
        uint32_t ticks = tick - now < UINT32_MAX ? (uint32_t)(tick - now) : UINT32_MAX;

        cmwq_loop_space_(loop, loop->is.hub.keep);
        status = cmwq_loop_note_(loop, cmwq_board_advance(&loop->board, 0, ticks, &now, &loop->wakes));
        loop->due = 0;
    }
    return status;
}

/* When cmwq_loop_run() has something to do: the time in nanoseconds; 0: now; UINT64_MAX: at no time that is known. */
static inline uint64_t cmwq_loop_when_(struct cmwq_loop *loop)
{
    if (loop->readies || (loop->line && loop->lends)) return 0;
    if (loop->due == 0) loop->due = cmwq_board_due(&loop->board);
    return loop->due < UINT64_MAX / 2 / loop->is.hub.tick_ns ? loop->due * loop->is.hub.tick_ns : UINT64_MAX;
}

/* Sets the fd to when there is something to do. */
static inline void cmwq_loop_arm_(struct cmwq_loop *loop)
{
    struct itimerspec at = {{0, 0}, {0, 1}};
    uint64_t when;

    if (loop->fd < 0 || loop->running || (when = cmwq_loop_when_(loop)) == loop->armed) return;
    loop->armed = when;
    if (when == UINT64_MAX) at.it_value.tv_nsec = 0;
    if (when != 0 && when != UINT64_MAX) {
        at.it_value.tv_sec = (time_t)((when + loop->begun) / 1000000000u);
        at.it_value.tv_nsec = (long)((when + loop->begun) % 1000000000u);
    }
    timerfd_settime(loop->fd, TFD_TIMER_ABSTIME, &at, NULL);
}

/* ---- waits ---- */

/* A wait begins, of this run or of nobody's. Return: CMWQ_WAITS: it goes on; or as cmwq_board_begin() */
static inline uint32_t cmwq_loop_begin_(struct cmwq_loop *loop, struct cmwq_loop_run *run, struct cmwq_loop_wait *wait,
                                        struct cmwq_call *call, struct cmwq_reply *reply)
{
    uint8_t by = 0;
    uint32_t status;

    cmwq_loop_space_(loop, loop->is.hub.keep);
    status = cmwq_loop_note_(loop, cmwq_board_begin(&loop->board, call, &by, reply, &loop->wakes));
    if (status == CMWQ_OK && reply->kind == CMWQ_CROWD) status = CMWQ_NO_CALLER;
    if (status != CMWQ_WAITS) return status;
    loop->waits[by] = wait;
    loop->waiting[by] = run;
    if (run) {
        run->party_ = by;
        run->asleep_ = true;
        run->result = cmwq_hub_result_(CMWQ_OK, call->kind, reply);
    } else {
        wait->party_ = by;
        wait->goes_on_ = true;
        wait->result_ = cmwq_hub_result_(CMWQ_OK, call->kind, reply);
    }
    cmwq_loop_name_(loop, loop->workers + by); /* so that the board is asked */
    return status;
}

/* Takes the wait out of the line. */
static inline void cmwq_loop_unline_(struct cmwq_loop *loop, struct cmwq_loop_wait *wait)
{
    *wait->before_ = wait->next_;
    if (wait->next_) wait->next_->before_ = wait->before_;
    else loop->line_end = wait->before_;
    wait->before_ = NULL;
}

/* Adds it at the end of the line. */
static inline void cmwq_loop_line_(struct cmwq_loop *loop, struct cmwq_loop_wait *wait)
{
    wait->next_ = NULL;
    wait->before_ = loop->line ? loop->line_end : &loop->line;
    *wait->before_ = wait;
    loop->line_end = &wait->next_;
}

/* Begins the first wait in line. If it can't, no caller is lent to the line. Return: how many functions were called */
static inline int cmwq_loop_next_(struct cmwq_loop *loop)
{
    struct cmwq_loop_wait *wait = loop->line;
    struct cmwq_reply reply = {0, 0, 0, 0};
    uint32_t status = cmwq_loop_begin_(loop, NULL, wait, &wait->call_, &reply);

    loop->lends = status != CMWQ_NO_CALLER;
    if (!loop->lends) return 0;
    cmwq_loop_unline_(loop, wait);
    if (status == CMWQ_WAITS || !wait->ended) return 0;
    wait->ended(wait, cmwq_hub_result_(status, wait->call_.kind, &reply));
    return 1;
}

/* Asks the board whether the wait by this caller has ended, and tells whoever waits. Return: how many were called */
static inline int cmwq_loop_end_(struct cmwq_loop *loop, uint8_t by)
{
    struct cmwq_loop_run *run = loop->waiting[by];
    struct cmwq_loop_wait *wait = loop->waits[by];
    uint32_t status;

    if (!run && !wait) return 0;
    cmwq_loop_space_(loop, loop->is.hub.keep);
    status = cmwq_loop_note_(loop, cmwq_board_end(&loop->board, by, &loop->wakes));
    if (status == CMWQ_LOOK_AGAIN) cmwq_loop_name_(loop, loop->workers + by);
    if (status == CMWQ_WAITS || status == CMWQ_LOOK_AGAIN) return 0;
    loop->waits[by] = NULL;
    loop->waiting[by] = NULL;
    loop->lends = true;
    if (run) {
        run->party_ = 0;
        if (status == CMWQ_OK) run->asleep_ = false; /* its wake is made with the end */
        else run->result = -CMWQ_STOPPED;
        run->resumed_ = true;
        cmwq_loop_name_(loop, (unsigned)(run - loop->runs));
        return 0;
    }
    wait->goes_on_ = false;
    if (wait->ended) wait->ended(wait, status == CMWQ_OK ? wait->result_ : -CMWQ_STOPPED);
    return 1;
}

/* ---- workers ---- */

/* What a worker does that can go on. Return: how many functions it has called: none or one */
static inline int cmwq_loop_work_(struct cmwq_loop *loop, unsigned place)
{
    struct cmwq_loop_run *run = &loop->runs[place];
    struct cmwq_loop_work work;
    bool over = run->over_;
    int called = 0;

    if (!run->goes_on_) {
        struct cmwq_who who = run->who;
        uint64_t number;
        uint16_t item;

        cmwq_loop_space_(loop, loop->is.hub.keep);
        if (cmwq_loop_note_(loop, cmwq_board_start(&loop->board, &who, &item, &number, &loop->wakes)) != CMWQ_OK)
            return 0;
        memset(run, 0, sizeof *run);
        run->loop = loop;
        run->number = number;
        run->item = item;
        run->who = who;
        run->goes_on_ = run->resumed_ = true;
        run->intensive_ = loop->intensive[loop->queue_of[item]];
    }
    if (run->party_ || !run->resumed_) return 0;
    work = loop->works[run->item];
    run->resumed_ = false;
    if (!over) {
        cmwq_loop_turn_(loop, run, CMWQ_WAKE);
        loop->current = run;
        over = !work.run || work.run(run, work.data);
        loop->current = NULL;
        run->calls++;
        called = 1;
    }
    run->over_ = over;
    if (!over && !run->intensive_) cmwq_loop_turn_(loop, run, CMWQ_SLEEP);
    if (over && !run->party_) {
        cmwq_loop_turn_(loop, run, CMWQ_WAKE);
        cmwq_loop_space_(loop, loop->is.hub.keep);
        cmwq_loop_note_(loop, cmwq_board_finish(&loop->board, &run->who, &loop->wakes));
        run->goes_on_ = run->over_ = false;
        run->resumed_ = true;
    }
    if (run->resumed_) cmwq_loop_name_(loop, place); /* to start the next, or as it was resumed in its own call */
    return called;
}

/* ---- calls ---- */

/* Why no call can be made. */
static inline uint32_t cmwq_loop_status_(const struct cmwq_loop *loop)
{
    return !loop->open ? CMWQ_CLOSED : loop->writing ? CMWQ_NOT_NOW : CMWQ_OK;
}

/* A call that doesn't wait. */
static inline uint32_t cmwq_loop_call_(struct cmwq_loop *loop, struct cmwq_call *call, struct cmwq_reply *reply)
{
    uint32_t status = CMWQ_OK;

    if (call->kind <= CMWQ_MODIFY && loop->stopped) return CMWQ_STOPPED;
    if (call->number && (call->kind == CMWQ_DELAY || call->kind == CMWQ_MODIFY)) {
        uint64_t tick = loop->is.hub.tick_ns, now = cmwq_loop_now_(loop);
        uint64_t due = now / tick + call->number + (now % tick != 0);

        status = cmwq_loop_advance_(loop, now / tick);
        due -= due < cmwq_board_time(&loop->board) ? due : cmwq_board_time(&loop->board);
        if (status != CMWQ_OK || due > UINT32_MAX) return status == CMWQ_OK ? (uint32_t)CMWQ_REFUSED : status;
        call->number = (uint32_t)due;
    }
    status = cmwq_loop_enter_(loop, call, reply);
    if (status != CMWQ_OK) return status;
    if (reply->kind <= CMWQ_REBOOKED) loop->queue_of[call->item] = call->queue;
    if (reply->kind == CMWQ_FROZEN || reply->kind == CMWQ_THAWED) loop->frozen = reply->kind == CMWQ_FROZEN;
    if ((reply->kind == CMWQ_BOOKED || reply->kind == CMWQ_REBOOKED) && reply->number < loop->due)
        loop->due = reply->number;
    return status;
}

/* Every call. @number: ticks, or a width. @wait: of a call that waits; NULL: it is the run's */
static inline int cmwq_loop_do_(struct cmwq_loop *loop, uint8_t kind, unsigned cpu, unsigned queue, unsigned item,
                                uint64_t number, struct cmwq_loop_wait *wait)
{
    struct cmwq_call call = {0, (uint32_t)number, (uint16_t)item, kind, (uint8_t)queue, (uint8_t)cpu, {0, 0, 0}};
    bool waits = (kind >= CMWQ_FLUSH && kind <= CMWQ_CANCEL_SYNC) || kind == CMWQ_DESTROY;
    struct cmwq_loop_run *run = wait ? NULL : loop->current;
    struct cmwq_reply reply = {0, 0, 0, 0};
    uint32_t status = cmwq_loop_status_(loop);

    if (run && (waits || (kind <= CMWQ_CANCEL && !run->asleep_))) call.who = run->who;
    if (status == CMWQ_OK && (call.cpu != cpu || call.queue != queue || call.item != item || call.number != number))
        status = CMWQ_REFUSED;
    if (status == CMWQ_OK && waits && !wait && !run) status = CMWQ_REFUSED;
    if (status == CMWQ_OK && (wait ? wait->goes_on_ || wait->before_ : waits && run->party_)) status = CMWQ_NOT_NOW;
    if (status == CMWQ_OK)
        status = waits ? cmwq_loop_begin_(loop, run, wait, &call, &reply) : cmwq_loop_call_(loop, &call, &reply);
    if (status == CMWQ_NO_CALLER && wait) {
        wait->call_ = call;
        cmwq_loop_line_(loop, wait);
        status = CMWQ_WAITS;
    }
    if (loop->open) cmwq_loop_arm_(loop);
    return cmwq_hub_result_(status, kind, &reply);
}

static inline int cmwq_loop_queue_work_on(struct cmwq_loop *loop, unsigned cpu, unsigned queue, unsigned item)
{ return cmwq_loop_do_(loop, CMWQ_QUEUE, cpu, queue, item, 0, NULL); }
static inline int cmwq_loop_queue_delayed_work_on(struct cmwq_loop *loop, unsigned cpu, unsigned queue, unsigned item,
                                                  uint64_t ticks)
{ return cmwq_loop_do_(loop, CMWQ_DELAY, cpu, queue, item, ticks, NULL); }
static inline int cmwq_loop_mod_delayed_work_on(struct cmwq_loop *loop, unsigned cpu, unsigned queue, unsigned item,
                                                uint64_t ticks)
{ return cmwq_loop_do_(loop, CMWQ_MODIFY, cpu, queue, item, ticks, NULL); }
static inline int cmwq_loop_cancel_work(struct cmwq_loop *loop, unsigned item)
{ return cmwq_loop_do_(loop, CMWQ_CANCEL, 0, 0, item, 0, NULL); }
static inline int cmwq_loop_workqueue_set_max_active(struct cmwq_loop *loop, unsigned queue, unsigned max_active)
{ return cmwq_loop_do_(loop, CMWQ_SET_MAX, 0, queue, 0, max_active, NULL); }
static inline int cmwq_loop_freeze_workqueues(struct cmwq_loop *loop)
{ return cmwq_loop_do_(loop, CMWQ_FREEZE, 0, 0, 0, 0, NULL); }
static inline int cmwq_loop_thaw_workqueues(struct cmwq_loop *loop)
{ return cmwq_loop_do_(loop, CMWQ_THAW, 0, 0, 0, 0, NULL); }

/*
 * Calls that wait. Return: -CMWQ_WAITS: the wait goes on, and @wait is told when it has ended; another number: it is
 * over, and nobody is told. If as many waits go on as there may, @wait stands in line, and begins later.
 * @wait: NULL in a work function: its run waits. The function should return false then. It is called again when the
 * wait has ended, and run->result has what it returned. A run has one wait at a time
 */
static inline int cmwq_loop_cancel_work_sync(struct cmwq_loop *loop, unsigned item, struct cmwq_loop_wait *wait)
{ return cmwq_loop_do_(loop, CMWQ_CANCEL_SYNC, 0, 0, item, 0, wait); }
static inline int cmwq_loop_flush_work(struct cmwq_loop *loop, unsigned item, struct cmwq_loop_wait *wait)
{ return cmwq_loop_do_(loop, CMWQ_FLUSH_ITEM, 0, 0, item, 0, wait); }
static inline int cmwq_loop_flush_delayed_work(struct cmwq_loop *loop, unsigned item, struct cmwq_loop_wait *wait)
{ return cmwq_loop_do_(loop, CMWQ_FLUSH_DELAYED, 0, 0, item, 0, wait); }
static inline int cmwq_loop_flush_workqueue(struct cmwq_loop *loop, unsigned queue, struct cmwq_loop_wait *wait)
{ return cmwq_loop_do_(loop, CMWQ_FLUSH, 0, queue, 0, 0, wait); }
static inline int cmwq_loop_drain_workqueue(struct cmwq_loop *loop, unsigned queue, struct cmwq_loop_wait *wait)
{ return cmwq_loop_do_(loop, CMWQ_DRAIN, 0, queue, 0, 0, wait); }
static inline int cmwq_loop_destroy_workqueue(struct cmwq_loop *loop, unsigned queue, struct cmwq_loop_wait *wait)
{ return cmwq_loop_do_(loop, CMWQ_DESTROY, 0, queue, 0, 0, wait); }

/* Leaves a wait: nobody is told any more, and what the call began goes on. Return: 1; 0: it was over */
static inline int cmwq_loop_leave(struct cmwq_loop *loop, struct cmwq_loop_wait *wait)
{
    uint32_t status = cmwq_loop_status_(loop);

    if (status != CMWQ_OK) return -(int)status;
    if (wait->before_) {
        cmwq_loop_unline_(loop, wait);
        return 1;
    }
    if (!wait->goes_on_) return 0;
    cmwq_loop_space_(loop, loop->is.hub.keep);
    cmwq_loop_note_(loop, cmwq_board_leave(&loop->board, wait->party_, &loop->wakes));
    loop->waits[wait->party_] = NULL;
    loop->lends = true;
    wait->goes_on_ = false;
    cmwq_loop_arm_(loop);
    return 1;
}

/* What an item does. */
static inline uint32_t cmwq_loop_look_(struct cmwq_loop *loop, unsigned item, struct cmwq_item *state)
{
    uint32_t status = cmwq_loop_status_(loop);

    if (status == CMWQ_OK && item > UINT16_MAX) status = CMWQ_REFUSED;
    return status == CMWQ_OK ? cmwq_board_item(&loop->board, (uint16_t)item, state) : status;
}

/* Whether an item is pending (1), or runs (2), or both. */
static inline int cmwq_loop_work_busy(struct cmwq_loop *loop, unsigned item)
{
    struct cmwq_item state;
    uint32_t status = cmwq_loop_look_(loop, item, &state);

    return status == CMWQ_OK ? (state.pending != CMWQ_NOT_PENDING) + 2 * (state.runs != 0) : -(int)status;
}

/*
 * The run of this item can go on: its function is called again, in cmwq_loop_run(), and after its wait if it has one.
 * Return: 1; 0: the item doesn't run
 */
static inline int cmwq_loop_resume(struct cmwq_loop *loop, unsigned item)
{
    struct cmwq_item state;
    uint32_t status = cmwq_loop_look_(loop, item, &state);
    unsigned place;

    if (status != CMWQ_OK) return -(int)status;
    if (!state.runs) return 0;
    place = (2u * state.worker.cpu + state.worker.kind - 1u) * loop->shape.workers + state.worker.index;
    loop->runs[place].resumed_ = true;
    if (loop->current != &loop->runs[place] && !loop->runs[place].party_) cmwq_loop_name_(loop, place);
    cmwq_loop_arm_(loop);
    return 1;
}

/*
 * The run of this item leaves its wait: its function is called again, in cmwq_loop_run(), with -CMWQ_TIMED_OUT as
 * run->result, and what the call began goes on. Return: 1; 0: it doesn't wait
 */
static inline int cmwq_loop_leave_work(struct cmwq_loop *loop, unsigned item)
{
    struct cmwq_loop_run *run;
    struct cmwq_item state;
    uint32_t status = cmwq_loop_look_(loop, item, &state);
    unsigned place;

    if (status != CMWQ_OK) return -(int)status;
    place = (2u * state.worker.cpu + state.worker.kind - 1u) * loop->shape.workers + state.worker.index;
    run = &loop->runs[state.runs ? place : 0];
    if (!state.runs || !run->party_) return 0;
    cmwq_loop_space_(loop, loop->is.hub.keep);
    status = cmwq_loop_note_(loop, cmwq_board_leave(&loop->board, run->party_, &loop->wakes));
    if (status != CMWQ_OK) return -(int)status;
    loop->waiting[run->party_] = NULL;
    loop->lends = true;
    run->party_ = 0;
    run->result = -CMWQ_TIMED_OUT;
    run->resumed_ = true;
    if (loop->current != run) cmwq_loop_name_(loop, place);
    cmwq_loop_arm_(loop);
    return 1;
}

/* ---- the loop ---- */

/*
 * A file descriptor that is readable while cmwq_loop_run() has something to do, or once a timer is due; nothing is read
 * of it. It is the loop's, and the same in each call. Return: it, or minus a status; not with a clock of one's own
 */
static inline int cmwq_loop_fd(struct cmwq_loop *loop)
{
    uint32_t status = cmwq_loop_status_(loop);

    if (status == CMWQ_OK && loop->is.now) status = CMWQ_REFUSED;
    if (status != CMWQ_OK) return -(int)status;
    if (loop->fd < 0) {
        loop->fd = timerfd_create(CLOCK_MONOTONIC, TFD_NONBLOCK | TFD_CLOEXEC);
        loop->armed = UINT64_MAX;
        cmwq_loop_arm_(loop);
    }
    return loop->fd < 0 ? -CMWQ_NO_MEMORY : loop->fd;
}

/* In how many milliseconds cmwq_loop_run() has something to do, as a timeout of poll(): 0: now; -1: never by itself */
static inline int cmwq_loop_due(struct cmwq_loop *loop)
{
    uint64_t when = cmwq_loop_status_(loop) == CMWQ_OK ? cmwq_loop_when_(loop) : UINT64_MAX, now;

    if (when == 0 || when == UINT64_MAX) return when == 0 ? 0 : -1;
    now = cmwq_loop_now_(loop);
    if (when <= now) return 0;
    return (when - now) / 1000000u < INT_MAX ? (int)((when - now + 999999u) / 1000000u) : INT_MAX;
}

/*
 * Does what can be done now: fires what is due, starts runs, calls work functions again that were resumed, and tells
 * who waited. After CMWQ_BATCH functions it returns, and the fd is readable if there is more.
 * Return: how many functions it has called; -CMWQ_NOT_NOW: in one of them
 */
static inline int cmwq_loop_run(struct cmwq_loop *loop)
{
    uint32_t status = cmwq_loop_status_(loop);
    int called = 0;

    if (status == CMWQ_OK && loop->running) status = CMWQ_NOT_NOW;
    if (status != CMWQ_OK) return -(int)status;
    loop->running = true;
    if (loop->due == 0) loop->due = cmwq_board_due(&loop->board);
    if (loop->due != UINT64_MAX && loop->due <= cmwq_loop_now_(loop) / loop->is.hub.tick_ns
        && cmwq_loop_advance_(loop, cmwq_loop_now_(loop) / loop->is.hub.tick_ns) != CMWQ_OK)
        loop->due = UINT64_MAX; /* no room for the time: nothing fires any more */
    while (called < CMWQ_BATCH && (loop->readies || (loop->line && loop->lends))) {
        unsigned place;

        if (!loop->readies) {
            called += cmwq_loop_next_(loop);
            continue;
        }
        place = loop->ready[loop->first];
        loop->first = (loop->first + 1) % loop->parties;
        loop->readies--;
        loop->is_ready[place] = false;
        called += place < loop->workers ? cmwq_loop_work_(loop, place)
                                        : cmwq_loop_end_(loop, (uint8_t)(place - loop->workers));
    }
    cmwq_loop_space_(loop, 0);
    loop->running = false;
    cmwq_loop_arm_(loop);
    return called;
}

/* Takes nothing new, thaws, and takes back what is delayed. What is queued runs. Return: CMWQ_OK */
static inline int cmwq_loop_stop(struct cmwq_loop *loop)
{
    struct cmwq_call call = {0, 0, 0, CMWQ_CANCEL, 0, 0, {CMWQ_CALLER, 0, 0}};
    struct cmwq_reply reply;
    struct cmwq_item item;
    uint32_t status = cmwq_loop_status_(loop);

    if (status != CMWQ_OK) return -(int)status;
    for (unsigned n = 0; n < loop->shape.items && !loop->stopped; n++) {
        call.item = (uint16_t)n;
        if (cmwq_board_item(&loop->board, call.item, &item) == CMWQ_OK && item.pending == CMWQ_PENDING_TIMER)
            cmwq_loop_enter_(loop, &call, &reply);
    }
    loop->stopped = true;
    call.kind = CMWQ_THAW;
    if (loop->frozen) cmwq_loop_enter_(loop, &call, &reply);
    cmwq_loop_note_(loop, cmwq_board_stop(&loop->board, &loop->wakes));
    loop->due = UINT64_MAX;
    loop->lends = true;
    cmwq_loop_arm_(loop);
    return CMWQ_OK;
}

/* Whether it was stopped, and all has ended. */
static inline bool cmwq_loop_is_over(struct cmwq_loop *loop)
{
    return !loop->open || (loop->stopped && !loop->readies && !loop->line && cmwq_board_is_over(&loop->board));
}

/* Gives up what there is of a loop. */
static inline int cmwq_loop_free_(struct cmwq_loop *loop, int result)
{
    if (loop->fd >= 0) close(loop->fd);
    cmwq_board_close(&loop->board);
    cmwq_lines_close(&loop->lines);
    free(loop->works);
    free(loop->runs);
    free(loop->waits);
    free(loop->waiting);
    free(loop->queue_of);
    free(loop->intensive);
    free(loop->ready);
    free(loop->is_ready);
    memset(loop, 0, sizeof *loop);
    return result;
}

/*
 * Gives all up, at any time but in its own functions. Runs that have not ended are not called again, and waits are told
 * -CMWQ_STOPPED. After cmwq_loop_is_over() there are none. Return: CMWQ_OK, -CMWQ_NO_JOURNAL, or why it is not closed
 */
static inline int cmwq_loop_close(struct cmwq_loop *loop)
{
    char last[32];
    int len;
    uint32_t status = cmwq_loop_status_(loop);

    if (status == CMWQ_OK && loop->running) status = CMWQ_NOT_NOW;
    if (status != CMWQ_OK) return -(int)status;
    loop->running = loop->stopped = true;
    for (unsigned by = 1; by < loop->shape.callers; by++) cmwq_loop_end_(loop, (uint8_t)by); /* that are over */
    cmwq_loop_note_(loop, cmwq_board_fail(&loop->board, &loop->wakes));
    while (loop->line) cmwq_loop_next_(loop);
    for (unsigned by = 1; by < loop->shape.callers; by++) cmwq_loop_end_(loop, (uint8_t)by);
    cmwq_loop_space_(loop, 0);
    len = snprintf(last, sizeof last, "end %llu\n", (unsigned long long)cmwq_board_len(&loop->board));
    cmwq_loop_tell_(loop, last, (size_t)len);
    return cmwq_loop_free_(loop, loop->is.hub.journal && loop->deaf ? -CMWQ_NO_JOURNAL : CMWQ_OK);
}

/* Opens a loop, which is all zeros or was closed. At less than 0 there is nothing to close. */
static inline int cmwq_loop_open(struct cmwq_loop *loop, const struct cmwq_loop_options *options)
{
    struct cmwq_options is = options->hub;
    uint8_t head[1 << 13];
    size_t len = 0;
    uint32_t status;

    if (loop->open) return -CMWQ_NOT_NOW;
    if (cmwq_version() != CMWQ_VERSION) return -CMWQ_OTHER_VERSION;
    memset(loop, 0, sizeof *loop);
    loop->fd = -1;
    is.callers = 0; /* there is one thread */
    if (is.durable || !cmwq_options_fill_(&is, 64, 254, &loop->shape)) return -CMWQ_REFUSED;
    loop->is = *options;
    loop->is.hub = is;
    loop->workers = 2 * is.cpus * is.workers;
    loop->parties = loop->workers + is.waits + 1;
    loop->due = UINT64_MAX;
    loop->wakes.workers[0].kind = loop->wakes.callers[0] = CMWQ_NOBODY;
    status = cmwq_board_open(&loop->board, &loop->shape, is.queues, is.queue_count, (uint8_t)is.waits);
    if (status == CMWQ_OK) status = cmwq_lines_open(&loop->lines, &loop->board);
    if (status == CMWQ_OK) status = cmwq_head(&loop->shape, is.queues, is.queue_count, head, sizeof head, &len);
    if (status != CMWQ_OK) return cmwq_loop_free_(loop, -(int)status);
    loop->works = (struct cmwq_loop_work *)calloc(is.items, sizeof *loop->works);
    loop->runs = (struct cmwq_loop_run *)calloc(loop->workers, sizeof *loop->runs);
    loop->waits = (struct cmwq_loop_wait **)calloc(is.waits + 1, sizeof *loop->waits);
    loop->waiting = (struct cmwq_loop_run **)calloc(is.waits + 1, sizeof *loop->waiting);
    loop->queue_of = (uint8_t *)calloc(is.items, sizeof *loop->queue_of);
    loop->intensive = (bool *)calloc(is.queue_count, sizeof *loop->intensive);
    loop->ready = (uint16_t *)calloc(loop->parties, sizeof *loop->ready);
    loop->is_ready = (bool *)calloc(loop->parties, sizeof *loop->is_ready);
    if (!loop->works || !loop->runs || !loop->waits || !loop->waiting || !loop->queue_of || !loop->intensive
        || !loop->ready || !loop->is_ready)
        return cmwq_loop_free_(loop, -CMWQ_NO_MEMORY);
    for (unsigned n = 0; n < is.items && options->works; n++) loop->works[n] = options->works[n];
    for (size_t n = 0; n < is.queue_count; n++) loop->intensive[n] = is.queues[n].intensive != 0;
    for (unsigned k = 0; k < loop->workers; k++) {
        struct cmwq_who *who = &loop->runs[k].who;

        who->kind = k / loop->shape.workers % 2 ? CMWQ_HIGH_WORKER : CMWQ_WORKER;
        who->index = (uint8_t)(k % loop->shape.workers);
        who->cpu = (uint8_t)(k / loop->shape.workers / 2);
        cmwq_loop_name_(loop, k); /* it rests from its first look on */
    }
    loop->begun = cmwq_loop_now_(loop);
    loop->open = true;
    cmwq_loop_tell_(loop, head, len);
    return CMWQ_OK;
}

#endif
