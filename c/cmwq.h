/*
 * cmwq for C: a workqueue runtime of one thread (the Book), and a hub without threads (a board), whose every return
 * value is proved to be the one of the definitions (docs/SEMANTICS.md; docs/C.md says what is proved for a C caller,
 * and what a caller must keep to).
 *
 * Link libcmwq_c.a, or libcmwq.so. It takes memory by malloc, and only in cmwq_open(), cmwq_check(), cmwq_resume(),
 * cmwq_board_open(), cmwq_lines_open() and cmwq_head(). It has no thread, lock, clock or state of its own.
 */
#ifndef CMWQ_H
#define CMWQ_H

#include <stdbool.h>
#include <stddef.h>
#include <stdint.h>

#ifdef __cplusplus
extern "C" {
#define CMWQ_ASSERT(holds) static_assert(holds, "cmwq.h")
#else
#define CMWQ_ASSERT(holds) _Static_assert(holds, "cmwq.h")
#endif

/* One version for the program, the library, the crate and the package: major * 1000000 + minor * 1000 + patch. */
#define CMWQ_VERSION 1000000

/** cmwq_version() - returns the version of the library, which should be CMWQ_VERSION */
uint32_t cmwq_version(void);

/**
 * enum cmwq_status - what calls return
 * @CMWQ_OK: done. At every other status up to @CMWQ_NO_CALLER nothing has changed: neither the book, the board or the
 * lines, nor what the pointers lead to.
 * @CMWQ_REFUSED: no such call, caller, worker, item or entry; or a shape outside the limits
 * @CMWQ_CLOSED: the handle has no book, no board or no lines
 * @CMWQ_FULL: no room for the entry and for what would be owed then, or for its ticks
 * @CMWQ_NO_MEMORY: malloc gave none
 * @CMWQ_SHORT: the buffer doesn't hold the line (CMWQ_LINE bytes always do), or the calls
 * @CMWQ_CROWDED: as many entries are kept as may be: read them, and call cmwq_forget(); of a board: hand them out by
 * cmwq_board_hand_out()
 * @CMWQ_ILLEGAL: of cmwq_check() and cmwq_resume() alone: the history isn't legal, and the line says where. The line is
 * written
 *
 * Of boards alone:
 * @CMWQ_STOPPED: the board was stopped: callers begin nothing
 * @CMWQ_FAILED: the board has failed: nobody makes an entry
 * @CMWQ_NOT_NOW: it isn't possible at this point: the worker has no run that is awake, or has one, or nobody waits by
 * this caller
 * @CMWQ_ITSELF: the run would wait for its own end
 * @CMWQ_DEADLOCK: the wait could never end, because of runs that wait
 * @CMWQ_NO_CALLER: as many waits are under way as callers are lent
 *
 * At these the call is done too:
 * @CMWQ_WAITS: the wait goes on
 * @CMWQ_RESTS: the worker has nothing to start: it rests until it is named
 * @CMWQ_OVER: there will be nothing to do any more
 * @CMWQ_LOOK_AGAIN: nobody is asleep: make the same call again
 */
enum cmwq_status {
    CMWQ_OK,
    CMWQ_REFUSED,
    CMWQ_CLOSED,
    CMWQ_FULL,
    CMWQ_NO_MEMORY,
    CMWQ_SHORT,
    CMWQ_CROWDED,
    CMWQ_ILLEGAL,
    CMWQ_STOPPED,
    CMWQ_FAILED,
    CMWQ_NOT_NOW,
    CMWQ_ITSELF,
    CMWQ_DEADLOCK,
    CMWQ_NO_CALLER,
    CMWQ_WAITS,
    CMWQ_RESTS,
    CMWQ_OVER,
    CMWQ_LOOK_AGAIN
};

/* No line that the library writes is longer, with its line feed. */
#define CMWQ_LINE 256

/**
 * struct cmwq_book - a book, or none
 *
 * It lies with the caller, begins as all zeros (struct cmwq_book book = {0}), and is changed by the calls below alone:
 * never copy one, and change no field. One call at a time on each; under a lock of yours any thread may make it.
 */
struct cmwq_book { void *at; bool live; };

/**
 * struct cmwq_shape - what a book or a board is made of (docs/FORMATS.md)
 * @room: how many entries there may be, with those that are owed; up to 2^62
 * @keep: how many entries are kept at once; as many as @room: none need be forgotten
 * @items: 1 to 65,535 (the work_structs)
 * @cpus: 1 to 64; numbers, not processors
 * @workers: 1 to 64 in each of a CPU's two pools
 * @callers: 1 to 255
 */
struct cmwq_shape { uint64_t room; uint32_t keep; uint16_t items; uint8_t cpus, workers, callers; };

/**
 * struct cmwq_queue - a queue, as alloc_workqueue() makes it
 * @max_active: 1 to 512
 * @high: not 0: WQ_HIGHPRI
 * @intensive: not 0: WQ_CPU_INTENSIVE
 * @freezable: not 0: WQ_FREEZABLE
 */
struct cmwq_queue { uint16_t max_active; uint8_t high, intensive, freezable; };

enum cmwq_who_kind { CMWQ_CALLER, CMWQ_WORKER, CMWQ_HIGH_WORKER };

/**
 * struct cmwq_who - who calls: caller @index, or worker @index of the normal or the high pool of @cpu
 * A work function calls as the worker that runs it.
 */
struct cmwq_who { uint8_t kind, index, cpu; };

enum cmwq_kind {            /* what is read beside who                  the kernel's call */
    CMWQ_QUEUE,             /* item queue cpu                           queue_work_on() */
    CMWQ_DELAY,             /* item queue cpu, number: ticks            queue_delayed_work_on() */
    CMWQ_MODIFY,            /* item queue cpu, number: ticks            mod_delayed_work_on() */
    CMWQ_CANCEL,            /* item                                     cancel_work(), cancel_delayed_work() */
    CMWQ_TICK,              /* number: ticks that went by               jiffies */
    CMWQ_FIRE,              /*                                          delayed_work_timer_fn() */
    CMWQ_FLUSH,             /* queue                                    flush_workqueue(): begins */
    CMWQ_DRAIN,             /* queue                                    drain_workqueue(): begins */
    CMWQ_FLUSH_ITEM,        /* item                                     flush_work(): begins */
    CMWQ_FLUSH_DELAYED,     /* item                                     flush_delayed_work(): begins */
    CMWQ_CANCEL_SYNC,       /* item                                     cancel_work_sync(): begins */
    CMWQ_END,               /* ticket                                   the return of a call that began to wait */
    CMWQ_TAKE,              /* worker                                   process_one_work(): begins */
    CMWQ_FINISH,            /* worker                                   process_one_work(): ends */
    CMWQ_SLEEP,             /* worker                                   wq_worker_sleeping() */
    CMWQ_WAKE,              /* worker                                   wq_worker_running() */
    CMWQ_RETIRE,            /* worker                                   idle_worker_timeout() */
    CMWQ_SET_MAX,           /* queue, number: max_active, 1 or more     workqueue_set_max_active() */
    CMWQ_FREEZE,            /*                                          freeze_workqueues_begin() */
    CMWQ_THAW,              /*                                          thaw_workqueues() */
    CMWQ_DESTROY            /* queue                                    destroy_workqueue(): begins */
};

/* struct cmwq_call - a call. What its kind doesn't name isn't read; of an entry it is 0. */
struct cmwq_call { uint64_t ticket; uint32_t number; uint16_t item; uint8_t kind, queue, cpu; struct cmwq_who who; };

enum cmwq_reply_kind {      /* what it has                              what the kernel's call returns */
    CMWQ_YES,               /* number: the queueing                     queue_work_on(): true; mod_delayed_work_on(): */
                            /*                                          false */
    CMWQ_BOOKED,            /* number: the tick for which it is set     queue_delayed_work_on(): true; */
                            /*                                          mod_delayed_work_on(): false */
    CMWQ_AGAIN,             /* number: the queueing                     mod_delayed_work_on(): true */
    CMWQ_REBOOKED,          /* number: the tick                         mod_delayed_work_on(): true */
    CMWQ_NO,                /*                                          false: it was pending, or wasn't */
    CMWQ_FOREIGN,           /*                                          (the item runs on another queue) */
    CMWQ_DRAINING,          /*                                          (the queue is drained, or gone) */
    CMWQ_MISUSE,            /*                                          (not possible at this point) */
    CMWQ_CANCELLED,         /* number: the queueing                     cancel_work(): true */
    CMWQ_UNBOOKED,          /*                                          cancel_delayed_work(): true */
    CMWQ_NOW,               /* number: the tick it is now               jiffies */
    CMWQ_FIRED,             /* item, number: its queueing */
    CMWQ_NOTHING,           /*                                          (none is due, none waits) */
    CMWQ_TICKET,            /* number: the ticket */
    CMWQ_TICKET_QUEUED,     /* number: the ticket and the queueing */
    CMWQ_TICKET_CANCELLED,  /* number: the ticket, other: the queueing  cancel_work_sync(): true */
    CMWQ_TICKET_UNBOOKED,   /* number: the ticket                       cancel_work_sync(): true */
    CMWQ_TICKET_NO,         /* number: the ticket                       cancel_work_sync(): false */
    CMWQ_IDLE,              /*                                          flush_work(): false */
    CMWQ_CROWD,             /*                                          (the caller has 64 unended tickets) */
    CMWQ_DONE,              /*                                          the wait is over */
    CMWQ_WAITING,           /* number: a queueing for which it waits */
    CMWQ_STARTED,           /* number: the queueing */
    CMWQ_STARTED_ENLIST,    /* number: the queueing, other: a worker that is enlisted */
    CMWQ_HELD,              /*                                          (another run holds the pool) */
    CMWQ_FINISHED,          /* number: the queueing */
    CMWQ_SLEPT,
    CMWQ_WOKE,
    CMWQ_RETIRED,
    CMWQ_KEPT,
    CMWQ_WIDTH,             /* number: the max_active that holds */
    CMWQ_FROZEN,
    CMWQ_THAWED,
    CMWQ_GONE,              /*                                          destroy_workqueue() is over */
    CMWQ_TIMERS             /*                                          (an item is delayed on the queue) */
};

/* struct cmwq_reply - a reply. What its kind doesn't have is 0. */
struct cmwq_reply { uint64_t number, other; uint16_t item; uint8_t kind; };

/* struct cmwq_entry - an entry of the history: the call, its how many-th entry of that who it is, from 0, and the
   reply */
struct cmwq_entry { uint64_t serial; struct cmwq_call call; struct cmwq_reply reply; };

/**
 * cmwq_open() - opens a book with no entries; one that the handle has is closed
 * @queues: @len of them, 1 to 255
 * Return: CMWQ_OK; CMWQ_REFUSED; CMWQ_NO_MEMORY. It takes some 50 bytes for each entry that may be kept, and beside
 * that what the shape asks for: up to 5 MB with 4 CPUs, 256 items, 64 callers and queues, and 750 MB with as many of
 * each as there may be.
 */
uint32_t cmwq_open(struct cmwq_book *book, const struct cmwq_shape *shape, const struct cmwq_queue *queues, size_t len);

/** cmwq_close() - gives up the book, if there is one; more than once does no harm. Its memory is free then. */
void cmwq_close(struct cmwq_book *book);

/**
 * cmwq_step() - makes a call: the history has one entry more, with the one reply of the definitions
 * Return: CMWQ_OK and *@reply; CMWQ_REFUSED; CMWQ_CLOSED; CMWQ_FULL; CMWQ_CROWDED. Takes no memory and never waits.
 */
uint32_t cmwq_step(struct cmwq_book *book, const struct cmwq_call *call, struct cmwq_reply *reply);

/**
 * cmwq_step_line() - the same by lines of text, as `cmwq step` reads and writes them
 * @line: a call such as "c0 queue 0 0 0", without a line feed
 * @out: takes the line of the entry with its line feed, *@written bytes; no 0 after it
 * Return: as cmwq_step(); CMWQ_SHORT.
 */
uint32_t cmwq_step_line(struct cmwq_book *book, const uint8_t *line, size_t line_len, uint8_t *out, size_t out_len,
                        size_t *written);

/** cmwq_would() - says what cmwq_step() would, and makes nothing. Return: as cmwq_step(). */
uint32_t cmwq_would(struct cmwq_book *book, const struct cmwq_call *call, struct cmwq_reply *reply);

/**
 * cmwq_ready() - whether this ticket stands and waits for nothing: its CMWQ_END would return done, or gone. False of a
 * closed handle.
 */
bool cmwq_ready(struct cmwq_book *book, uint64_t ticket);

/**
 * cmwq_bits() - work_busy(): 1 if the item is pending, plus 2 if it runs
 * Return: CMWQ_OK; CMWQ_REFUSED; CMWQ_CLOSED.
 */
uint32_t cmwq_bits(struct cmwq_book *book, uint16_t item, uint8_t *bits);

/** cmwq_serial() - how many entries a caller or worker has. Return: CMWQ_OK; CMWQ_REFUSED; CMWQ_CLOSED. */
uint32_t cmwq_serial(struct cmwq_book *book, const struct cmwq_who *who, uint64_t *serial);

/* Counts, 0 of a closed handle: the entries; how many more there is room for, the owed among them; the forgotten ones;
   open queueings; active ones. */
uint64_t cmwq_len(struct cmwq_book *book);
uint64_t cmwq_room_left(struct cmwq_book *book);
uint64_t cmwq_first(struct cmwq_book *book);
uint32_t cmwq_open_count(struct cmwq_book *book);
uint32_t cmwq_active_count(struct cmwq_book *book);

/**
 * cmwq_entry() - the entry with this number; kept are those from cmwq_first() to before cmwq_len()
 * cmwq_entry_line() - its line, with its line feed
 * cmwq_forget() - forgets all that are kept, so that a history that runs on takes as many more; what later calls return
 * stays that of the whole history
 * Return: CMWQ_OK; CMWQ_REFUSED: it isn't kept; CMWQ_CLOSED; CMWQ_SHORT.
 */
uint32_t cmwq_entry(struct cmwq_book *book, uint64_t number, struct cmwq_entry *entry);
uint32_t cmwq_entry_line(struct cmwq_book *book, uint64_t number, uint8_t *out, size_t out_len, size_t *written);
uint32_t cmwq_forget(struct cmwq_book *book);

/**
 * cmwq_check() - judges a whole history file, of any format, as `cmwq check`; needs no book
 * @out: takes its line: "legal <entries>", or the first entry that is wrong and what should stand there
 * Return: CMWQ_OK: legal; CMWQ_ILLEGAL; CMWQ_REFUSED: no history, nothing is written; CMWQ_NO_MEMORY; CMWQ_SHORT.
 */
uint32_t cmwq_check(const uint8_t *text, size_t len, uint8_t *out, size_t out_len, size_t *written);

/**
 * cmwq_resume() - the calls by which a new history takes over what an old one left, as `cmwq resume --front` prints
 * them; needs no book
 * @text: the old history, of any format, or a front of it: what stands after its last line feed is left out, up to 120
 * bytes
 * @left_out: a run of item k that was broken off is not queued again if left_out[k] isn't 0, where k < @left_out_len
 * @shape: takes the shape of the old history; its @keep is 0
 * @queues: takes how many queues that has
 * @calls: takes the calls, all of caller 0, *@count of them: 3 * *@queues + @items + 2 always hold them
 * @line: takes, at CMWQ_REFUSED and CMWQ_ILLEGAL alone, the number of the line that is wrong, from 1; 0: a line is too
 * long, or there are too many
 * Return: CMWQ_OK; CMWQ_ILLEGAL; CMWQ_REFUSED: no history; CMWQ_NO_MEMORY; CMWQ_SHORT.
 */
uint32_t cmwq_resume(const uint8_t *text, size_t len, const uint8_t *left_out, size_t left_out_len,
                     struct cmwq_shape *shape, size_t *queues, struct cmwq_call *calls, size_t calls_len,
                     size_t *count, uint64_t *line);

/*
 * Boards. A board is a hub without threads: it decides what its callers and workers get, who sleeps, and who is to be
 * woken. A shell has the threads. It locks, makes one call, unlocks, and wakes those whom struct cmwq_wakes names.
 */

/* How many workers, and how many callers, are named one by one. */
#define CMWQ_NAMED 8

/* The kind of no worker, and the number of no caller. */
#define CMWQ_NOBODY 255

/**
 * struct cmwq_wakes - whom to wake once the lock is let go
 * @workers: one by one; the first of kind CMWQ_NOBODY ends them
 * @callers: lent callers that wait, by their numbers; the first CMWQ_NOBODY ends them
 * @all_workers: not 0: all workers, in place of those
 * @all_callers: not 0: all lent callers, in place of those
 * @clock: not 0: whoever keeps the time. A drain has ended, so a timer may fire earlier: see cmwq_board_due()
 * Each call writes the whole of it where it is done, and leaves it as it was at any other status.
 */
struct cmwq_wakes {
    struct cmwq_who workers[CMWQ_NAMED];
    uint8_t callers[CMWQ_NAMED];
    uint8_t all_workers, all_callers, clock;
};

/**
 * struct cmwq_board - a hub without threads, or none
 * struct cmwq_lines - entries that were handed out, until they are written as text; or none
 *
 * As a book, each lies with the caller, begins as all zeros, is never copied, and is changed by the calls below alone.
 * One call at a time on each. The calls of a board are made under one lock of the shell's. Those on lines need it at
 * cmwq_lines_open() and cmwq_board_hand_out() alone.
 */
struct cmwq_board { void *at; bool live; };
struct cmwq_lines { void *at; bool live; };

enum cmwq_pending { CMWQ_NOT_PENDING, CMWQ_PENDING_TIMER, CMWQ_PENDING_QUEUED };

/**
 * struct cmwq_item - what an item does
 * @number: of its queueing that has not started; or the tick at which its timer is due; or 0
 * @run: the number of the queueing that @worker runs, or 0
 * @pending: enum cmwq_pending
 * @queue, @cpu: where it is queued or delayed, or 0
 * @runs: not 0: @worker runs it
 * @worker: that worker, or all 0
 */
struct cmwq_item { uint64_t number, run; uint8_t pending, queue, cpu, runs; struct cmwq_who worker; };

/**
 * cmwq_board_open() - opens a board with no entries; one that the handle has is closed
 * @shape: @keep entries are kept at once, or as many as two calls may make (twice two more than the items) if that is
 * more
 * @queues: @len of them, 1 to 255
 * @lent: so many callers, the last of the shape, are lent to waits; the others are the shell's own
 * Return: CMWQ_OK; CMWQ_REFUSED: the shape is outside the limits, or has fewer callers than @lent; CMWQ_NO_MEMORY.
 * No later call of the board takes memory.
 */
uint32_t cmwq_board_open(struct cmwq_board *board, const struct cmwq_shape *shape, const struct cmwq_queue *queues,
                         size_t len, uint8_t lent);

/** cmwq_board_close() - gives up the board, if there is one; more than once does no harm. Its memory is free then. */
void cmwq_board_close(struct cmwq_board *board);

/**
 * cmwq_board_call() - makes one entry: of a worker or of a caller of the shell's own CMWQ_QUEUE, CMWQ_DELAY,
 * CMWQ_MODIFY, CMWQ_CANCEL, CMWQ_SET_MAX, CMWQ_FREEZE and CMWQ_THAW; of a worker also CMWQ_SLEEP, CMWQ_WAKE and
 * CMWQ_RETIRE (enum cmwq_kind has the kernel's calls)
 * Return: CMWQ_OK and *@reply; CMWQ_REFUSED: also another kind, or a lent caller; CMWQ_CLOSED; CMWQ_FULL; CMWQ_CROWDED;
 * CMWQ_STOPPED; CMWQ_FAILED.
 */
uint32_t cmwq_board_call(struct cmwq_board *board, const struct cmwq_call *call, struct cmwq_reply *reply,
                         struct cmwq_wakes *wakes);

/**
 * cmwq_board_start() - the worker starts the next queueing of its pool, as process_one_work() does
 * Return: CMWQ_OK: it runs *@item, by the queueing *@number; CMWQ_RESTS: there is nothing to start, and the worker
 * rests from now on until it is named; CMWQ_OVER: its thread may end; CMWQ_REFUSED: no such worker; CMWQ_CLOSED;
 * CMWQ_CROWDED; CMWQ_NOT_NOW: it has a run. *@wakes is written at the first three.
 */
uint32_t cmwq_board_start(struct cmwq_board *board, const struct cmwq_who *worker, uint16_t *item, uint64_t *number,
                          struct cmwq_wakes *wakes);

/**
 * cmwq_board_finish() - the worker's run ends, as process_one_work() returns; and the worker is sent to the reserve if
 * it should be, as by idle_worker_timeout()
 * Return: CMWQ_OK; CMWQ_REFUSED: no such worker; CMWQ_CLOSED; CMWQ_FULL; CMWQ_CROWDED; CMWQ_FAILED; CMWQ_NOT_NOW: it
 * has no run that is awake.
 */
uint32_t cmwq_board_finish(struct cmwq_board *board, const struct cmwq_who *worker, struct cmwq_wakes *wakes);

/**
 * cmwq_board_begin() - a wait begins, by a lent caller: flush_workqueue(), drain_workqueue(), destroy_workqueue(),
 * flush_work(), flush_delayed_work() or cancel_work_sync()
 * @call: CMWQ_FLUSH, CMWQ_DRAIN, CMWQ_DESTROY, CMWQ_FLUSH_ITEM, CMWQ_FLUSH_DELAYED or CMWQ_CANCEL_SYNC. Of a worker:
 * its run waits, and sleeps meanwhile if it is awake. Of a caller: nobody's run waits, and the index isn't read. Such a
 * wait goes on by a ticket of the same goal that was left, if a new one would wait for nothing more; then no entry is
 * made
 * Return: CMWQ_OK: it has ended, and *@reply says how; CMWQ_WAITS: *@party is the lent caller, and *@reply has the
 * ticket: call cmwq_board_end() until it returns something else; CMWQ_REFUSED; CMWQ_CLOSED; CMWQ_FULL; CMWQ_CROWDED;
 * CMWQ_STOPPED; CMWQ_FAILED; CMWQ_NOT_NOW: the worker has no run, or its run waits already; CMWQ_ITSELF;
 * CMWQ_DEADLOCK; CMWQ_NO_CALLER.
 * *@reply and *@wakes are written at the first two, *@party at CMWQ_WAITS alone.
 */
uint32_t cmwq_board_begin(struct cmwq_board *board, const struct cmwq_call *call, uint8_t *party,
                          struct cmwq_reply *reply, struct cmwq_wakes *wakes);

/**
 * cmwq_board_end() - ends the wait of this party if it is ready: what drain_workqueue(), flush_work() and the others do
 * when they return. After a drain what is due is fired, and a run that went to sleep for the wait is awake again
 * Return: CMWQ_OK: the wait has ended; CMWQ_WAITS: the party sleeps until it is named, and then the call is made again;
 * CMWQ_LOOK_AGAIN: make it again at once; CMWQ_OVER: the wait will never end; CMWQ_REFUSED: no lent caller;
 * CMWQ_CLOSED; CMWQ_CROWDED; CMWQ_FAILED; CMWQ_NOT_NOW: nobody waits by it. *@wakes is written at the first four.
 */
uint32_t cmwq_board_end(struct cmwq_board *board, uint8_t party, struct cmwq_wakes *wakes);

/**
 * cmwq_board_leave() - nobody waits by this party any more, and the caller may be lent again. Its ticket is ended once
 * it is ready, by cmwq_board_call(), cmwq_board_finish(), cmwq_board_end() or cmwq_board_leave(), which name nobody for
 * that, or a later wait goes on by it. If a run waited, it waits no more, but no entry says so: a run that was awake
 * when the wait began sleeps until its worker makes CMWQ_WAKE
 * Return: CMWQ_OK; CMWQ_REFUSED: no lent caller; CMWQ_CLOSED; CMWQ_FAILED; CMWQ_NOT_NOW: nobody waits by it.
 */
uint32_t cmwq_board_leave(struct cmwq_board *board, uint8_t party, struct cmwq_wakes *wakes);

/**
 * cmwq_board_advance() - so many ticks (jiffies) go by, and what is due is fired, as by delayed_work_timer_fn()
 * It fires until a fire finds nothing, there is no room, or as often as there are items. So where nothing is due, it
 * makes two entries.
 * @caller: one of the shell's own
 * Return: CMWQ_OK, and *@now is the tick that it is; CMWQ_REFUSED: no caller of the shell's own; CMWQ_CLOSED;
 * CMWQ_FULL; CMWQ_CROWDED; CMWQ_STOPPED; CMWQ_FAILED.
 */
uint32_t cmwq_board_advance(struct cmwq_board *board, uint8_t caller, uint32_t ticks, uint64_t *now,
                            struct cmwq_wakes *wakes);

/** cmwq_board_time() - the tick that it is (jiffies); 0 of a closed handle */
uint64_t cmwq_board_time(struct cmwq_board *board);

/** cmwq_board_due() - the least tick at which a timer may fire; UINT64_MAX: none, or closed. It looks at each item. */
uint64_t cmwq_board_due(struct cmwq_board *board);

/** cmwq_board_item() - what an item does. Return: CMWQ_OK and *@state; CMWQ_REFUSED: no such item; CMWQ_CLOSED. */
uint32_t cmwq_board_item(struct cmwq_board *board, uint16_t item, struct cmwq_item *state);

/**
 * cmwq_board_stop() - callers begin nothing from now on; runs and waits go on. Everybody is named
 * cmwq_board_fail() - nobody makes an entry from now on. Everybody is named
 * Return: CMWQ_OK; CMWQ_CLOSED.
 */
uint32_t cmwq_board_stop(struct cmwq_board *board, struct cmwq_wakes *wakes);
uint32_t cmwq_board_fail(struct cmwq_board *board, struct cmwq_wakes *wakes);

/**
 * cmwq_board_news() - what has changed since this was called last, of which no call tells otherwise; 0 of a closed
 * handle
 * Return: 0, or the sum of enum cmwq_news:
 * @CMWQ_LEFT_ENDED: a ticket that was left has ended. So its caller may be lent again, if it had as many as it may have
 * @CMWQ_DUE_EARLIER: a drain has ended, or an item was delayed. So cmwq_board_due() may be less than it was
 */
enum cmwq_news { CMWQ_LEFT_ENDED = 1, CMWQ_DUE_EARLIER = 2 };
uint32_t cmwq_board_news(struct cmwq_board *board);

/** cmwq_board_is_over() - whether nobody will have anything to do any more; true of a closed handle */
bool cmwq_board_is_over(struct cmwq_board *board);

/** cmwq_board_len() - how many entries there are, with those that were handed out; 0 of a closed handle */
uint64_t cmwq_board_len(struct cmwq_board *board);

/**
 * cmwq_lines_open() - opens lines that can take what this board keeps; those that the handle has are closed
 * Return: CMWQ_OK; CMWQ_CLOSED: the board; CMWQ_NO_MEMORY.
 */
uint32_t cmwq_lines_open(struct cmwq_lines *lines, struct cmwq_board *board);

/** cmwq_lines_close() - gives up the lines, if there are any; more than once does no harm. Their memory is free. */
void cmwq_lines_close(struct cmwq_lines *lines);

/**
 * cmwq_board_hand_out() - the lines take all entries that the board keeps, by an exchange of two buffers: nothing is
 * copied, and no memory is taken
 * Return: CMWQ_OK; CMWQ_CLOSED: either handle; CMWQ_REFUSED: the lines still have entries, or are too small for this
 * board.
 */
uint32_t cmwq_board_hand_out(struct cmwq_board *board, struct cmwq_lines *lines);

/**
 * cmwq_lines_write() - writes as many whole lines as the buffer holds, the oldest first, *@written bytes; 0: none are
 * left
 * Return: CMWQ_OK; CMWQ_CLOSED; CMWQ_SHORT: it doesn't even hold the first (CMWQ_LINE bytes always hold one).
 */
uint32_t cmwq_lines_write(struct cmwq_lines *lines, uint8_t *out, size_t out_len, size_t *written);

/** cmwq_lines_forget() - forgets the entries that the lines still have. Return: CMWQ_OK; CMWQ_CLOSED. */
uint32_t cmwq_lines_forget(struct cmwq_lines *lines);

/**
 * cmwq_head() - writes the lines that begin a history of this shape, of format 3, as `cmwq check` reads them, *@written
 * bytes: CMWQ_LINE * (@len + 2) bytes always hold them. Needs no board; @keep of the shape isn't read
 * Return: CMWQ_OK; CMWQ_REFUSED: the shape is outside the limits; CMWQ_NO_MEMORY; CMWQ_SHORT.
 */
uint32_t cmwq_head(const struct cmwq_shape *shape, const struct cmwq_queue *queues, size_t len, uint8_t *out,
                   size_t out_len, size_t *written);

/* The layout: tools/c holds the sizes against those that the crate proves. */
CMWQ_ASSERT(sizeof(struct cmwq_book) == 2 * sizeof(void *) && offsetof(struct cmwq_book, live) == sizeof(void *) &&
            sizeof(size_t) == 8);
CMWQ_ASSERT(sizeof(struct cmwq_shape) == 24 && offsetof(struct cmwq_shape, keep) == 8 &&
            offsetof(struct cmwq_shape, items) == 12 && offsetof(struct cmwq_shape, cpus) == 14 &&
            offsetof(struct cmwq_shape, workers) == 15 && offsetof(struct cmwq_shape, callers) == 16);
CMWQ_ASSERT(sizeof(struct cmwq_queue) == 6 && offsetof(struct cmwq_queue, high) == 2 &&
            offsetof(struct cmwq_queue, freezable) == 4);
CMWQ_ASSERT(sizeof(struct cmwq_who) == 3 && offsetof(struct cmwq_who, index) == 1 &&
            offsetof(struct cmwq_who, cpu) == 2);
CMWQ_ASSERT(sizeof(struct cmwq_call) == 24 && offsetof(struct cmwq_call, number) == 8 &&
            offsetof(struct cmwq_call, item) == 12 && offsetof(struct cmwq_call, kind) == 14 &&
            offsetof(struct cmwq_call, queue) == 15 && offsetof(struct cmwq_call, cpu) == 16 &&
            offsetof(struct cmwq_call, who) == 17);
CMWQ_ASSERT(sizeof(struct cmwq_reply) == 24 && offsetof(struct cmwq_reply, other) == 8 &&
            offsetof(struct cmwq_reply, item) == 16 && offsetof(struct cmwq_reply, kind) == 18);
CMWQ_ASSERT(sizeof(struct cmwq_entry) == 56 && offsetof(struct cmwq_entry, call) == 8 &&
            offsetof(struct cmwq_entry, reply) == 32);
CMWQ_ASSERT(sizeof(struct cmwq_wakes) == 35 && offsetof(struct cmwq_wakes, callers) == 24 &&
            offsetof(struct cmwq_wakes, all_workers) == 32 && offsetof(struct cmwq_wakes, all_callers) == 33 &&
            offsetof(struct cmwq_wakes, clock) == 34);
CMWQ_ASSERT(sizeof(struct cmwq_item) == 24 && offsetof(struct cmwq_item, run) == 8 &&
            offsetof(struct cmwq_item, pending) == 16 && offsetof(struct cmwq_item, queue) == 17 &&
            offsetof(struct cmwq_item, cpu) == 18 && offsetof(struct cmwq_item, runs) == 19 &&
            offsetof(struct cmwq_item, worker) == 20);
CMWQ_ASSERT(sizeof(struct cmwq_board) == 16 && offsetof(struct cmwq_board, live) == 8 &&
            sizeof(struct cmwq_lines) == 16 && offsetof(struct cmwq_lines, live) == 8);
CMWQ_ASSERT(CMWQ_DESTROY == 20 && CMWQ_TIMERS == 34 && CMWQ_ILLEGAL == 7 && CMWQ_LOOK_AGAIN == 17 &&
            CMWQ_PENDING_QUEUED == 2);
#undef CMWQ_ASSERT

#ifdef __cplusplus
}
#endif
#endif
