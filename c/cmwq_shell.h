/*
 * The shell of a hub, which cmwq_hub.h includes: a lock, a condition variable for each party, threads, a clock and a
 * journal. In each hold of the lock it makes calls of the board, and notes whom they name. Then it lets the lock go,
 * and wakes them. No proof covers it; c/tests has its tests.
 */

/*
 * Where a thread is: in a run of a hub, or in its journal, which has no run. It may be in several: a run of one hub may
 * close another, whose journal is called then. @forked: of a child, which has the thread but not the hub
 */
struct cmwq_here_ { struct cmwq_hub *hub; struct cmwq_run *run; struct cmwq_here_ *outer; bool forked; };

/*
 * A thread that sleeps until it is named: a worker, a call that waits, the clock or the journal. A worker has no thread
 * before it is named for the first time. @wanted: it is to get one; @given: with this run, which it has started
 */
struct cmwq_party_ {
    pthread_cond_t wakes; pthread_t thread; struct cmwq_hub *hub; struct cmwq_who who;
    bool named, started, wanted, given; uint16_t item; uint64_t number;
    unsigned vain; /* how often it has looked in vain */
};
enum cmwq_hub_state_ { CMWQ_NONE_, CMWQ_OPEN_, CMWQ_CLOSING_ };

/* The journal of a durable hub: the files, -1: none; how many entries are on the disk, and are waited for; whether a
   thread writes; and whether that failed */
struct cmwq_disk_ { bool is, writing, failed; int file, folder, lock; uint64_t synced, wanted; };
static inline void cmwq_disk_free_(struct cmwq_disk_ *disk);

struct cmwq_hub {                           /* all zeros: none. It is never copied */
    pthread_mutex_t lock; pthread_cond_t changed; enum cmwq_hub_state_ state;
    struct cmwq_here_ **(*here)(void);      /* where the calling thread is, as the file that opened the hub knows it */
    struct cmwq_opened_ *among; struct cmwq_hub *next, **before;
    struct cmwq_board board; struct cmwq_lines lines; struct cmwq_shape shape; struct cmwq_options is;
    struct cmwq_work *works; struct cmwq_party_ *parties, *clock, *journal; /* workers, lent callers, clock, journal */
    struct cmwq_wakes wakes; struct cmwq_party_ *named[64]; unsigned names; /* who is woken when the lock is let go */
    pthread_t *threads; unsigned taken;     /* those that have callers of their own, from caller 1 on */
    unsigned own, alive, unborn;            /* callers that are not lent; workers with a thread; and still without */
    unsigned workers, inside, signalling;   /* calls that hold the lock or sleep; threads that wake others without it */
    uint64_t begun, handed, due;            /* the clock at tick 0; entries handed out; the tick the clock sleeps for */
    bool frozen, busy, deaf, over;          /* busy: the journal has lines; deaf: it wants no more */
    bool threadless;                        /* a worker's thread could not be started: the board has failed */
    bool writes, keeps;                     /* there is a journal; nothing starts any more, and what is left is kept */
    struct cmwq_disk_ disk; uint64_t line;  /* @line: of a durable journal, which the open refused because of it */
    bool forked, torn;                      /* of a child: it was open before; and a thread was about to change it */
    void (*then)(void *data); void *data;   /* the clock's thread is to close it, and to call this */
};

/*
 * What a source file that opens hubs has of its own: where the calling thread is, and the hubs that are open. So the
 * system's keys for threads are not used up, and a file need not find those of another one, as of a shared object.
 */
struct cmwq_opened_ { pthread_mutex_t lock; struct cmwq_hub *first; bool told; };
static inline struct cmwq_opened_ *cmwq_opened_here_(void)
{
    static struct cmwq_opened_ opened = {PTHREAD_MUTEX_INITIALIZER, NULL, false};

    return &opened;
}
static inline struct cmwq_here_ **cmwq_top_(void)
{
#ifdef __cplusplus
    static thread_local struct cmwq_here_ *top;
#else
    static _Thread_local struct cmwq_here_ *top;
#endif

    return &top;
}

/* The run or the journal of this hub in which the calling thread is, or NULL. */
static inline struct cmwq_here_ *cmwq_hub_here_(struct cmwq_hub *hub)
{
    struct cmwq_here_ *here = *hub->here();

    while (here && (here->hub != hub || here->forked)) here = here->outer;
    return here;
}

static inline void cmwq_before_fork_(void) { pthread_mutex_lock(&cmwq_opened_here_()->lock); }
static inline void cmwq_after_fork_(void) { pthread_mutex_unlock(&cmwq_opened_here_()->lock); }

/* Closes all hubs in a child, which has none of their threads. What they have is given up later, by a close or an open:
   here other locks than these may still be held. */
static inline void cmwq_in_child_(void)
{
    struct cmwq_opened_ *opened = cmwq_opened_here_();
    struct cmwq_hub *next;

    for (struct cmwq_here_ *here = *cmwq_top_(); here; here = here->outer) {
        if (!here->forked && !here->run) here->hub->busy = false; /* it is the journal that forks: no lines change */
        here->forked = true;
    }
    for (struct cmwq_hub *hub = opened->first; hub; hub = next) {
        next = hub->next;
        hub->forked = true;
        hub->torn = pthread_mutex_trylock(&hub->lock) != 0;
        hub->state = CMWQ_NONE_;
        hub->among = NULL;
        cmwq_disk_free_(&hub->disk);
        pthread_mutex_init(&hub->lock, NULL);
    }
    opened->first = NULL;
    pthread_mutex_unlock(&opened->lock);
}

/* Adds the hub to those that are open, or takes it from them. Return: whether there was memory */
static inline bool cmwq_hub_list_(struct cmwq_hub *hub)
{
    struct cmwq_opened_ *opened = cmwq_opened_here_();

    pthread_mutex_lock(&opened->lock);
    opened->told = opened->told || pthread_atfork(cmwq_before_fork_, cmwq_after_fork_, cmwq_in_child_) == 0;
    if (opened->told) {
        hub->among = opened;
        hub->before = &opened->first;
        hub->next = opened->first;
        if (hub->next) hub->next->before = &hub->next;
        opened->first = hub;
    }
    pthread_mutex_unlock(&opened->lock);
    return hub->among != NULL;
}

static inline uint64_t cmwq_hub_now_(const struct cmwq_hub *hub)
{
    struct timespec now;

    clock_gettime(CLOCK_MONOTONIC, &now);
    return (uint64_t)now.tv_sec * 1000000000u + (uint64_t)now.tv_nsec - hub->begun;
}

static inline void cmwq_hub_name_(struct cmwq_hub *hub, struct cmwq_party_ *party)
{
    if (party < hub->parties + hub->workers && !party->started) { /* a worker that has no thread yet */
        if (party->wanted) return;
        party->wanted = true;
        hub->alive++;
        hub->unborn++;
        /* not the calling thread starts it, which has a priority, CPUs and signals of its own: the clock does, and once
           the hub is closed whoever closes it */
        pthread_cond_broadcast(&hub->changed);
        party = hub->clock;
    }
    __atomic_store_n(&party->named, true, __ATOMIC_RELEASE);
    if (hub->names < 64) hub->named[hub->names++] = party;
    else pthread_cond_signal(&party->wakes);
}

static inline uint32_t cmwq_hub_note_(struct cmwq_hub *hub, uint32_t status);

/* Looks in place of a worker that has no thread. It gets one if it has something to run. */
static inline void cmwq_hub_look_(struct cmwq_hub *hub, struct cmwq_party_ *party)
{
    if (party->wanted) return;
    if (cmwq_hub_note_(hub, cmwq_board_start(&hub->board, &party->who, &party->item, &party->number, &hub->wakes)) ==
        CMWQ_OK) {
        party->given = true;
        cmwq_hub_name_(hub, party);
    }
}

/* Notes whom a call of the board has named. */
static inline uint32_t cmwq_hub_note_(struct cmwq_hub *hub, uint32_t status)
{
    struct cmwq_wakes *wakes = &hub->wakes;
    bool all_workers = wakes->all_workers != 0;

    for (struct cmwq_who *who = wakes->workers; who < wakes->workers + CMWQ_NAMED && who->kind != CMWQ_NOBODY; who++)
        cmwq_hub_name_(hub, &hub->parties[(2u * who->cpu + who->kind - 1u) * hub->shape.workers + who->index]);
    for (unsigned k = 0; k < CMWQ_NAMED && wakes->callers[k] != CMWQ_NOBODY; k++)
        cmwq_hub_name_(hub, &hub->parties[hub->workers + wakes->callers[k] - hub->own]);
    for (unsigned k = 0; all_workers && k < hub->workers; k++)
        if (hub->parties[k].started) cmwq_hub_name_(hub, &hub->parties[k]);
    for (unsigned k = hub->workers; wakes->all_callers && k < hub->workers + hub->is.waits; k++)
        cmwq_hub_name_(hub, &hub->parties[k]);
    if (wakes->clock) cmwq_hub_name_(hub, hub->clock); /* there may be timers that a drain held back */
    wakes->workers[0].kind = wakes->callers[0] = CMWQ_NOBODY; /* as a call that isn't made leaves it so */
    wakes->all_workers = wakes->all_callers = wakes->clock = 0;
    for (unsigned k = 0; all_workers && k < hub->workers; k++)
        if (!hub->parties[k].started) cmwq_hub_look_(hub, &hub->parties[k]);
    return status;
}

/* Lets the lock go, and wakes them. */
static inline void cmwq_hub_unlock_(struct cmwq_hub *hub)
{
    struct cmwq_party_ *named[64];
    unsigned names = hub->names;

    if (names) {
        memcpy(named, hub->named, names * sizeof *named);
        hub->names = 0;
        __atomic_add_fetch(&hub->signalling, 1, __ATOMIC_RELAXED); /* nothing is freed meanwhile */
    }
    pthread_mutex_unlock(&hub->lock);
    for (unsigned k = 0; k < names; k++) pthread_cond_signal(&named[k]->wakes);
    if (names) __atomic_sub_fetch(&hub->signalling, 1, __ATOMIC_RELEASE);
}

/* Sleeps until the party is named, or until then; the board has it as asleep. Return: whether it was named */
static inline bool cmwq_hub_sleep_(struct cmwq_hub *hub, struct cmwq_party_ *party, uint64_t then)
{
    struct timespec at = {(time_t)((then + hub->begun) / 1000000000u), (long)((then + hub->begun) % 1000000000u)};
    unsigned spins = party->vain < 4 || party->vain % 64 == 0 ? hub->is.spins : 0;
    int late = 0;

    party->named = false;
    cmwq_hub_unlock_(hub);
    while (spins-- && !__atomic_load_n(&party->named, __ATOMIC_ACQUIRE)) __builtin_ia32_pause();
    pthread_mutex_lock(&hub->lock);
    party->vain = party->named ? 0 : party->vain + 1;
    while (!party->named && !late)
        late = then == UINT64_MAX ? pthread_cond_wait(&party->wakes, &hub->lock)
                                  : pthread_cond_timedwait(&party->wakes, &hub->lock, &at);
    return party->named;
}

/* Hands out what is kept, if that is more than so much, once the journal has written what it was handed before. */
static inline void cmwq_hub_space_(struct cmwq_hub *hub, uint64_t most)
{
    while (cmwq_board_len(&hub->board) - hub->handed > most) {
        if (hub->busy) {
            pthread_cond_wait(&hub->changed, &hub->lock);
            continue;
        }
        cmwq_board_hand_out(&hub->board, &hub->lines);
        hub->handed = cmwq_board_len(&hub->board);
        hub->busy = hub->writes && !hub->deaf;
        if (hub->busy) cmwq_hub_name_(hub, hub->journal);
        else cmwq_lines_forget(&hub->lines);
    }
}

/* Brings time up to this tick. */
static inline uint32_t cmwq_hub_advance_(struct cmwq_hub *hub, uint64_t tick)
{
    uint64_t now;
    uint32_t status = CMWQ_OK;

    while (status == CMWQ_OK && (now = cmwq_board_time(&hub->board)) < tick) {
        uint32_t ticks = tick - now < UINT32_MAX ? (uint32_t)(tick - now) : UINT32_MAX;

        cmwq_hub_space_(hub, hub->is.keep);
        status = cmwq_hub_note_(hub, cmwq_board_advance(&hub->board, 0, ticks, &now, &hub->wakes));
    }
    return status;
}

/* With options.ticks, brings time up to now before an entry. */
static inline void cmwq_hub_pass_(struct cmwq_hub *hub)
{
    if (hub->is.ticks && hub->state == CMWQ_OPEN_) cmwq_hub_advance_(hub, cmwq_hub_now_(hub) / hub->is.tick_ns);
}

/* A call of one entry. */
static inline uint32_t cmwq_hub_call_(struct cmwq_hub *hub, struct cmwq_run *run, struct cmwq_call *call,
                                      struct cmwq_reply *reply)
{
    uint32_t status = CMWQ_OK;

    if (call->kind <= CMWQ_MODIFY && hub->state == CMWQ_CLOSING_ && !(hub->keeps && run)) return CMWQ_STOPPED;
    if (call->number && (call->kind == CMWQ_DELAY || call->kind == CMWQ_MODIFY)) {
        uint64_t now = cmwq_hub_now_(hub), due = now / hub->is.tick_ns + call->number + (now % hub->is.tick_ns != 0);

        status = cmwq_hub_advance_(hub, now / hub->is.tick_ns);
        due -= due < cmwq_board_time(&hub->board) ? due : cmwq_board_time(&hub->board);
        if (status != CMWQ_OK || due > UINT32_MAX) return status == CMWQ_OK ? (uint32_t)CMWQ_REFUSED : status;
        call->number = (uint32_t)due;
    }
    status = cmwq_hub_note_(hub, cmwq_board_call(&hub->board, call, reply, &hub->wakes));
    if (status != CMWQ_OK) return status;
    if (reply->kind == CMWQ_SLEPT || reply->kind == CMWQ_WOKE) run->asleep = reply->kind == CMWQ_SLEPT;
    if (reply->kind == CMWQ_FROZEN || reply->kind == CMWQ_THAWED) hub->frozen = reply->kind == CMWQ_FROZEN;
    if ((reply->kind == CMWQ_BOOKED || reply->kind == CMWQ_REBOOKED) && reply->number < hub->due)
        cmwq_hub_name_(hub, hub->clock);
    return status;
}

/* The wait by this caller is left. A run that was awake before is awake again. */
static inline uint32_t cmwq_hub_leave_wait_(struct cmwq_hub *hub, struct cmwq_run *run, uint8_t by)
{
    uint32_t status = cmwq_hub_note_(hub, cmwq_board_leave(&hub->board, by, &hub->wakes));

    if (status == CMWQ_OK && run && !run->asleep) {
        struct cmwq_call wake = {0, 0, 0, CMWQ_WAKE, 0, 0, run->who};
        struct cmwq_reply reply;

        cmwq_hub_space_(hub, hub->is.keep);
        cmwq_hub_note_(hub, cmwq_board_call(&hub->board, &wake, &reply, &hub->wakes));
    }
    return status == CMWQ_OK ? (uint32_t)CMWQ_TIMED_OUT : status;
}

/* A call that waits. */
static inline uint32_t cmwq_hub_wait_(struct cmwq_hub *hub, struct cmwq_run *run, struct cmwq_call *call,
                                      struct cmwq_reply *reply)
{
    uint64_t then = call->number == CMWQ_FOREVER ? UINT64_MAX : cmwq_hub_now_(hub) + call->number * UINT64_C(1000000);
    uint8_t by = 0;
    uint32_t status;

    status = cmwq_hub_note_(hub, cmwq_board_begin(&hub->board, call, &by, reply, &hub->wakes));
    while (status == CMWQ_WAITS || status == CMWQ_LOOK_AGAIN) {
        cmwq_hub_space_(hub, hub->is.keep);
        cmwq_hub_pass_(hub);
        status = cmwq_hub_note_(hub, cmwq_board_end(&hub->board, by, &hub->wakes));
        if (status == CMWQ_LOOK_AGAIN) {
            cmwq_hub_unlock_(hub); /* and calls again */
            pthread_mutex_lock(&hub->lock);
        } else if (status == CMWQ_WAITS &&
                   (hub->keeps || !cmwq_hub_sleep_(hub, &hub->parties[hub->workers + by - hub->own], then))) {
            cmwq_hub_space_(hub, hub->is.keep);
            /* (a run whose rest is kept for the next life sleeps on) */
            status = cmwq_hub_leave_wait_(hub, hub->keeps ? NULL : run, by);
            if (hub->keeps) status = CMWQ_STOPPED;
        }
    }
    return status;
}

static inline void *cmwq_hub_work_(void *at)
{
    struct cmwq_party_ *me = (struct cmwq_party_ *)at;
    struct cmwq_hub *hub = me->hub;
    struct cmwq_run run = {hub, 0, 0, me->who, false, false};
    struct cmwq_here_ here = {hub, &run, NULL, false}, **top = hub->here();
    struct cmwq_call wake = {0, 0, 0, CMWQ_WAKE, 0, 0, me->who};
    struct cmwq_reply reply;
    uint32_t status;

    *top = &here;
    pthread_mutex_lock(&hub->lock);
    run.item = me->item;
    run.number = me->number;
    do {
        if (hub->keeps && !me->given) break;
        cmwq_hub_space_(hub, hub->is.keep);
        cmwq_hub_pass_(hub);
        status = me->given ? (uint32_t)CMWQ_OK
                 : cmwq_hub_note_(hub, cmwq_board_start(&hub->board, &me->who, &run.item, &run.number, &hub->wakes));
        me->given = false;
        if (status == CMWQ_RESTS) cmwq_hub_sleep_(hub, me, UINT64_MAX);
        if (status == CMWQ_OK) {
            struct cmwq_work work = hub->works[run.item];

            cmwq_hub_unlock_(hub);
            if (work.run) work.run(&run, work.data);
            if (here.forked) break;
            pthread_mutex_lock(&hub->lock);
            if (run.broken_) break;
            cmwq_hub_space_(hub, hub->is.keep);
            cmwq_hub_pass_(hub);
            if (run.asleep) cmwq_hub_call_(hub, &run, &wake, &reply);
            cmwq_hub_note_(hub, cmwq_board_finish(&hub->board, &me->who, &hub->wakes));
            run.asleep = true; /* what is dropped now may call the hub: not as the run, which has ended */
            if (hub->is.ended_) hub->is.ended_(hub, run.item);
            run.asleep = false;
        }
    } while (status == CMWQ_OK || status == CMWQ_RESTS);
    if (!here.forked) {
        if (--hub->alive == 0) pthread_cond_broadcast(&hub->changed); /* whoever closes the hub waits for it */
        cmwq_hub_unlock_(hub);
    }
    *top = NULL;
    return NULL;
}

/* Starts the threads of workers that are to get one. If one does not start, the board fails. */
static inline void cmwq_hub_bear_(struct cmwq_hub *hub)
{
    for (struct cmwq_party_ *party = hub->parties; hub->unborn && party < hub->parties + hub->workers; party++) {
        if (!party->wanted || party->started) continue;
        hub->unborn--;
        party->started = !hub->threadless && pthread_create(&party->thread, NULL, cmwq_hub_work_, party) == 0;
        if (party->started) continue;
        hub->alive--;
        if (!hub->threadless) cmwq_hub_note_(hub, cmwq_board_fail(&hub->board, &hub->wakes));
        hub->threadless = true;
    }
}

/* The clock's thread: sleeps until a timer is due, and starts the threads of workers; and closes the hub if it is told
   so. */
static inline void *cmwq_hub_tick_(void *at)
{
    struct cmwq_party_ *me = (struct cmwq_party_ *)at;
    struct cmwq_hub *hub = me->hub;
    uint64_t now, then, tick = hub->is.tick_ns;
    uint32_t status = CMWQ_OK;
    void (*closes)(void *data);
    void *data;

    pthread_mutex_lock(&hub->lock);
    while (hub->state == CMWQ_OPEN_ && !hub->then) {
        now = cmwq_hub_now_(hub);
        hub->due = cmwq_board_due(&hub->board);
        then = hub->due < UINT64_MAX / 2 / tick ? hub->due * tick : UINT64_MAX;
        if (hub->unborn) cmwq_hub_bear_(hub);
        else if (status != CMWQ_OK) cmwq_hub_sleep_(hub, me, UINT64_MAX); /* no room for time: nothing fires any more */
        else if (hub->due > now / tick) cmwq_hub_sleep_(hub, me, then);
        else status = cmwq_hub_advance_(hub, now / tick);
    }
    closes = hub->state == CMWQ_OPEN_ ? hub->then : NULL;
    data = hub->data;
    if (closes) {
        pthread_detach(pthread_self());
        me->started = false; /* nobody joins it */
    }
    cmwq_hub_unlock_(hub);
    if (closes) closes(data);
    return NULL;
}

/* Gives the journal some text. Return: whether it takes more. Nothing may be done with the hub if @here is forked. */
static inline bool cmwq_hub_tell_(struct cmwq_hub *hub, struct cmwq_here_ *here, const void *text, size_t len)
{
    struct cmwq_here_ **top = hub->here();
    bool takes;

    here->hub = hub;
    here->run = NULL; /* so the journal's calls of the hub are refused */
    here->outer = *top;
    *top = here;
    takes = hub->is.journal(hub->is.journal_data, (const char *)text, len);
    *top = here->outer;
    return takes;
}

/* The journal's thread. */
static inline void *cmwq_hub_write_(void *at)
{
    struct cmwq_party_ *me = (struct cmwq_party_ *)at;
    struct cmwq_hub *hub = me->hub;
    struct cmwq_here_ here = {NULL, NULL, NULL, false};
    uint8_t text[1 << 14];
    size_t len;

    pthread_mutex_lock(&hub->lock);
    while (!hub->over || cmwq_board_len(&hub->board) > hub->handed || hub->busy) {
        if (!hub->busy && !hub->over) cmwq_hub_sleep_(hub, me, cmwq_hub_now_(hub) + 100000000);
        if (!hub->busy) cmwq_hub_space_(hub, 0);
        if (hub->busy) {
            bool takes = true;

            cmwq_hub_unlock_(hub);
            while (cmwq_lines_write(&hub->lines, text, sizeof text, &len) == CMWQ_OK && len > 0) {
                takes = takes && cmwq_hub_tell_(hub, &here, text, len);
                if (here.forked) return NULL;
            }
            pthread_mutex_lock(&hub->lock);
            hub->busy = false;
            hub->deaf = !takes;
            pthread_cond_broadcast(&hub->changed);
        }
    }
    cmwq_hub_unlock_(hub);
    return NULL;
}

#include "cmwq_durable.h"

/* Has all workers rest, and starts the threads of the clock and the journal. */
static inline bool cmwq_hub_start_(struct cmwq_hub *hub)
{
    pthread_condattr_t monotonic;

    pthread_condattr_init(&monotonic);
    pthread_condattr_setclock(&monotonic, CLOCK_MONOTONIC);
    for (struct cmwq_party_ *party = hub->parties; party <= hub->journal; party++) {
        unsigned k = (unsigned)(party - hub->parties), pool = k / hub->shape.workers;

        pthread_cond_init(&party->wakes, &monotonic);
        party->hub = hub;
        party->who.kind = pool % 2 ? CMWQ_HIGH_WORKER : CMWQ_WORKER;
        party->who.index = (uint8_t)(k % hub->shape.workers);
        party->who.cpu = (uint8_t)(pool / 2);
    }
    for (unsigned k = 0; k < hub->workers; k++) cmwq_hub_look_(hub, &hub->parties[k]);
    hub->clock->started = pthread_create(&hub->clock->thread, NULL, cmwq_hub_tick_, hub->clock) == 0;
    if (!hub->clock->started || !hub->writes) return hub->clock->started;
    hub->journal->started = pthread_create(&hub->journal->thread, NULL,
                                           hub->disk.is ? cmwq_disk_keep_ : cmwq_hub_write_, hub->journal) == 0;
    return hub->journal->started;
}

/* Gives up what there is of a hub, which nobody is in, and which is no longer open. Its lock stays, so that later calls
   are refused. In a child nothing is given up that a thread may have been about to change. */
static inline int cmwq_hub_free_(struct cmwq_hub *hub, int result)
{
    struct cmwq_opened_ *opened = hub->among;

    if (opened) { /* no fork sees a half of it */
        pthread_mutex_lock(&opened->lock);
        *hub->before = hub->next;
        if (hub->next) hub->next->before = hub->before;
        hub->among = NULL;
    }
    for (struct cmwq_party_ *party = hub->parties; !hub->forked && hub->journal && party <= hub->journal; party++)
        pthread_cond_destroy(&party->wakes);
    cmwq_disk_free_(&hub->disk);
    if (!hub->torn) {
        cmwq_board_close(&hub->board);
        if (!hub->forked || !hub->busy) cmwq_lines_close(&hub->lines);
        free(hub->parties);
        free(hub->works);
        free(hub->threads);
        hub->parties = NULL;
        hub->works = NULL;
        hub->threads = NULL;
    }
    if (opened) pthread_mutex_unlock(&opened->lock);
    return result;
}

/* Takes back the timers, thaws, stops: nothing new begins, and what is queued ends. */
static inline void cmwq_hub_stop_(struct cmwq_hub *hub)
{
    struct cmwq_call call = {0, 0, 0, CMWQ_CANCEL, 0, 0, {CMWQ_CALLER, 0, 0}};
    struct cmwq_reply reply;
    struct cmwq_item item;

    __atomic_store_n(&hub->state, CMWQ_CLOSING_, __ATOMIC_RELAXED); /* an open in a journal reads it without the lock */
    for (unsigned n = 0; n < hub->shape.items; n++) {
        call.item = (uint16_t)n;
        cmwq_hub_space_(hub, hub->is.keep);
        if (cmwq_board_item(&hub->board, call.item, &item) == CMWQ_OK && item.pending == CMWQ_PENDING_TIMER)
            cmwq_hub_note_(hub, cmwq_board_call(&hub->board, &call, &reply, &hub->wakes));
    }
    call.kind = CMWQ_THAW;
    if (hub->frozen && cmwq_hub_note_(hub, cmwq_board_call(&hub->board, &call, &reply, &hub->wakes)) != CMWQ_OK)
        cmwq_hub_note_(hub, cmwq_board_fail(&hub->board, &hub->wakes)); /* no room: what is frozen would never start */
    cmwq_hub_note_(hub, cmwq_board_stop(&hub->board, &hub->wakes));
    cmwq_hub_name_(hub, hub->clock);
}

/* Lets nothing start any more, and names all who sleep: workers end, and calls that wait are left. */
static inline void cmwq_hub_keep_(struct cmwq_hub *hub)
{
    __atomic_store_n(&hub->state, CMWQ_CLOSING_, __ATOMIC_RELAXED); /* an open of it reads it without the lock */
    hub->keeps = true;
    for (struct cmwq_party_ *party = hub->parties; party <= hub->clock; party++)
        if (party->started || party >= hub->parties + hub->workers) cmwq_hub_name_(hub, party);
}

/* Has the clock's thread call then(data), which closes the hub. A run may ask for it. Return: whether it is called */
static inline bool cmwq_hub_leave_(struct cmwq_hub *hub, void (*then)(void *data), void *data)
{
    bool will;

    pthread_mutex_lock(&hub->lock);
    will = hub->state == CMWQ_OPEN_ && !hub->then;
    if (will) {
        hub->then = then;
        hub->data = data;
        cmwq_hub_name_(hub, hub->clock);
    }
    cmwq_hub_unlock_(hub);
    return will;
}
