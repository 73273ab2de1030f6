/*
 * The board in one thread: sim [SEEDS [FIRST]]. Workers and callers move in an order that follows from a seed, each for
 * one hold of a lock. A Book follows all entries, and after each move it is asked whether anybody sleeps who could go
 * on and was not named. In the end nobody waits, and the history is legal. Also freezes, destroys, waits that are left,
 * wake-ups for nothing, stops, and rooms that run out.
 */
#include "check.h"

enum { ITEMS = 10, MOST = 64, TEXT = 1 << 16, ALL = 1 << 20 };

enum state { READY, RESTS, RUNS, WAITS, GONE };

/* A worker, or a caller of the user's own. @left: how often it moves yet. */
struct party {
    enum state state;
    struct cmwq_who who;
    unsigned left;
    bool blocks, asleep, runs;
    uint8_t by;
    uint64_t ticket;
};

static struct cmwq_board board;
static struct cmwq_lines lines;
static struct cmwq_book book;           /* the same history */
static struct cmwq_shape shape;
static struct cmwq_queue queues[3];
static unsigned widths[3];
static struct party parties[MOST];
static unsigned many, workers, queue_count, own, seed;
static uint64_t random_state, entries, waits, refused, left_waits;
static bool crowd, stopped, may_stop, may_freeze, may_leave;
static uint8_t text[TEXT], history[ALL];
static size_t written;
static struct cmwq_wakes wakes;

static unsigned below(unsigned n) { return next_random(&random_state) % n; }

static void fail(const char *why, unsigned who)
{
    size_t from = written > 3000 ? written - 3000 : 0;

    fprintf(stderr, "seed %u: party %u (of %u workers and more): %s, after\n%.*s", seed, who, workers, why,
            (int)(written - from), (char *)history + from);
    for (unsigned p = 0; p < many; p++)
        fprintf(stderr, "party %u: state %d, asleep %d, left %u, by %u, ticket %llu\n", p, (int)parties[p].state,
                parties[p].asleep, parties[p].left, parties[p].by, (unsigned long long)parties[p].ticket);
    fprintf(stderr, "stopped %d, %u active\n", stopped, cmwq_active_count(&book));
    exit(1);
}

/* Takes the lines of the new entries, and lets the Book make them too. */
static void follow(void)
{
    size_t len;

    CHECK(cmwq_board_hand_out(&board, &lines) == CMWQ_OK);
    CHECK(cmwq_board_hand_out(&board, &lines) == CMWQ_REFUSED || cmwq_board_len(&board) == entries);
    for (;;) {
        CHECK(cmwq_lines_write(&lines, text, sizeof text, &len) == CMWQ_OK);
        if (len == 0)
            break;
        CHECK(written + len < ALL - 64);
        memcpy(history + written, text, len);
        written += len;
        for (uint8_t *line = text, *end; line < text + len; line = end + 1, entries++) {
            uint8_t call[CMWQ_LINE], out[CMWQ_LINE], *serial = memchr(line, ' ', CMWQ_LINE), *rest, *is;
            size_t of, out_len = 0;

            end = memchr(line, '\n', CMWQ_LINE);
            rest = memchr(serial + 1, ' ', CMWQ_LINE);
            for (is = rest; is[0] != ' ' || is[1] != '='; is++)
                ;
            of = (size_t)(serial - line);
            memcpy(call, line, of);
            memcpy(call + of, rest, (size_t)(is - rest));
            if (cmwq_step_line(&book, call, of + (size_t)(is - rest), out, sizeof out, &out_len) != CMWQ_OK ||
                out_len != (size_t)(end - line) + 1 || memcmp(out, line, out_len)) {
                fprintf(stderr, "the Book: %.*s", (int)out_len, out);
                fail("the last entry is another one", 0);
            }
        }
    }
    CHECK(entries == cmwq_board_len(&board));
}

/* Wakes whom the call has named. */
static void wake(void)
{
    for (unsigned k = 0; k < CMWQ_NAMED && wakes.workers[k].kind != CMWQ_NOBODY; k++)
        for (unsigned p = 0; p < workers; p++)
            if (!memcmp(&parties[p].who, &wakes.workers[k], sizeof parties[p].who))
                parties[p].asleep = false;
    for (unsigned p = 0; p < many; p++) {
        if (p < workers && wakes.all_workers && parties[p].state == RESTS)
            parties[p].asleep = false;
        for (unsigned k = 0; parties[p].state == WAITS && k < CMWQ_NAMED && wakes.callers[k] != CMWQ_NOBODY; k++)
            if (parties[p].by == wakes.callers[k])
                parties[p].asleep = false;
        if (parties[p].state == WAITS && wakes.all_callers)
            parties[p].asleep = false;
    }
    memset(&wakes, CMWQ_NOBODY, sizeof wakes);
    wakes.all_workers = wakes.all_callers = wakes.clock = 0;
}

/* What became of a call; where it was crowded it is to be made again. */
static bool again(uint32_t status)
{
    if (status == CMWQ_CROWDED) {
        follow();
        return true;
    }
    if (status == CMWQ_OK || status == CMWQ_RESTS || status == CMWQ_OVER || status == CMWQ_WAITS)
        wake();
    return false;
}

static uint32_t make(struct cmwq_call call, struct cmwq_reply *reply)
{
    uint32_t status;

    do
        status = cmwq_board_call(&board, &call, reply, &wakes);
    while (again(status));
    return status;
}

/* Ends the wait, or goes on with it. */
static void end(unsigned p)
{
    struct party *party = &parties[p];
    uint32_t status;

    do
        status = cmwq_board_end(&board, party->by, &wakes);
    while (again(status));
    if (status == CMWQ_LOOK_AGAIN)
        return;
    party->asleep = status == CMWQ_WAITS;
    if (status == CMWQ_WAITS)
        return;
    if (status != CMWQ_OK && !(status == CMWQ_OVER && cmwq_board_is_over(&board)))
        fail("its wait ends otherwise", p);
    party->state = party->runs ? RUNS : READY;
}

static void begin(unsigned p, struct cmwq_call call)
{
    struct party *party = &parties[p];
    struct cmwq_reply reply;
    uint32_t status;

    do
        status = cmwq_board_begin(&board, &call, &party->by, &reply, &wakes);
    while (again(status));
    refused += status == CMWQ_DEADLOCK;
    if (status != CMWQ_WAITS)
        return;
    waits++;
    party->ticket = reply.number;
    party->runs = party->state == RUNS;
    party->state = WAITS;
    end(p);
}

static void stop(void)
{
    struct cmwq_call call = {.kind = CMWQ_CANCEL};
    struct cmwq_reply reply;
    struct cmwq_item item;

    for (; call.item < ITEMS; call.item++)
        if (cmwq_board_item(&board, call.item, &item) == CMWQ_OK && item.pending == CMWQ_PENDING_TIMER)
            make(call, &reply);
    make((struct cmwq_call){.kind = CMWQ_THAW}, &reply);
    CHECK(cmwq_board_stop(&board, &wakes) == CMWQ_OK);
    wake();
    stopped = true;
}

/* A call of this party. */
static void act(unsigned p)
{
    static const uint8_t singles[] = {CMWQ_QUEUE, CMWQ_QUEUE,  CMWQ_QUEUE, CMWQ_QUEUE,
                                      CMWQ_QUEUE, CMWQ_MODIFY, CMWQ_DELAY, CMWQ_CANCEL};
    static const uint8_t of_runs[] = {CMWQ_FLUSH_ITEM, CMWQ_FLUSH_ITEM, CMWQ_FLUSH_DELAYED, CMWQ_CANCEL_SYNC,
                                      CMWQ_FLUSH};
    bool run = p < workers;
    struct cmwq_call call = {.who = run && !parties[p].blocks ? parties[p].who
                                                              : (struct cmwq_who){CMWQ_CALLER, (uint8_t)below(own), 0}};
    unsigned kind = crowd && !run && below(3) ? 12 : below(15);
    struct cmwq_reply reply;

    call.item = (uint16_t)below(ITEMS);
    call.queue = (uint8_t)(crowd ? 0 : below(queue_count));
    call.cpu = (uint8_t)below(shape.cpus);
    if (kind < sizeof singles) {
        call.kind = singles[kind];
        call.number = below(4);
        make(call, &reply);
    } else if (kind == 8 && !run && may_freeze && below(3) == 0) {
        call.kind = below(2) ? CMWQ_FREEZE : CMWQ_THAW;
        make(call, &reply);
    } else if (kind == 8 && !run && may_stop && below(4) == 0 && !stopped) {
        stop();
    } else if (kind == 8 && !run) {
        call.kind = CMWQ_SET_MAX; /* a smaller width may hold up what runs wait for already */
        call.number = widths[call.queue] + 1;
        if (make(call, &reply) == CMWQ_OK && reply.kind == CMWQ_WIDTH)
            widths[call.queue] = (unsigned)reply.number;
    } else {
        /* a run drains nothing: what it waits for may be queued later, and need its worker (docs/THREADS.md) */
        call.kind = kind == 8 ? CMWQ_FLUSH_ITEM : kind == 14 ? (run ? CMWQ_FLUSH : CMWQ_DRAIN) : of_runs[kind - 9];
        if (!run && below(60) == 0)
            call.kind = CMWQ_DESTROY;
        if (run)
            call.who = parties[p].who;
        begin(p, call);
    }
}

/* A worker looks what there is to start. */
static void start(unsigned p)
{
    struct party *party = &parties[p];
    struct cmwq_item state;
    uint16_t item = ITEMS;
    uint64_t number = 0;
    uint32_t status;

    do
        status = cmwq_board_start(&board, &party->who, &item, &number, &wakes);
    while (again(status));
    party->asleep = status == CMWQ_RESTS;
    party->state = status == CMWQ_RESTS ? RESTS : status == CMWQ_OVER ? GONE : RUNS;
    if (status != CMWQ_OK && status != CMWQ_RESTS && status != CMWQ_OVER)
        fail("it starts nothing", p);
    if (status != CMWQ_OK)
        return;
    party->left = below(4);
    party->blocks = false;
    CHECK(cmwq_board_item(&board, item, &state) == CMWQ_OK && state.runs && state.run == number &&
          !memcmp(&state.worker, &party->who, 3));
}

static void finish(unsigned p)
{
    uint32_t status;

    do
        status = cmwq_board_finish(&board, &parties[p].who, &wakes);
    while (again(status));
    if (status != CMWQ_OK)
        fail("it does not finish", p);
    parties[p].state = READY;
    if (below(4)) /* mostly in the same hold */
        start(p);
}

static void moves(unsigned p)
{
    struct party *party = &parties[p];
    struct cmwq_reply reply;

    switch (party->state) {
    case READY:
    case RESTS:
        if (p < workers) {
            start(p);
        } else {
            party->left--;
            act(p);
        }
        return;
    case RUNS:
        if (party->blocks && below(3)) {
            CHECK(make((struct cmwq_call){.kind = CMWQ_WAKE, .who = party->who}, &reply) == CMWQ_OK &&
                  reply.kind == CMWQ_WOKE);
            party->blocks = false;
        } else if (party->left == 0 && !party->blocks) {
            finish(p);
        } else if (!party->blocks && below(4) == 0) {
            party->blocks = make((struct cmwq_call){.kind = CMWQ_SLEEP, .who = party->who}, &reply) == CMWQ_OK &&
                            reply.kind == CMWQ_SLEPT;
            party->left -= !party->blocks;
        } else if (party->left) {
            party->left--;
            act(p);
        }
        return;
    case WAITS:
        if (may_leave && below(12) == 0 && cmwq_board_leave(&board, party->by, &wakes) == CMWQ_OK) {
            wake();
            party->state = party->runs ? RUNS : READY;
            party->blocks = party->blocks || party->runs; /* it sleeps until it is woken */
            party->asleep = false;
            left_waits++;
            return;
        }
        end(p);
        return;
    case GONE:
        return;
    }
}

static bool may_move(unsigned p)
{
    const struct party *party = &parties[p];

    return party->state == GONE ? false : party->state == READY && p >= workers ? party->left > 0 : !party->asleep;
}

/* After a move: nobody sleeps who could go on, but those who were named. */
static void look(void)
{
    follow();
    for (unsigned p = 0; p < many; p++) {
        struct cmwq_call take = {.kind = CMWQ_TAKE, .who = parties[p].who};
        struct cmwq_reply reply;
        bool other = false;

        if (!parties[p].asleep)
            continue;
        if (parties[p].state == WAITS && cmwq_ready(&book, parties[p].ticket))
            fail("its wait is ready, and it was not named", p);
        if (parties[p].state != RESTS || cmwq_would(&book, &take, &reply) != CMWQ_OK ||
            (reply.kind != CMWQ_STARTED && reply.kind != CMWQ_STARTED_ENLIST))
            continue;
        /* another one of its pool that will look */
        for (unsigned q = 0; q < workers; q++) {
            struct cmwq_call may = {.kind = CMWQ_TAKE, .who = parties[q].who};

            other |= parties[q].who.kind == parties[p].who.kind && parties[q].who.cpu == parties[p].who.cpu &&
                     !parties[q].asleep && (parties[q].state == READY || parties[q].state == RESTS) &&
                     cmwq_would(&book, &may, &reply) == CMWQ_OK && reply.kind != CMWQ_MISUSE;
        }
        if (!other)
            fail("it rests and would start something, and was not named", p);
    }
}

static void open_all(void)
{
    unsigned lent;
    size_t len = 0;

    random_state = (uint64_t)seed * 0x9e3779b97f4a7c15 | 1;
    for (int k = 0; k < 8; k++)
        next_random(&random_state);
    queue_count = 1 + below(3);
    for (unsigned q = 0; q < queue_count; q++) {
        queues[q] = (struct cmwq_queue){(uint16_t)(1 + below(3)), (uint8_t)below(2), (uint8_t)below(2),
                                        (uint8_t)below(2)};
        widths[q] = queues[q].max_active;
    }
    crowd = below(8) == 0; /* so many flushes that some are in overflow */
    lent = crowd ? 20 : 1 + below(4);
    own = 1 + below(3);
    may_stop = below(4) == 0;
    may_freeze = below(5) > 0;
    may_leave = below(2); /* what was left is ended where there is space for it beside the call's own entries */
    shape = (struct cmwq_shape){.keep = may_leave ? 3 * ITEMS + lent : 0,
                                .items = ITEMS,
                                .cpus = (uint8_t)(1 + below(2)),
                                .workers = (uint8_t)(1 + below(5)),
                                .callers = (uint8_t)(own + lent)};
    shape.room = may_freeze ? (uint64_t)1 << 40 : 50 + below(200);
    memset(parties, 0, sizeof parties);
    workers = 2u * shape.cpus * shape.workers;
    many = workers + (crowd ? 18 + below(8) : 1 + below(4));
    for (unsigned p = 0; p < many; p++) {
        unsigned pool = p / shape.workers;

        if (p < workers)
            parties[p].who = (struct cmwq_who){pool % 2 ? CMWQ_HIGH_WORKER : CMWQ_WORKER, (uint8_t)(p % shape.workers),
                                               (uint8_t)(pool / 2)};
        else
            parties[p].left = 5 + below(30);
    }
    stopped = false;
    entries = 0;
    memset(&wakes, CMWQ_NOBODY, sizeof wakes);
    wakes.all_workers = wakes.all_callers = wakes.clock = 0;
    CHECK(cmwq_board_open(&board, &shape, queues, queue_count, (uint8_t)lent) == CMWQ_OK &&
          cmwq_lines_open(&lines, &board) == CMWQ_OK);
    CHECK(cmwq_head(&shape, queues, queue_count, history, sizeof history, &written) == CMWQ_OK);
    shape.keep = 1 << 16;
    if (shape.keep > shape.room)
        shape.keep = (uint32_t)shape.room;
    CHECK(cmwq_open(&book, &shape, queues, queue_count) == CMWQ_OK);
    (void)len;
}

static void play(void)
{
    bool time_is_over = false;
    unsigned ready[MOST], made = 0;

    for (;;) {
        unsigned count = 0;
        uint64_t due;

        look();
        for (unsigned p = 0; p < many; p++)
            if (may_move(p) || ((parties[p].state == WAITS || parties[p].state == RESTS) &&
                                below(50) == 0)) /* now and then for nothing */
                ready[count++] = p;
        due = cmwq_board_due(&board);
        if (due != UINT64_MAX && !stopped && !time_is_over && (count == 0 || below(20) == 0)) {
            uint64_t now = cmwq_board_time(&board);
            uint32_t status;

            do
                status = cmwq_board_advance(&board, 0, due > now ? (uint32_t)(due - now) : 0, &now, &wakes);
            while (again(status));
            time_is_over = status == CMWQ_FULL;
            continue;
        }
        if (count == 0) {
            struct cmwq_reply reply;

            for (unsigned p = 0; p < many; p++)
                count += may_move(p);
            if (count)
                continue;
            if (!stopped && make((struct cmwq_call){.kind = CMWQ_THAW}, &reply) == CMWQ_OK && reply.kind == CMWQ_THAWED)
                continue;
            break;
        }
        moves(ready[below(count)]);
        if (++made > 100000)
            fail("it does not end", 0);
    }
}

int main(int argc, char **argv)
{
    unsigned seeds = argc > 1 ? (unsigned)atoi(argv[1]) : 10000, first = argc > 2 ? (unsigned)atoi(argv[2]) : 0;
    uint64_t all = 0;

    for (seed = first; seed < first + seeds; seed++) {
        uint8_t line[CMWQ_LINE];
        size_t len = 0;

        open_all();
        play();
        for (unsigned p = 0; p < many; p++)
            if (parties[p].state != (p >= workers ? READY : stopped ? GONE : RESTS))
                fail("it is stuck", p);
        if (cmwq_open_count(&book) != 0)
            fail("something is left", 0);
        written += (size_t)snprintf((char *)history + written, ALL - written, "end %llu\n",
                                    (unsigned long long)entries);
        if (cmwq_check(history, written, line, sizeof line, &len) != CMWQ_OK)
            fail((char *)line, 0);
        all += entries;
        cmwq_lines_close(&lines);
        cmwq_board_close(&board);
        cmwq_close(&book);
    }
    printf("%u schedules, %llu entries, %llu waits, %llu of them left, %llu refused\n", seeds, (unsigned long long)all,
           (unsigned long long)waits, (unsigned long long)left_waits, (unsigned long long)refused);
    return 0;
}
