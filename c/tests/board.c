/* Each call of a board and of lines: on its happy path, refused, and on a closed handle. */
#include "check.h"

/* One CPU with three workers a pool, two queues, four items; caller 0 is the shell's own, and 1 and 2 are lent. */
static const struct cmwq_shape shape = {.room = 1000, .keep = 100, .items = 4, .cpus = 1, .workers = 3, .callers = 3};
static const struct cmwq_queue queues[2] = {{.max_active = 2}, {.max_active = 2}};

static const struct cmwq_who user = {CMWQ_CALLER, 0, 0};

/* What a call that isn't done leaves as it was. */
struct outputs {
    struct cmwq_wakes wakes;
    struct cmwq_reply reply;
    struct cmwq_item state;
    uint64_t number, now;
    uint16_t item;
    uint8_t party;
};

static struct outputs outputs, before;
static struct { struct cmwq_shape shape; size_t queues, count; struct cmwq_call calls[16]; uint64_t line; } resumed;

static bool nothing_is_written(void)
{
    return memcmp(&outputs, &before, sizeof outputs) == 0;
}

static void clear_outputs(void)
{
    memset(&outputs, 5, sizeof outputs);
    before = outputs;
}

static struct cmwq_who worker(uint8_t index)
{
    return (struct cmwq_who){CMWQ_WORKER, index, 0};
}

static struct cmwq_call call_of(struct cmwq_who who, uint8_t kind, uint16_t item, uint8_t queue)
{
    return (struct cmwq_call){.item = item, .kind = kind, .queue = queue, .who = who};
}

static uint32_t call(struct cmwq_board *board, struct cmwq_who who, uint8_t kind, uint16_t item, uint8_t queue)
{
    struct cmwq_call made = call_of(who, kind, item, queue);

    clear_outputs();
    return cmwq_board_call(board, &made, &outputs.reply, &outputs.wakes);
}

static uint32_t begin(struct cmwq_board *board, struct cmwq_who who, uint8_t kind, uint16_t item, uint8_t queue)
{
    struct cmwq_call made = call_of(who, kind, item, queue);

    clear_outputs();
    return cmwq_board_begin(board, &made, &outputs.party, &outputs.reply, &outputs.wakes);
}

static uint32_t start(struct cmwq_board *board, struct cmwq_who who)
{
    clear_outputs();
    return cmwq_board_start(board, &who, &outputs.item, &outputs.number, &outputs.wakes);
}

static uint32_t finish(struct cmwq_board *board, struct cmwq_who who)
{
    clear_outputs();
    return cmwq_board_finish(board, &who, &outputs.wakes);
}

static uint32_t end(struct cmwq_board *board, uint8_t party)
{
    clear_outputs();
    return cmwq_board_end(board, party, &outputs.wakes);
}

static uint32_t leave(struct cmwq_board *board, uint8_t party)
{
    clear_outputs();
    return cmwq_board_leave(board, party, &outputs.wakes);
}

static uint32_t advance(struct cmwq_board *board, uint8_t caller, uint32_t ticks)
{
    clear_outputs();
    return cmwq_board_advance(board, caller, ticks, &outputs.now, &outputs.wakes);
}

static uint32_t look_at(struct cmwq_board *board, uint16_t item)
{
    clear_outputs();
    return cmwq_board_item(board, item, &outputs.state);
}

static bool names_nobody(void)
{
    return outputs.wakes.workers[0].kind == CMWQ_NOBODY && outputs.wakes.callers[0] == CMWQ_NOBODY &&
           !outputs.wakes.all_workers && !outputs.wakes.all_callers && !outputs.wakes.clock;
}

static bool names_worker(uint8_t index)
{
    struct cmwq_who first = outputs.wakes.workers[0];

    return first.kind == CMWQ_WORKER && first.index == index && first.cpu == 0 &&
           outputs.wakes.workers[1].kind == CMWQ_NOBODY;
}

static bool names_caller(uint8_t caller)
{
    return outputs.wakes.callers[0] == caller && outputs.wakes.callers[1] == CMWQ_NOBODY;
}

static void open_board(struct cmwq_board *board, uint32_t keep, uint8_t lent)
{
    struct cmwq_shape kept = shape;

    kept.keep = keep;
    CHECK(cmwq_board_open(board, &kept, queues, 2, lent) == CMWQ_OK);
    CHECK(board->live && board->at);
}

/* All that the board keeps, with a buffer of this size, begins with these lines. */
static void hands_out(struct cmwq_board *board, struct cmwq_lines *lines, size_t room, const char *wanted)
{
    char text[8192];
    size_t len = 0, written;

    CHECK(cmwq_board_hand_out(board, lines) == CMWQ_OK);
    do {
        CHECK(len + room <= sizeof text);
        CHECK(cmwq_lines_write(lines, (uint8_t *)text + len, room, &written) == CMWQ_OK);
        len += written;
    } while (written);
    CHECK(len == strlen(wanted) && memcmp(text, wanted, len) == 0);
}

static void closed_calls(struct cmwq_board *board)
{
    struct cmwq_lines lines = {0};
    uint8_t out[CMWQ_LINE];
    size_t written = 77;

    CHECK(call(board, user, CMWQ_QUEUE, 0, 0) == CMWQ_CLOSED && nothing_is_written());
    CHECK(start(board, worker(0)) == CMWQ_CLOSED && nothing_is_written());
    CHECK(finish(board, worker(0)) == CMWQ_CLOSED && nothing_is_written());
    CHECK(begin(board, user, CMWQ_FLUSH, 0, 0) == CMWQ_CLOSED && nothing_is_written());
    CHECK(end(board, 1) == CMWQ_CLOSED && nothing_is_written());
    CHECK(leave(board, 1) == CMWQ_CLOSED && nothing_is_written());
    CHECK(advance(board, 0, 1) == CMWQ_CLOSED && nothing_is_written());
    CHECK(look_at(board, 0) == CMWQ_CLOSED && nothing_is_written());
    CHECK(cmwq_board_stop(board, &outputs.wakes) == CMWQ_CLOSED && nothing_is_written());
    CHECK(cmwq_board_fail(board, &outputs.wakes) == CMWQ_CLOSED && nothing_is_written());
    CHECK(cmwq_board_time(board) == 0 && cmwq_board_due(board) == UINT64_MAX);
    CHECK(cmwq_board_is_over(board) && cmwq_board_len(board) == 0 && cmwq_board_news(board) == 0);
    CHECK(cmwq_lines_open(&lines, board) == CMWQ_CLOSED && !lines.live);
    CHECK(cmwq_board_hand_out(board, &lines) == CMWQ_CLOSED);
    CHECK(cmwq_lines_write(&lines, out, sizeof out, &written) == CMWQ_CLOSED && written == 77);
    CHECK(cmwq_lines_forget(&lines) == CMWQ_CLOSED);
    cmwq_lines_close(&lines);
    cmwq_board_close(board);
    CHECK(!board->live);
}

static void opens_and_closes(void)
{
    struct cmwq_board board = {0};
    struct cmwq_shape none = shape;

    closed_calls(&board);
    none.items = 0;
    CHECK(cmwq_board_open(&board, &none, queues, 2, 1) == CMWQ_REFUSED);
    CHECK(cmwq_board_open(&board, &shape, queues, 0, 1) == CMWQ_REFUSED);
    CHECK(cmwq_board_open(&board, &shape, queues, 2, 4) == CMWQ_REFUSED);
    CHECK(!board.live && !board.at);
    open_board(&board, 100, 3);
    CHECK(call(&board, user, CMWQ_QUEUE, 0, 0) == CMWQ_REFUSED); /* all callers are lent */
    open_board(&board, 100, 0);
    CHECK(begin(&board, user, CMWQ_FLUSH, 0, 0) == CMWQ_NO_CALLER && nothing_is_written());
    CHECK(cmwq_board_open(&board, &none, queues, 2, 1) == CMWQ_REFUSED && board.live);
    cmwq_board_close(&board);
    cmwq_board_close(&board);
    closed_calls(&board);
}

/* A caller flushes a queue, and sleeps until the item has ended. */
static void a_flush(void)
{
    struct cmwq_board board = {0};
    struct cmwq_lines lines = {0};
    uint8_t out[CMWQ_LINE];
    size_t written = 77;

    open_board(&board, 100, 2);
    CHECK(start(&board, worker(0)) == CMWQ_RESTS && names_nobody());
    CHECK(call(&board, user, CMWQ_QUEUE, 0, 0) == CMWQ_OK && outputs.reply.kind == CMWQ_YES);
    CHECK(outputs.reply.number == 0 && names_worker(0));
    CHECK(look_at(&board, 0) == CMWQ_OK && outputs.state.pending == CMWQ_PENDING_QUEUED && !outputs.state.runs);
    CHECK(start(&board, worker(0)) == CMWQ_OK && outputs.item == 0 && outputs.number == 0);
    CHECK(look_at(&board, 0) == CMWQ_OK && outputs.state.pending == CMWQ_NOT_PENDING && outputs.state.runs);
    CHECK(outputs.state.worker.kind == CMWQ_WORKER && outputs.state.worker.index == 0 && outputs.state.run == 0);
    CHECK(start(&board, worker(0)) == CMWQ_NOT_NOW && nothing_is_written());
    CHECK(finish(&board, worker(1)) == CMWQ_NOT_NOW && nothing_is_written());
    CHECK(finish(&board, worker(0)) == CMWQ_OK);
    cmwq_board_close(&board);

    open_board(&board, 100, 2);
    CHECK(call(&board, user, CMWQ_QUEUE, 0, 0) == CMWQ_OK);
    CHECK(start(&board, worker(0)) == CMWQ_OK);
    CHECK(begin(&board, user, CMWQ_FLUSH_ITEM, 1, 0) == CMWQ_OK && outputs.reply.kind == CMWQ_IDLE);
    CHECK(outputs.party == before.party);
    CHECK(begin(&board, user, CMWQ_FLUSH, 0, 0) == CMWQ_WAITS && outputs.party == 1);
    CHECK(outputs.reply.kind == CMWQ_TICKET && outputs.reply.number == 3);
    CHECK(end(&board, 1) == CMWQ_WAITS && names_nobody());
    CHECK(end(&board, 2) == CMWQ_NOT_NOW && nothing_is_written());
    CHECK(end(&board, 0) == CMWQ_REFUSED && end(&board, 3) == CMWQ_REFUSED && nothing_is_written());
    CHECK(finish(&board, worker(0)) == CMWQ_OK && names_caller(1));
    CHECK(end(&board, 1) == CMWQ_OK);
    CHECK(end(&board, 1) == CMWQ_NOT_NOW && nothing_is_written());

    CHECK(cmwq_lines_open(&lines, &board) == CMWQ_OK && lines.live);
    hands_out(&board, &lines, 100,
              "c0 0 queue 0 0 0 = yes 0\n"
              "w0n0 0 take = started 0 enlist 1\n"
              "c1 0 flush_item 1 = idle\n"
              "c1 1 flush 0 = ticket 3\n"
              "w0n0 1 finish = finished 0\n"
              "c1 2 end 3 = done\n");
    CHECK(call(&board, user, CMWQ_QUEUE, 2, 1) == CMWQ_OK && call(&board, user, CMWQ_CANCEL, 2, 0) == CMWQ_OK);
    CHECK(outputs.reply.kind == CMWQ_CANCELLED && cmwq_board_len(&board) == 8);
    CHECK(cmwq_board_hand_out(&board, &lines) == CMWQ_OK);
    CHECK(cmwq_lines_write(&lines, out, 3, &written) == CMWQ_SHORT && written == 77);
    CHECK(cmwq_lines_write(&lines, out, 30, &written) == CMWQ_OK && written == 25);
    CHECK(call(&board, user, CMWQ_FREEZE, 0, 0) == CMWQ_OK && outputs.reply.kind == CMWQ_FROZEN);
    CHECK(cmwq_board_hand_out(&board, &lines) == CMWQ_REFUSED);
    CHECK(cmwq_lines_forget(&lines) == CMWQ_OK);
    hands_out(&board, &lines, CMWQ_LINE, "c0 3 freeze = frozen\n");
    cmwq_lines_close(&lines);
    cmwq_lines_close(&lines);
    CHECK(cmwq_board_hand_out(&board, &lines) == CMWQ_CLOSED && !lines.live);
    cmwq_board_close(&board);
}

/* Runs that wait: for themselves, for another, and for each other. */
static void runs_that_wait(void)
{
    struct cmwq_board board = {0};

    open_board(&board, 100, 1);
    CHECK(call(&board, user, CMWQ_QUEUE, 0, 0) == CMWQ_OK && call(&board, user, CMWQ_QUEUE, 1, 1) == CMWQ_OK);
    CHECK(begin(&board, worker(0), CMWQ_FLUSH_ITEM, 1, 0) == CMWQ_NOT_NOW && nothing_is_written());
    CHECK(start(&board, worker(0)) == CMWQ_OK && outputs.item == 0);
    CHECK(begin(&board, worker(0), CMWQ_FLUSH_ITEM, 0, 0) == CMWQ_ITSELF && nothing_is_written());
    CHECK(begin(&board, worker(0), CMWQ_FLUSH_ITEM, 1, 0) == CMWQ_WAITS && outputs.party == 2);
    CHECK(begin(&board, user, CMWQ_FLUSH_ITEM, 1, 0) == CMWQ_NO_CALLER && nothing_is_written());
    CHECK(begin(&board, worker(0), CMWQ_FLUSH_ITEM, 1, 0) == CMWQ_NOT_NOW && nothing_is_written());
    CHECK(end(&board, 2) == CMWQ_WAITS);
    CHECK(start(&board, worker(1)) == CMWQ_OK && outputs.item == 1 && outputs.number == 1);
    CHECK(begin(&board, worker(1), CMWQ_FLUSH_ITEM, 0, 0) == CMWQ_DEADLOCK && nothing_is_written());
    CHECK(finish(&board, worker(0)) == CMWQ_NOT_NOW && nothing_is_written());
    CHECK(finish(&board, worker(1)) == CMWQ_OK && names_caller(2));
    CHECK(end(&board, 2) == CMWQ_OK);
    CHECK(call(&board, worker(0), CMWQ_SLEEP, 0, 0) == CMWQ_OK && outputs.reply.kind == CMWQ_SLEPT);
    CHECK(call(&board, worker(0), CMWQ_WAKE, 0, 0) == CMWQ_OK && outputs.reply.kind == CMWQ_WOKE);
    CHECK(finish(&board, worker(0)) == CMWQ_OK);
    cmwq_board_close(&board);
}

/* A run leaves its wait. No entry is made, and it goes on once its worker has woken it. Another may wait for it. */
static void a_run_leaves_its_wait(void)
{
    struct cmwq_board board = {0};
    struct cmwq_lines lines = {0};

    open_board(&board, 100, 2);
    CHECK(cmwq_lines_open(&lines, &board) == CMWQ_OK);
    CHECK(call(&board, user, CMWQ_QUEUE, 0, 0) == CMWQ_OK && call(&board, user, CMWQ_QUEUE, 1, 1) == CMWQ_OK);
    CHECK(start(&board, worker(0)) == CMWQ_OK && outputs.item == 0);
    CHECK(begin(&board, worker(0), CMWQ_FLUSH_ITEM, 1, 0) == CMWQ_WAITS && outputs.party == 1);
    CHECK(end(&board, 1) == CMWQ_WAITS);
    CHECK(start(&board, worker(1)) == CMWQ_OK && outputs.item == 1);
    CHECK(begin(&board, worker(1), CMWQ_FLUSH_ITEM, 0, 0) == CMWQ_DEADLOCK && nothing_is_written());
    CHECK(cmwq_board_len(&board) == 6);
    CHECK(leave(&board, 1) == CMWQ_OK && names_nobody() && cmwq_board_len(&board) == 6);
    CHECK(leave(&board, 1) == CMWQ_NOT_NOW && end(&board, 1) == CMWQ_NOT_NOW && nothing_is_written());
    CHECK(finish(&board, worker(0)) == CMWQ_NOT_NOW && nothing_is_written()); /* it sleeps */
    CHECK(begin(&board, worker(1), CMWQ_FLUSH_ITEM, 0, 0) == CMWQ_WAITS && outputs.party == 1);
    CHECK(end(&board, 1) == CMWQ_WAITS);
    CHECK(call(&board, worker(0), CMWQ_WAKE, 0, 0) == CMWQ_OK && outputs.reply.kind == CMWQ_WOKE);
    CHECK(begin(&board, worker(0), CMWQ_FLUSH_ITEM, 1, 0) == CMWQ_DEADLOCK && nothing_is_written());
    CHECK(finish(&board, worker(0)) == CMWQ_OK && names_caller(1) && cmwq_board_news(&board) == 0);
    CHECK(end(&board, 1) == CMWQ_OK && cmwq_board_news(&board) == 0);
    CHECK(finish(&board, worker(1)) == CMWQ_OK && names_nobody());
    CHECK(cmwq_board_news(&board) == CMWQ_LEFT_ENDED && cmwq_board_news(&board) == 0);
    hands_out(&board, &lines, CMWQ_LINE,
              "c0 0 queue 0 0 0 = yes 0\n"
              "c0 1 queue 1 1 0 = yes 1\n"
              "w0n0 0 take = started 0 enlist 1\n"
              "w0n0 1 sleep = slept\n"
              "c1 0 flush_item 1 = ticket 4\n"
              "w0n1 0 take = started 1 enlist 2\n"
              "w0n1 1 sleep = slept\n"
              "c1 1 flush_item 0 = ticket 7\n"
              "w0n0 2 wake = woke\n"
              "w0n0 3 finish = finished 0\n"
              "c1 2 end 7 = done\n"
              "w0n1 2 wake = woke\n"
              "w0n1 3 finish = finished 1\n"
              "w0n1 4 retire = retired\n"
              "c1 3 end 4 = done\n");
    cmwq_lines_close(&lines);
    cmwq_board_close(&board);
}

/* So many entries that change nothing else. */
static void cancels(struct cmwq_board *board, unsigned entries)
{
    for (unsigned k = 0; k < entries; k++)
        CHECK(call(board, user, CMWQ_CANCEL, 2, 0) == CMWQ_OK && outputs.reply.kind == CMWQ_NO);
}

/* Time goes by, a drain holds a timer back, and the board is stopped. */
static void time_goes_by(void)
{
    struct cmwq_board board = {0};
    struct cmwq_lines lines = {0};
    struct cmwq_call delay = {.number = 3, .item = 0, .kind = CMWQ_DELAY, .who = {CMWQ_CALLER, 0, 0}};

    open_board(&board, 0, 2);
    CHECK(cmwq_lines_open(&lines, &board) == CMWQ_OK);
    CHECK(cmwq_board_time(&board) == 0 && cmwq_board_due(&board) == UINT64_MAX);
    clear_outputs();
    CHECK(cmwq_board_call(&board, &delay, &outputs.reply, &outputs.wakes) == CMWQ_OK);
    CHECK(outputs.reply.kind == CMWQ_BOOKED && outputs.reply.number == 3 && cmwq_board_due(&board) == 3);
    CHECK(cmwq_board_news(&board) == CMWQ_DUE_EARLIER && cmwq_board_news(&board) == 0);
    CHECK(look_at(&board, 0) == CMWQ_OK && outputs.state.pending == CMWQ_PENDING_TIMER && outputs.state.number == 3);
    CHECK(call(&board, user, CMWQ_QUEUE, 1, 0) == CMWQ_OK);
    CHECK(start(&board, worker(0)) == CMWQ_OK && outputs.item == 1);
    CHECK(begin(&board, user, CMWQ_DRAIN, 0, 0) == CMWQ_WAITS && outputs.party == 1);
    CHECK(cmwq_board_due(&board) == UINT64_MAX && cmwq_board_news(&board) == 0);
    CHECK(advance(&board, 1, 5) == CMWQ_REFUSED && nothing_is_written());
    cancels(&board, 3);
    CHECK(advance(&board, 0, 5) == CMWQ_CROWDED && nothing_is_written());
    CHECK(cmwq_board_hand_out(&board, &lines) == CMWQ_OK && cmwq_lines_forget(&lines) == CMWQ_OK);
    CHECK(advance(&board, 0, 5) == CMWQ_OK && outputs.now == 5 && cmwq_board_time(&board) == 5);
    cancels(&board, 5);
    CHECK(cmwq_board_stop(&board, &outputs.wakes) == CMWQ_OK);
    CHECK(outputs.wakes.all_workers && outputs.wakes.all_callers && !cmwq_board_is_over(&board));
    CHECK(call(&board, user, CMWQ_QUEUE, 2, 0) == CMWQ_STOPPED && nothing_is_written());
    CHECK(begin(&board, user, CMWQ_FLUSH, 0, 0) == CMWQ_STOPPED && nothing_is_written());
    CHECK(advance(&board, 0, 5) == CMWQ_STOPPED && nothing_is_written());
    CHECK(finish(&board, worker(0)) == CMWQ_OK);
    CHECK(end(&board, 1) == CMWQ_CROWDED && nothing_is_written());
    CHECK(cmwq_board_hand_out(&board, &lines) == CMWQ_OK && cmwq_lines_forget(&lines) == CMWQ_OK);
    CHECK(end(&board, 1) == CMWQ_OK && cmwq_board_news(&board) == CMWQ_DUE_EARLIER);
    CHECK(look_at(&board, 0) == CMWQ_OK && outputs.state.pending == CMWQ_PENDING_QUEUED && outputs.state.number == 16);
    CHECK(start(&board, worker(0)) == CMWQ_OK && outputs.item == 0 && outputs.number == 16);
    CHECK(finish(&board, worker(0)) == CMWQ_OK && outputs.wakes.all_workers && cmwq_board_is_over(&board));
    CHECK(start(&board, worker(1)) == CMWQ_OVER && names_nobody());
    CHECK(look_at(&board, 4) == CMWQ_REFUSED && nothing_is_written());
    cmwq_lines_close(&lines);
    cmwq_board_close(&board);
}

/* A wait that is left, and a board that fails. */
static void a_wait_is_left(void)
{
    struct cmwq_board board = {0};

    open_board(&board, 100, 1);
    CHECK(call(&board, user, CMWQ_QUEUE, 0, 0) == CMWQ_OK && start(&board, worker(0)) == CMWQ_OK);
    CHECK(begin(&board, user, CMWQ_CANCEL_SYNC, 0, 0) == CMWQ_WAITS && outputs.party == 2);
    CHECK(outputs.reply.kind == CMWQ_TICKET_NO && outputs.reply.number == 2);
    CHECK(leave(&board, 1) == CMWQ_REFUSED && nothing_is_written());
    CHECK(leave(&board, 2) == CMWQ_OK && names_nobody());
    CHECK(leave(&board, 2) == CMWQ_NOT_NOW && nothing_is_written());
    CHECK(finish(&board, worker(0)) == CMWQ_OK);
    CHECK(cmwq_board_len(&board) >= 5 && cmwq_board_news(&board) == CMWQ_LEFT_ENDED); /* the ticket is ended too */
    CHECK(call(&board, user, CMWQ_QUEUE, 0, 0) == CMWQ_OK && start(&board, worker(0)) == CMWQ_OK);
    CHECK(begin(&board, user, CMWQ_CANCEL_SYNC, 0, 0) == CMWQ_WAITS);
    CHECK(cmwq_board_fail(&board, &outputs.wakes) == CMWQ_OK && outputs.wakes.all_workers);
    CHECK(end(&board, 2) == CMWQ_FAILED && leave(&board, 2) == CMWQ_FAILED && nothing_is_written());
    CHECK(call(&board, user, CMWQ_QUEUE, 0, 0) == CMWQ_FAILED && finish(&board, worker(0)) == CMWQ_FAILED);
    CHECK(begin(&board, user, CMWQ_FLUSH, 0, 0) == CMWQ_FAILED && advance(&board, 0, 1) == CMWQ_FAILED);
    CHECK(nothing_is_written() && cmwq_board_is_over(&board));
    CHECK(start(&board, worker(1)) == CMWQ_OVER && names_nobody());
    cmwq_board_close(&board);
}

/* Numbers outside the shape, calls of other functions, and a board without room. */
static void refused_calls(void)
{
    static const struct cmwq_who strangers[] = {
        {CMWQ_CALLER, 3, 0}, {CMWQ_WORKER, 3, 0}, {CMWQ_WORKER, 0, 1}, {3, 0, 0},
    };
    static const uint8_t others[] = {
        CMWQ_TICK, CMWQ_FIRE, CMWQ_FLUSH, CMWQ_DRAIN, CMWQ_END, CMWQ_TAKE, CMWQ_FINISH, 21, 255,
    };
    struct cmwq_board board = {0};
    struct cmwq_shape small = shape;

    open_board(&board, 100, 2);
    for (size_t i = 0; i < sizeof strangers / sizeof *strangers; i++) {
        CHECK(call(&board, strangers[i], CMWQ_QUEUE, 0, 0) == CMWQ_REFUSED && nothing_is_written());
        CHECK(start(&board, strangers[i]) == CMWQ_REFUSED && nothing_is_written());
        CHECK(finish(&board, strangers[i]) == CMWQ_REFUSED && nothing_is_written());
    }
    CHECK(start(&board, user) == CMWQ_REFUSED && finish(&board, user) == CMWQ_REFUSED);
    for (size_t i = 0; i < sizeof others / sizeof *others; i++)
        CHECK(call(&board, user, others[i], 0, 0) == CMWQ_REFUSED && nothing_is_written());
    CHECK(call(&board, (struct cmwq_who){CMWQ_CALLER, 1, 0}, CMWQ_QUEUE, 0, 0) == CMWQ_REFUSED);
    CHECK(call(&board, user, CMWQ_QUEUE, 4, 0) == CMWQ_REFUSED && call(&board, user, CMWQ_QUEUE, 0, 2) == CMWQ_REFUSED);
    CHECK(begin(&board, user, CMWQ_QUEUE, 0, 0) == CMWQ_REFUSED);
    CHECK(begin(&board, user, CMWQ_FLUSH, 0, 2) == CMWQ_REFUSED && nothing_is_written());
    CHECK(begin(&board, worker(3), CMWQ_FLUSH, 0, 0) == CMWQ_REFUSED && nothing_is_written());
    CHECK(advance(&board, 3, 1) == CMWQ_REFUSED && cmwq_board_len(&board) == 0);
    /* the index of a caller that waits isn't read */
    CHECK(begin(&board, (struct cmwq_who){CMWQ_CALLER, 77, 0}, CMWQ_FLUSH_ITEM, 0, 0) == CMWQ_OK);

    small.room = 1;
    CHECK(cmwq_board_open(&board, &small, queues, 2, 1) == CMWQ_OK);
    CHECK(call(&board, user, CMWQ_QUEUE, 0, 0) == CMWQ_FULL && nothing_is_written());
    CHECK(begin(&board, user, CMWQ_FLUSH, 0, 0) == CMWQ_FULL && nothing_is_written());
    CHECK(call(&board, user, CMWQ_FREEZE, 0, 0) == CMWQ_FULL && nothing_is_written()); /* its thaw is owed */
    CHECK(call(&board, user, CMWQ_CANCEL, 0, 0) == CMWQ_OK && outputs.reply.kind == CMWQ_NO);
    CHECK(call(&board, user, CMWQ_CANCEL, 0, 0) == CMWQ_FULL && nothing_is_written());
    CHECK(advance(&board, 0, 1) == CMWQ_FULL && nothing_is_written());
    cmwq_board_close(&board);
}

/* The lines that begin a history, and with those of the entries a whole one. */
static void a_history(void)
{
    static const char wanted[] = "history 3\n";
    struct cmwq_board board = {0};
    struct cmwq_lines lines = {0};
    struct cmwq_shape none = shape;
    char text[4096];
    uint8_t verdict[CMWQ_LINE];
    size_t head = 77, len, written;

    none.cpus = 0;
    memset(text, 9, sizeof text);
    CHECK(cmwq_head(&none, queues, 2, (uint8_t *)text, sizeof text, &head) == CMWQ_REFUSED && head == 77);
    CHECK(cmwq_head(&shape, queues, 2, (uint8_t *)text, 10, &head) == CMWQ_SHORT && head == 77 && text[0] == 9);
    CHECK(cmwq_head(&shape, queues, 2, (uint8_t *)text, sizeof text, &head) == CMWQ_OK);
    CHECK(head > strlen(wanted) && memcmp(text, wanted, strlen(wanted)) == 0 && text[head - 1] == '\n');
    open_board(&board, 100, 2);
    CHECK(cmwq_lines_open(&lines, &board) == CMWQ_OK);
    CHECK(call(&board, user, CMWQ_QUEUE, 0, 0) == CMWQ_OK && start(&board, worker(0)) == CMWQ_OK);
    CHECK(finish(&board, worker(0)) == CMWQ_OK);
    CHECK(cmwq_board_hand_out(&board, &lines) == CMWQ_OK);
    CHECK(cmwq_lines_write(&lines, (uint8_t *)text + head, sizeof text - head, &written) == CMWQ_OK);
    len = head + written;
    len += (size_t)sprintf(text + len, "end %u\n", (unsigned)cmwq_board_len(&board));
    CHECK(cmwq_check((const uint8_t *)text, len, verdict, sizeof verdict, &written) == CMWQ_OK);
    CHECK(written == strlen("legal 3\n") && memcmp(verdict, "legal 3\n", written) == 0);
    cmwq_lines_close(&lines);
    cmwq_board_close(&board);
}

static uint32_t resume(const char *text, const uint8_t *left_out, size_t left_out_len, size_t most)
{
    return cmwq_resume((const uint8_t *)text, strlen(text), left_out, left_out_len, &resumed.shape, &resumed.queues,
                       resumed.calls, most, &resumed.count, &resumed.line);
}

/* The calls that resume a history, of which a run was broken off and whose last line was cut. */
static void a_resume(void)
{
    static const char front[] =
        "history 3\nshape 1 1 3 8 100\nwq 2 f\nwq 1 -\nwq 1 -\nc0 0 set_max 0 3 = width 3\n"
        "c0 1 queue 6 0 0 = yes 1\nw0n0 0 take = started 1\nc0 2 queue 5 1 0 = yes 3\nc0 3 delay 2 0 0 3 = booked 3\n"
        "c0 4 delay 3 1 0 50 = booked 50\nc0 5 tick 5 = now 5\nc1 0 destroy 2 = ticket 7\nc1 1 end 7 = done\n"
        "c0 6 freeze = frozen\nc0 7 del";
    static const struct { uint8_t kind; uint16_t item; uint8_t queue; uint32_t number; uint64_t ticket; } wanted[] = {
        {CMWQ_SET_MAX, 0, 0, 3, 0}, {CMWQ_DESTROY, 0, 2, 0, 0}, {CMWQ_END, 0, 0, 0, 1}, {CMWQ_FREEZE, 0, 0, 0, 0},
        {CMWQ_QUEUE, 6, 0, 0, 0},   {CMWQ_QUEUE, 5, 1, 0, 0},   {CMWQ_DELAY, 2, 0, 1, 0}, {CMWQ_TICK, 0, 0, 1, 0},
        {CMWQ_DELAY, 3, 1, 45, 0}};
    enum { MANY = sizeof wanted / sizeof *wanted };
    uint8_t left_out[8] = {0};

    resumed.line = resumed.count = 77;
    CHECK(resume(front, left_out, 8, MANY - 1) == CMWQ_SHORT && resumed.count == 77 && resumed.calls[0].kind == 0);
    CHECK(resume(front, left_out, 8, MANY) == CMWQ_OK && resumed.count == MANY && resumed.queues == 3);
    CHECK(resumed.shape.items == 8 && resumed.shape.cpus == 1 && resumed.shape.workers == 1);
    CHECK(resumed.shape.callers == 3 && resumed.shape.room == 100 && resumed.shape.keep == 0);
    for (int k = 0; k < MANY; k++) {
        const struct cmwq_call *it = &resumed.calls[k];

        CHECK(it->kind == wanted[k].kind && it->item == wanted[k].item && it->queue == wanted[k].queue);
        CHECK(it->number == wanted[k].number && it->ticket == wanted[k].ticket && it->cpu == 0);
        CHECK(it->who.kind == CMWQ_CALLER && it->who.index == 0 && it->who.cpu == 0);
    }
    /* what was broken off is left out, and what was queued is not */
    left_out[6] = left_out[5] = 1;
    CHECK(resume(front, left_out, 6, MANY) == CMWQ_OK && resumed.count == MANY);
    CHECK(resume(front, left_out, 7, MANY) == CMWQ_OK && resumed.count == MANY - 1 && resumed.calls[4].item == 5);
    CHECK(resumed.line == 77);
    /* lines that are wrong */
    CHECK(resume("no history", left_out, 0, MANY) == CMWQ_REFUSED && resumed.line == 1);
    CHECK(resume("history 3\nshape 1 1 3 8 100\nwq 2 f\nc0 0 freeze = thawd\n", left_out, 0, MANY) == CMWQ_REFUSED);
    CHECK(resumed.line == 4);
    CHECK(resume("history 3\nshape 1 1 3 8 100\nwq 2 f\nc0 0 freeze = no\n", left_out, 0, MANY) == CMWQ_ILLEGAL);
    CHECK(resumed.line == 4);
    CHECK(resume("shape 1 1 3 8 100\nwq 2 -\nc0 0 cancel 0 = no\nc0 1 cancel 0 = unbooked\n", left_out, 0, MANY) ==
          CMWQ_ILLEGAL);
    CHECK(resumed.line == 4 && resumed.count == MANY - 1);
}

int main(void)
{
    CHECK(cmwq_version() == CMWQ_VERSION);
    a_resume();
    opens_and_closes();
    a_flush();
    runs_that_wait();
    a_run_leaves_its_wait();
    time_goes_by();
    a_wait_is_left();
    refused_calls();
    a_history();
    return 0;
}
