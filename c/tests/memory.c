/* Each allocation refused in turn, over a heap of its own: the status says so, the handle is as it was, and no block is
 * left. */
#include "check.h"

struct block { bool ok; void *at; };

static long left, live;

struct block rattle_alloc(size_t size, size_t align);
struct block rattle_realloc(void *old, size_t kept, size_t size, size_t align);
void rattle_dealloc(void *at);

struct block rattle_alloc(size_t size, size_t align)
{
    void *at = left-- > 0 ? malloc(size ? size : align) : NULL;

    live += at != NULL;
    return (struct block){at != NULL, at};
}

struct block rattle_realloc(void *old, size_t kept, size_t size, size_t align)
{
    void *at = left-- > 0 ? realloc(old, size ? size : align) : NULL;

    (void)kept;
    return (struct block){at != NULL, at ? at : old};
}

void rattle_dealloc(void *at)
{
    live--;
    free(at);
}

/* No other call takes memory: with none left all go on as ever. */
static void others(struct cmwq_book *book)
{
    static const char line[] = "c1 flush 0";
    struct cmwq_call call = {.kind = CMWQ_QUEUE};
    struct cmwq_who who = {CMWQ_CALLER, 0, 0};
    struct cmwq_reply reply;
    struct cmwq_entry entry;
    uint8_t out[CMWQ_LINE], bits;
    uint64_t serial;
    size_t written;

    left = 0;
    CHECK(cmwq_would(book, &call, &reply) == CMWQ_OK && cmwq_step(book, &call, &reply) == CMWQ_OK &&
          reply.kind == CMWQ_YES);
    CHECK(cmwq_step_line(book, (const uint8_t *)line, sizeof line - 1, out, sizeof out, &written) == CMWQ_OK);
    CHECK(cmwq_entry(book, 1, &entry) == CMWQ_OK && entry.reply.kind == CMWQ_TICKET);
    CHECK(cmwq_entry_line(book, 0, out, sizeof out, &written) == CMWQ_OK);
    CHECK(cmwq_bits(book, 0, &bits) == CMWQ_OK && cmwq_serial(book, &who, &serial) == CMWQ_OK && !cmwq_ready(book, 1));
    CHECK(cmwq_open_count(book) == 1 && cmwq_active_count(book) == 1 && cmwq_room_left(book) == 998 &&
          cmwq_first(book) == 0);
    CHECK(cmwq_forget(book) == CMWQ_OK && cmwq_len(book) == 2 && left == 0);
}

/* How many allocations an open takes. */
static long opens(void)
{
    struct cmwq_shape shape = {.room = 1000, .keep = 1000, .items = 20, .cpus = 2, .workers = 2, .callers = 3};
    struct cmwq_queue queues[3] = {{1, 0, 0, 0}, {2, 1, 0, 0}, {3, 0, 1, 1}};

    for (long many = 0;; many++) {
        struct cmwq_book book = {0};

        left = many;
        if (cmwq_open(&book, &shape, queues, 3) == CMWQ_OK) {
            others(&book);
            CHECK(cmwq_open(&book, &shape, queues, 3) == CMWQ_NO_MEMORY && book.live && cmwq_len(&book) == 2);
            cmwq_close(&book);
            CHECK(live == 0);
            return many;
        }
        CHECK(!book.live && live == 0 && left < 0);
    }
}

/* No other call of a board and of lines takes memory. */
static void others_of_board(struct cmwq_board *board, struct cmwq_lines *lines)
{
    struct cmwq_call call = {.kind = CMWQ_QUEUE}, flush = {.kind = CMWQ_FLUSH};
    struct cmwq_who worker = {CMWQ_WORKER, 0, 0};
    struct cmwq_wakes wakes;
    struct cmwq_reply reply;
    struct cmwq_item state;
    uint8_t out[CMWQ_LINE], party;
    uint64_t number;
    uint16_t item;
    size_t written;

    left = 0;
    CHECK(cmwq_board_call(board, &call, &reply, &wakes) == CMWQ_OK);
    CHECK(cmwq_board_start(board, &worker, &item, &number, &wakes) == CMWQ_OK);
    CHECK(cmwq_board_begin(board, &flush, &party, &reply, &wakes) == CMWQ_WAITS);
    CHECK(cmwq_board_finish(board, &worker, &wakes) == CMWQ_OK);
    CHECK(cmwq_board_end(board, party, &wakes) == CMWQ_OK);
    CHECK(cmwq_board_advance(board, 0, 1, &number, &wakes) == CMWQ_OK);
    CHECK(cmwq_board_item(board, 0, &state) == CMWQ_OK && cmwq_board_due(board) == UINT64_MAX);
    CHECK(cmwq_board_hand_out(board, lines) == CMWQ_OK);
    CHECK(cmwq_lines_write(lines, out, sizeof out, &written) == CMWQ_OK && written > 0);
    CHECK(cmwq_lines_forget(lines) == CMWQ_OK && left == 0);
}

/* How many allocations a board and its lines take. */
static long boards(void)
{
    struct cmwq_shape shape = {.room = 1000, .keep = 1000, .items = 20, .cpus = 2, .workers = 2, .callers = 3};
    struct cmwq_queue queues[3] = {{1, 0, 0, 0}, {2, 1, 0, 0}, {3, 0, 1, 1}};

    for (long many = 0;; many++) {
        struct cmwq_board board = {0};
        struct cmwq_lines lines = {0};
        uint32_t status;

        left = many;
        status = cmwq_board_open(&board, &shape, queues, 3, 1);
        if (status == CMWQ_OK)
            status = cmwq_lines_open(&lines, &board);
        if (status == CMWQ_OK) {
            others_of_board(&board, &lines);
            CHECK(cmwq_lines_open(&lines, &board) == CMWQ_NO_MEMORY && lines.live && board.live);
            CHECK(cmwq_board_open(&board, &shape, queues, 3, 1) == CMWQ_NO_MEMORY && board.live);
            cmwq_lines_close(&lines);
            cmwq_board_close(&board);
            CHECK(live == 0);
            return many;
        }
        CHECK(status == CMWQ_NO_MEMORY && !lines.live && left < 0);
        cmwq_board_close(&board);
        CHECK(live == 0);
    }
}

/* How many the head of a history takes. */
static long heads(void)
{
    struct cmwq_shape shape = {.room = 1000, .keep = 1000, .items = 20, .cpus = 2, .workers = 2, .callers = 3};
    struct cmwq_queue queue = {1, 0, 0, 0};
    uint8_t out[3 * CMWQ_LINE];
    size_t written = 77;

    for (long many = 0;; many++) {
        uint32_t status;

        left = many;
        status = cmwq_head(&shape, &queue, 1, out, sizeof out, &written);
        CHECK(live == 0);
        if (status == CMWQ_OK)
            return many;
        CHECK(status == CMWQ_NO_MEMORY && written == 77);
    }
}

/* How many a verdict takes. */
static long judges(void)
{
    static const char text[] = "history 2\nshape 1 2 1 2 50\nwq 1 -\nc0 0 queue 1 0 0 = yes 0\n";
    uint8_t out[CMWQ_LINE];
    size_t written = 77;

    for (long many = 0;; many++) {
        uint32_t status;

        left = many;
        status = cmwq_check((const uint8_t *)text, sizeof text - 1, out, sizeof out, &written);
        CHECK(live == 0);
        if (status == CMWQ_OK)
            return many;
        CHECK(status == CMWQ_NO_MEMORY && written == 77);
    }
}

/* How many the calls that resume a history take. */
static long resumes(void)
{
    static const char text[] = "history 2\nshape 1 2 1 2 50\nwq 1 -\nc0 0 queue 1 0 0 = yes 0\n";
    struct cmwq_shape shape = {.keep = 77};
    struct cmwq_call calls[2];
    size_t queues = 77, count = 77;
    uint64_t line = 77;
    uint8_t none = 0;

    for (long many = 0;; many++) {
        uint32_t status;

        left = many;
        status = cmwq_resume((const uint8_t *)text, sizeof text - 1, &none, 1, &shape, &queues, calls, 2, &count,
                             &line);
        CHECK(live == 0 && line == 77);
        if (status == CMWQ_OK)
            return many;
        CHECK(status == CMWQ_NO_MEMORY && count == 77 && queues == 77 && shape.keep == 77);
    }
}

int main(void)
{
    CHECK(opens() > 10);
    CHECK(judges() > 10);
    CHECK(resumes() > 10);
    CHECK(boards() > 10);
    CHECK(heads() > 0);
    return 0;
}
