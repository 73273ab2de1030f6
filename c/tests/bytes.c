/* Boards and lines: closed handles, handles closed twice, any numbers at all, too little space and too short buffers.
 * At a fault nothing is written. */
#include "check.h"

static struct cmwq_shape shape = {.room = 1 << 20, .keep = 0, .items = 3, .cpus = 2, .workers = 2, .callers = 4};
static struct cmwq_queue queues[2] = {{.max_active = 2}, {.max_active = 1, .high = 1, .freezable = 1}};

static struct cmwq_board board;
static struct cmwq_lines lines;

/* What the calls write, which is all 5 until one is done. */
static struct {
    struct cmwq_reply reply;
    struct cmwq_wakes wakes;
    struct cmwq_item item;
    uint64_t number;
    uint16_t started;
    uint8_t party;
} out, before;

static void reset(void)
{
    memset(&out, 5, sizeof out);
    before = out;
}

static bool is_done(uint32_t status)
{
    return status == CMWQ_OK || status == CMWQ_WAITS || status == CMWQ_RESTS || status == CMWQ_OVER ||
           status == CMWQ_LOOK_AGAIN;
}

/* The status is one of these (bits), and nothing was written at another than a done one. */
static uint32_t wants(uint32_t status, uint64_t may)
{
    CHECK(status <= CMWQ_LOOK_AGAIN && may >> status & 1);
    CHECK(is_done(status) || memcmp(&out, &before, sizeof out) == 0);
    return status;
}

#define BIT(status) ((uint64_t)1 << (status))

static const uint64_t call_faults = BIT(CMWQ_REFUSED) | BIT(CMWQ_FULL) | BIT(CMWQ_CROWDED) | BIT(CMWQ_STOPPED) |
                                    BIT(CMWQ_FAILED);

static void closed(void)
{
    struct cmwq_call call = {.kind = CMWQ_QUEUE}, wait = {.kind = CMWQ_FLUSH};
    struct cmwq_who worker = {CMWQ_WORKER, 0, 0};
    uint8_t text[CMWQ_LINE];
    size_t written = 77;

    reset();
    wants(cmwq_board_call(&board, &call, &out.reply, &out.wakes), BIT(CMWQ_CLOSED));
    wants(cmwq_board_start(&board, &worker, &out.started, &out.number, &out.wakes), BIT(CMWQ_CLOSED));
    wants(cmwq_board_finish(&board, &worker, &out.wakes), BIT(CMWQ_CLOSED));
    wants(cmwq_board_begin(&board, &wait, &out.party, &out.reply, &out.wakes), BIT(CMWQ_CLOSED));
    wants(cmwq_board_end(&board, 1, &out.wakes), BIT(CMWQ_CLOSED));
    wants(cmwq_board_leave(&board, 1, &out.wakes), BIT(CMWQ_CLOSED));
    wants(cmwq_board_advance(&board, 0, 1, &out.number, &out.wakes), BIT(CMWQ_CLOSED));
    wants(cmwq_board_item(&board, 0, &out.item), BIT(CMWQ_CLOSED));
    wants(cmwq_board_stop(&board, &out.wakes), BIT(CMWQ_CLOSED));
    wants(cmwq_board_fail(&board, &out.wakes), BIT(CMWQ_CLOSED));
    CHECK(cmwq_board_time(&board) == 0 && cmwq_board_due(&board) == UINT64_MAX && cmwq_board_is_over(&board) &&
          cmwq_board_len(&board) == 0 && cmwq_board_news(&board) == 0);
    CHECK(cmwq_board_hand_out(&board, &lines) == CMWQ_CLOSED && cmwq_lines_open(&lines, &board) == CMWQ_CLOSED);
    CHECK(cmwq_lines_write(&lines, text, sizeof text, &written) == CMWQ_CLOSED && written == 77 &&
          cmwq_lines_forget(&lines) == CMWQ_CLOSED);
    cmwq_board_close(&board);
    cmwq_lines_close(&lines);
}

static void shapes(void)
{
    struct cmwq_shape wrong[] = {shape, shape, shape, shape, shape, shape, shape};
    uint8_t text[256];
    size_t written = 77;

    wrong[0].cpus = 0;
    wrong[1].cpus = 65;
    wrong[2].workers = 0;
    wrong[3].workers = 65;
    wrong[4].items = 0;
    wrong[5].callers = 0;
    wrong[6].room = ((uint64_t)1 << 62) + 1;
    for (size_t k = 0; k < sizeof wrong / sizeof *wrong; k++) {
        CHECK(cmwq_board_open(&board, &wrong[k], queues, 2, 0) == CMWQ_REFUSED && !board.live);
        CHECK(cmwq_head(&wrong[k], queues, 2, text, sizeof text, &written) == CMWQ_REFUSED && written == 77);
    }
    CHECK(cmwq_board_open(&board, &shape, queues, 2, 5) == CMWQ_REFUSED && !board.live);
    CHECK(cmwq_board_open(&board, &shape, queues, 0, 2) == CMWQ_REFUSED && !board.live);
    for (size_t len = 0; len < 60; len++) {
        static const char head[] = "history 3\nshape 2 2 4 3 1048576\nwq 2 -\nwq 1 hf\n";
        uint32_t status = cmwq_head(&shape, queues, 2, text, len, &written);

        CHECK(status == (len < sizeof head - 1 ? (uint32_t)CMWQ_SHORT : (uint32_t)CMWQ_OK));
        CHECK(status != CMWQ_OK || (written == sizeof head - 1 && !memcmp(text, head, written)));
    }
}

static void texts(void)
{
    struct cmwq_call call = {.kind = CMWQ_QUEUE};
    struct cmwq_lines other = {0};
    struct cmwq_board larger = {0};
    struct cmwq_shape more = shape;
    uint8_t text[2 * CMWQ_LINE];
    size_t written = 77;

    CHECK(cmwq_board_open(&board, &shape, queues, 2, 2) == CMWQ_OK && cmwq_lines_open(&lines, &board) == CMWQ_OK);
    CHECK(cmwq_lines_write(&lines, text, 0, &written) == CMWQ_OK && written == 0);
    reset();
    for (int k = 0; k < 10; k++) /* as many as two calls may make, and no more */
        wants(cmwq_board_call(&board, &call, &out.reply, &out.wakes), BIT(CMWQ_OK));
    reset();
    wants(cmwq_board_call(&board, &call, &out.reply, &out.wakes), BIT(CMWQ_CROWDED));
    CHECK(cmwq_board_hand_out(&board, &lines) == CMWQ_OK);
    wants(cmwq_board_call(&board, &call, &out.reply, &out.wakes), BIT(CMWQ_OK));
    CHECK(cmwq_board_hand_out(&board, &lines) == CMWQ_REFUSED &&
          cmwq_lines_write(&lines, text, 10, &written) == CMWQ_SHORT && written == 0);
    for (int k = 0; k < 10; k++) { /* a line at a time */
        CHECK(cmwq_lines_write(&lines, text, 30, &written) == CMWQ_OK && written > 20 && text[written - 1] == '\n');
        CHECK(memcmp(text, k ? "c0 1 queue 0 0 0 = no\n" : "c0 0 queue 0 0 0 = yes 0\n", 4 - (k > 1)) == 0);
    }
    CHECK(cmwq_lines_write(&lines, text, sizeof text, &written) == CMWQ_OK && written == 0);
    CHECK(cmwq_board_hand_out(&board, &lines) == CMWQ_OK && cmwq_lines_forget(&lines) == CMWQ_OK);
    CHECK(cmwq_lines_write(&lines, text, sizeof text, &written) == CMWQ_OK && written == 0 &&
          cmwq_board_hand_out(&board, &lines) == CMWQ_OK);
    more.keep = 100;
    CHECK(cmwq_board_open(&larger, &more, queues, 2, 2) == CMWQ_OK &&
          cmwq_board_hand_out(&larger, &lines) == CMWQ_REFUSED);
    CHECK(cmwq_lines_open(&other, &larger) == CMWQ_OK && cmwq_board_hand_out(&board, &other) == CMWQ_OK &&
          cmwq_board_len(&board) == 11);
    cmwq_board_close(&larger);
    cmwq_lines_close(&other);
    cmwq_lines_close(&other);
    cmwq_lines_close(&lines);
    cmwq_board_close(&board);
    cmwq_board_close(&board);
}

static void fill(uint64_t *seed, void *at, size_t size)
{
    for (size_t k = 0; k < size; k++) /* mostly small numbers */
        ((uint8_t *)at)[k] = (uint8_t)(next_random(seed) % (next_random(seed) % 4 ? 4 : 256));
}

/* Calls of any bytes at all. */
static void any_bytes(uint64_t seed)
{
    struct cmwq_call call;
    struct cmwq_who who;
    uint64_t now = 0;

    CHECK(cmwq_board_open(&board, &shape, queues, 2, 2) == CMWQ_OK && cmwq_lines_open(&lines, &board) == CMWQ_OK);
    for (int k = 0; k < 2000; k++) {
        uint64_t len = cmwq_board_len(&board);
        uint32_t status = CMWQ_OK;

        fill(&seed, &call, sizeof call);
        fill(&seed, &who, sizeof who);
        call.kind = (uint8_t)(next_random(&seed) % 23);
        reset();
        switch (next_random(&seed) % 10) {
        case 0: case 1: case 2:
            status = wants(cmwq_board_call(&board, &call, &out.reply, &out.wakes), call_faults | BIT(CMWQ_OK));
            break;
        case 3:
            status = wants(cmwq_board_start(&board, &who, &out.started, &out.number, &out.wakes),
                           BIT(CMWQ_OK) | BIT(CMWQ_RESTS) | BIT(CMWQ_OVER) | BIT(CMWQ_REFUSED) | BIT(CMWQ_CROWDED) |
                               BIT(CMWQ_NOT_NOW));
            break;
        case 4:
            status = wants(cmwq_board_finish(&board, &who, &out.wakes), BIT(CMWQ_OK) | BIT(CMWQ_REFUSED) |
                                                                            BIT(CMWQ_FULL) | BIT(CMWQ_CROWDED) |
                                                                            BIT(CMWQ_FAILED) | BIT(CMWQ_NOT_NOW));
            break;
        case 5: case 6:
            status = wants(cmwq_board_begin(&board, &call, &out.party, &out.reply, &out.wakes),
                           call_faults | BIT(CMWQ_OK) | BIT(CMWQ_WAITS) | BIT(CMWQ_NOT_NOW) | BIT(CMWQ_ITSELF) |
                               BIT(CMWQ_DEADLOCK) | BIT(CMWQ_NO_CALLER));
            break;
        case 7:
            status = wants(cmwq_board_end(&board, call.item & 255, &out.wakes),
                           BIT(CMWQ_OK) | BIT(CMWQ_WAITS) | BIT(CMWQ_LOOK_AGAIN) | BIT(CMWQ_OVER) | BIT(CMWQ_REFUSED) |
                               BIT(CMWQ_CROWDED) | BIT(CMWQ_FAILED) | BIT(CMWQ_NOT_NOW));
            break;
        case 8:
            status = wants(cmwq_board_leave(&board, call.item & 255, &out.wakes),
                           BIT(CMWQ_OK) | BIT(CMWQ_REFUSED) | BIT(CMWQ_FAILED) | BIT(CMWQ_NOT_NOW));
            break;
        default:
            status = wants(cmwq_board_advance(&board, call.item & 255, call.number & 1023, &out.number, &out.wakes),
                           call_faults | BIT(CMWQ_OK));
            CHECK(status != CMWQ_OK || (out.number >= now && out.number == cmwq_board_time(&board)));
            now = cmwq_board_time(&board);
        }
        CHECK(is_done(status) || cmwq_board_len(&board) == len);
        reset();
        wants(cmwq_board_item(&board, call.item, &out.item), BIT(CMWQ_OK) | BIT(CMWQ_REFUSED));
        if (next_random(&seed) % 4 == 0 || status == CMWQ_CROWDED)
            CHECK(cmwq_board_hand_out(&board, &lines) == CMWQ_OK && cmwq_lines_forget(&lines) == CMWQ_OK);
        if (k == 1500 && next_random(&seed) % 2)
            CHECK(cmwq_board_stop(&board, &out.wakes) == CMWQ_OK && out.wakes.all_workers && out.wakes.all_callers);
        if (k == 1800 && next_random(&seed) % 2)
            CHECK(cmwq_board_fail(&board, &out.wakes) == CMWQ_OK && out.wakes.all_workers &&
                  cmwq_board_is_over(&board));
    }
    cmwq_lines_close(&lines);
    cmwq_board_close(&board);
}

int main(void)
{
    closed();
    shapes();
    texts();
    for (uint64_t seed = 1; seed <= 100; seed++)
        any_bytes(seed * 0x9e3779b97f4a7c15);
    return 0;
}
