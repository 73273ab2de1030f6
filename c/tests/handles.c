/* Closed handles, handles closed twice, buffers one byte short, numbers outside the shape, a full book, and a history
 * that runs on. */
#include "check.h"

static struct cmwq_shape shape = {.room = 50, .keep = 50, .items = 2, .cpus = 1, .workers = 2, .callers = 1};
static struct cmwq_queue queue = {.max_active = 1, .high = 0, .intensive = 0, .freezable = 0};

static void closed_calls(struct cmwq_book *book)
{
    struct cmwq_book before = *book;
    struct cmwq_call call = {.kind = CMWQ_TICK, .number = 1};
    struct cmwq_who who = {0, 0, 0};
    struct cmwq_reply reply, reply0;
    struct cmwq_entry entry, entry0;
    uint8_t out[CMWQ_LINE], out0[CMWQ_LINE], bits = 77;
    uint64_t serial = 77;
    size_t written = 77;

    memset(&reply, 5, sizeof reply);
    memset(&entry, 5, sizeof entry);
    memset(out, 5, sizeof out);
    reply0 = reply;
    entry0 = entry;
    memcpy(out0, out, sizeof out);
    CHECK(cmwq_step(book, &call, &reply) == CMWQ_CLOSED);
    CHECK(cmwq_would(book, &call, &reply) == CMWQ_CLOSED);
    CHECK(cmwq_step_line(book, (const uint8_t *)"c0 fire", 7, out, sizeof out, &written) == CMWQ_CLOSED);
    CHECK(cmwq_entry(book, 0, &entry) == CMWQ_CLOSED);
    CHECK(cmwq_entry_line(book, 0, out, sizeof out, &written) == CMWQ_CLOSED);
    CHECK(cmwq_bits(book, 0, &bits) == CMWQ_CLOSED);
    CHECK(cmwq_serial(book, &who, &serial) == CMWQ_CLOSED);
    CHECK(cmwq_forget(book) == CMWQ_CLOSED);
    CHECK(!cmwq_ready(book, 0) && cmwq_len(book) == 0 && cmwq_room_left(book) == 0 && cmwq_first(book) == 0);
    CHECK(cmwq_open_count(book) == 0 && cmwq_active_count(book) == 0);
    CHECK(bits == 77 && serial == 77 && written == 77 && memcmp(&reply, &reply0, sizeof reply) == 0 &&
          memcmp(&entry, &entry0, sizeof entry) == 0);
    CHECK(memcmp(out, out0, sizeof out) == 0 && book->live == before.live && book->at == before.at && !book->live);
}

static void refused_calls(struct cmwq_book *book)
{
    struct cmwq_call outside[] = {
        {.kind = 21},
        {.kind = 255},
        {.kind = CMWQ_QUEUE, .item = 2},
        {.kind = CMWQ_QUEUE, .queue = 1},
        {.kind = CMWQ_QUEUE, .cpu = 1},
        {.kind = CMWQ_FIRE, .who = {CMWQ_CALLER, 1, 0}},
        {.kind = CMWQ_FIRE, .who = {3, 0, 0}},
        {.kind = CMWQ_TAKE},
        {.kind = CMWQ_TAKE, .who = {CMWQ_WORKER, 2, 0}},
        {.kind = CMWQ_TAKE, .who = {CMWQ_HIGH_WORKER, 0, 1}},
        {.kind = CMWQ_SET_MAX, .number = 0},
    };
    struct cmwq_who nobody[] = {{CMWQ_CALLER, 1, 0}, {CMWQ_WORKER, 2, 0}, {CMWQ_WORKER, 0, 1}, {3, 0, 0}};
    struct cmwq_reply reply = {0};
    struct cmwq_entry entry;
    uint64_t serial, len = cmwq_len(book);
    uint8_t bits, out[CMWQ_LINE];
    size_t written;

    for (size_t i = 0; i < sizeof outside / sizeof *outside; i++) {
        CHECK(cmwq_step(book, &outside[i], &reply) == CMWQ_REFUSED);
        CHECK(cmwq_would(book, &outside[i], &reply) == CMWQ_REFUSED);
    }
    for (size_t i = 0; i < sizeof nobody / sizeof *nobody; i++)
        CHECK(cmwq_serial(book, &nobody[i], &serial) == CMWQ_REFUSED);
    CHECK(cmwq_bits(book, 2, &bits) == CMWQ_REFUSED);
    CHECK(cmwq_entry(book, len, &entry) == CMWQ_REFUSED);
    CHECK(cmwq_entry_line(book, UINT64_MAX, out, sizeof out, &written) == CMWQ_REFUSED);
    CHECK(cmwq_step_line(book, (const uint8_t *)"nonsense", 8, out, sizeof out, &written) == CMWQ_REFUSED);
    CHECK(cmwq_step_line(book, (const uint8_t *)"c0 fire\n", 8, out, sizeof out, &written) == CMWQ_REFUSED);
    CHECK(cmwq_len(book) == len);
}

/* A line into a buffer that is one byte short, and into one that just holds it. */
static void short_buffers(struct cmwq_book *book)
{
    static const char call[] = "c0 queue 1 0 0", line[] = "c0 0 queue 1 0 0 = yes 0\n";
    uint8_t out[sizeof line];
    size_t written = 77, len = sizeof line - 1;

    memset(out, 9, sizeof out);
    CHECK(cmwq_step_line(book, (const uint8_t *)call, sizeof call - 1, out, len - 1, &written) == CMWQ_SHORT);
    CHECK(written == 77 && out[0] == 9 && cmwq_len(book) == 0);
    CHECK(cmwq_step_line(book, (const uint8_t *)call, sizeof call - 1, out, len, &written) == CMWQ_OK);
    CHECK(written == len && memcmp(out, line, len) == 0 && out[len] == 9 && cmwq_len(book) == 1);
    memset(out, 9, sizeof out);
    written = 77;
    CHECK(cmwq_entry_line(book, 0, out, len - 1, &written) == CMWQ_SHORT && written == 77 && out[0] == 9);
    CHECK(cmwq_entry_line(book, 0, out, len, &written) == CMWQ_OK && written == len && memcmp(out, line, len) == 0);
}

static void reads(struct cmwq_book *book)
{
    struct cmwq_call flush = {.kind = CMWQ_FLUSH}, take = {.kind = CMWQ_TAKE, .who = {CMWQ_WORKER, 0, 0}};
    struct cmwq_who caller = {CMWQ_CALLER, 0, 0}, worker = {CMWQ_WORKER, 0, 0};
    struct cmwq_reply reply;
    uint64_t serial;
    uint8_t bits;

    CHECK(cmwq_bits(book, 1, &bits) == CMWQ_OK && bits == 1 && cmwq_open_count(book) == 1 &&
          cmwq_active_count(book) == 1);
    CHECK(cmwq_would(book, &flush, &reply) == CMWQ_OK && reply.kind == CMWQ_TICKET && reply.number == 1 &&
          cmwq_len(book) == 1);
    CHECK(cmwq_step(book, &flush, &reply) == CMWQ_OK && reply.kind == CMWQ_TICKET && reply.number == 1 &&
          !cmwq_ready(book, 1));
    CHECK(cmwq_step(book, &take, &reply) == CMWQ_OK && reply.kind == CMWQ_STARTED_ENLIST && reply.number == 0 &&
          reply.other == 1);
    CHECK(cmwq_bits(book, 1, &bits) == CMWQ_OK && bits == 2);
    take.kind = CMWQ_FINISH;
    CHECK(cmwq_step(book, &take, &reply) == CMWQ_OK && reply.kind == CMWQ_FINISHED && cmwq_ready(book, 1) &&
          cmwq_open_count(book) == 0);
    CHECK(cmwq_serial(book, &caller, &serial) == CMWQ_OK && serial == 2 &&
          cmwq_serial(book, &worker, &serial) == CMWQ_OK && serial == 2);
    CHECK(cmwq_len(book) == 4 && cmwq_room_left(book) == 46 && cmwq_first(book) == 0);
}

/* Three entries are kept at once: the fourth wants that they be forgotten, and the answers are those of the whole
 * history. */
static void runs_on(void)
{
    struct cmwq_shape little = shape;
    struct cmwq_book book = {0};
    struct cmwq_call tick = {.kind = CMWQ_TICK, .number = 2};
    struct cmwq_reply reply;
    struct cmwq_entry entry;

    little.keep = 3;
    CHECK(cmwq_open(&book, &little, &queue, 1) == CMWQ_OK);
    for (uint64_t n = 0; n < 50; n++) {
        uint32_t status = cmwq_step(&book, &tick, &reply);

        if (status == CMWQ_CROWDED) {
            CHECK(n % 3 == 0 && cmwq_len(&book) == n && cmwq_entry(&book, n - 1, &entry) == CMWQ_OK &&
                  entry.serial == n - 1);
            CHECK(cmwq_would(&book, &tick, &reply) == CMWQ_CROWDED);
            CHECK(cmwq_forget(&book) == CMWQ_OK && cmwq_first(&book) == n &&
                  cmwq_entry(&book, n - 1, &entry) == CMWQ_REFUSED);
            status = cmwq_step(&book, &tick, &reply);
        }
        CHECK(status == CMWQ_OK && reply.kind == CMWQ_NOW && reply.number == 2 * n + 2);
    }
    CHECK(cmwq_forget(&book) == CMWQ_OK);
    CHECK(cmwq_step(&book, &tick, &reply) == CMWQ_FULL && cmwq_would(&book, &tick, &reply) == CMWQ_FULL &&
          cmwq_room_left(&book) == 0);
    cmwq_close(&book);
}

int main(void)
{
    struct cmwq_book book = {0};
    struct cmwq_shape wrong = shape;
    static const char legal[] = "history 2\nshape 1 2 1 2 50\nwq 1 -\nc0 0 queue 1 0 0 = yes 0\n",
                      verdict[] = "legal 1\n";
    uint8_t out[CMWQ_LINE];
    size_t written = 77;

    closed_calls(&book);
    CHECK(cmwq_open(&book, &shape, &queue, 1) == CMWQ_OK);
    short_buffers(&book);
    reads(&book);
    refused_calls(&book);
    wrong.cpus = 65;
    CHECK(cmwq_open(&book, &wrong, &queue, 1) == CMWQ_REFUSED && cmwq_len(&book) == 4);
    CHECK(cmwq_open(&book, &shape, &queue, 0) == CMWQ_REFUSED && cmwq_len(&book) == 4);
    CHECK(cmwq_open(&book, &shape, &queue, 1) == CMWQ_OK && cmwq_len(&book) == 0);
    cmwq_close(&book);
    closed_calls(&book);
    cmwq_close(&book);
    closed_calls(&book);
    runs_on();
    CHECK(cmwq_check((const uint8_t *)legal, sizeof legal - 1, out, sizeof verdict - 2, &written) == CMWQ_SHORT &&
          written == 77);
    CHECK(cmwq_check((const uint8_t *)legal, sizeof legal - 1, out, sizeof verdict - 1, &written) == CMWQ_OK &&
          written == sizeof verdict - 1);
    CHECK(memcmp(out, verdict, written) == 0);
    CHECK(cmwq_check((const uint8_t *)legal, sizeof legal - 2, out, sizeof out, &written) == CMWQ_REFUSED);
    return 0;
}
