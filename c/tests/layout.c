/*
 * The structs lie as the crate has them: their sizes and the offsets of all fields are those that it proves, when this
 * is compiled; and each field of a call comes back from the entry as it went in, when it runs.
 */
#include "check.h"
#include "cmwq_layout.h" /* tools/c writes it from what the crate proves */

#define LIES(type, field, offset) _Static_assert(offsetof(struct type, field) == offset, #type "." #field);

_Static_assert(sizeof(struct cmwq_book) == CMWQ_SIZE_Handle, "book");
_Static_assert(sizeof(struct cmwq_shape) == CMWQ_SIZE_ShapeNumbers, "shape");
_Static_assert(sizeof(struct cmwq_queue) == CMWQ_SIZE_QueueNumbers, "queue");
_Static_assert(sizeof(struct cmwq_who) == CMWQ_SIZE_WhoNumbers, "who");
_Static_assert(sizeof(struct cmwq_call) == CMWQ_SIZE_CallNumbers, "call");
_Static_assert(sizeof(struct cmwq_reply) == CMWQ_SIZE_ReplyNumbers, "reply");
_Static_assert(sizeof(struct cmwq_entry) == CMWQ_SIZE_EntryNumbers, "entry");
_Static_assert(sizeof(struct cmwq_wakes) == CMWQ_SIZE_WakesNumbers, "wakes");
_Static_assert(sizeof(struct cmwq_item) == CMWQ_SIZE_ItemNumbers, "item");
_Static_assert(sizeof(struct cmwq_board) == CMWQ_SIZE_BoardHandle, "board");
_Static_assert(sizeof(struct cmwq_lines) == CMWQ_SIZE_LinesHandle, "lines");

CMWQ_FIELDS_ShapeNumbers(LIES, cmwq_shape)
CMWQ_FIELDS_QueueNumbers(LIES, cmwq_queue)
CMWQ_FIELDS_WhoNumbers(LIES, cmwq_who)
CMWQ_FIELDS_CallNumbers(LIES, cmwq_call)
CMWQ_FIELDS_ReplyNumbers(LIES, cmwq_reply)
CMWQ_FIELDS_EntryNumbers(LIES, cmwq_entry)
CMWQ_FIELDS_WakesNumbers(LIES, cmwq_wakes)
CMWQ_FIELDS_ItemNumbers(LIES, cmwq_item)

/* the crate has the pointer in a struct of its own, alone */
CMWQ_FIELDS_Held(LIES, cmwq_book)
CMWQ_FIELDS_HeldBoard(LIES, cmwq_board)
CMWQ_FIELDS_HeldLines(LIES, cmwq_lines)
#define held at
CMWQ_FIELDS_Handle(LIES, cmwq_book)
CMWQ_FIELDS_BoardHandle(LIES, cmwq_board)
CMWQ_FIELDS_LinesHandle(LIES, cmwq_lines)
#undef held

static bool same_call(const struct cmwq_call *a, const struct cmwq_call *b)
{
    return a->ticket == b->ticket && a->number == b->number && a->item == b->item && a->kind == b->kind &&
           a->queue == b->queue && a->cpu == b->cpu && a->who.kind == b->who.kind && a->who.index == b->who.index &&
           a->who.cpu == b->who.cpu;
}

int main(void)
{
    static const char *const lines[] = {
        "w3h7 0 modify 255 63 2 4278190081 = misuse\n",
        "c63 0 end 1234567890123 = misuse\n",
        "c62 0 set_max 5 511 = width 511\n",
    };
    struct cmwq_shape shape = {
        .room = (uint64_t)1 << 62, .keep = 7, .items = 256, .cpus = 4, .workers = 8, .callers = 64};
    struct cmwq_queue queues[64];
    struct cmwq_call calls[3] = {
        {.number = 0xff000001u,
         .item = 255,
         .kind = CMWQ_MODIFY,
         .queue = 63,
         .cpu = 2,
         .who = {CMWQ_HIGH_WORKER, 7, 3}},
        {.ticket = 1234567890123u, .kind = CMWQ_END, .who = {CMWQ_CALLER, 63, 0}},
        {.number = 511, .queue = 5, .kind = CMWQ_SET_MAX, .who = {CMWQ_CALLER, 62, 0}},
    };
    struct cmwq_book book = {0};
    struct cmwq_reply reply;
    struct cmwq_entry entry;
    uint8_t line[CMWQ_LINE];
    size_t len;

    for (int i = 0; i < 64; i++)
        queues[i] = (struct cmwq_queue){.max_active = 512, .high = i == 63, .intensive = i == 62, .freezable = i == 61};
    CHECK(cmwq_open(&book, &shape, queues, 64) == CMWQ_OK);
    CHECK(cmwq_room_left(&book) == (uint64_t)1 << 62);
    for (uint64_t i = 0; i < 3; i++) {
        CHECK(cmwq_step(&book, &calls[i], &reply) == CMWQ_OK);
        CHECK(cmwq_entry(&book, i, &entry) == CMWQ_OK);
        CHECK(same_call(&entry.call, &calls[i]) && entry.serial == 0);
        CHECK(entry.reply.kind == reply.kind && entry.reply.number == reply.number &&
              entry.reply.other == reply.other && entry.reply.item == reply.item);
        CHECK(cmwq_entry_line(&book, i, line, sizeof line, &len) == CMWQ_OK);
        CHECK(len == strlen(lines[i]) && memcmp(line, lines[i], len) == 0);
    }
    CHECK(cmwq_room_left(&book) == ((uint64_t)1 << 62) - 3);
    cmwq_close(&book);
    return 0;
}
