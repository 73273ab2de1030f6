/*
 * replay FILE..: makes the calls of each history by lines, and again by the numbers of its entries: each gives the
 * entry, byte for byte. A file that isn't legal by cmwq_check is read up to its first wrong entry, and must be wrong
 * there. Prints how many entries were made.
 */
#include "check.h"

static char text[1 << 22];

static size_t read_all(const char *name)
{
    FILE *file = fopen(name, "rb");
    size_t len;

    CHECK(file != NULL);
    len = fread(text, 1, sizeof text, file);
    CHECK(len < sizeof text);
    fclose(file);
    return len;
}

/* The call that stands in an entry: its who, and what stands between the serial and the reply. */
static size_t call_in(const char *line, const char *end, char *call)
{
    const char *serial = memchr(line, ' ', (size_t)(end - line)), *rest = NULL, *answer = NULL;
    size_t who, len;

    CHECK(serial != NULL);
    rest = memchr(serial + 1, ' ', (size_t)(end - serial - 1));
    CHECK(rest != NULL);
    for (const char *at = rest; at + 3 <= end && !answer; at++)
        if (memcmp(at, " = ", 3) == 0)
            answer = at;
    CHECK(answer != NULL);
    who = (size_t)(serial - line);
    len = (size_t)(answer - rest);
    memcpy(call, line, who);
    memcpy(call + who, rest, len);
    return who + len;
}

static unsigned long replay(const char *name)
{
    size_t all = read_all(name), len, number_len;
    char *line = text, *end, call[CMWQ_LINE];
    struct cmwq_shape shape = {0};
    struct cmwq_queue queues[255];
    struct cmwq_book book = {0}, by_number = {0};
    unsigned long long room, wrong_at = ~0ull, made = 0;
    unsigned cpus, workers, callers, items, max_active, count = 0;
    uint8_t out[CMWQ_LINE], other[CMWQ_LINE];
    char flags[8];
    uint32_t status = cmwq_check((const uint8_t *)text, all, out, sizeof out, &len);

    if (status == CMWQ_REFUSED)
        return 0;
    CHECK(status == CMWQ_OK || status == CMWQ_ILLEGAL);
    if (status == CMWQ_ILLEGAL)
        CHECK(sscanf((const char *)out, "illegal at %llu:", &wrong_at) == 1);
    if (strncmp(text, "history", 7) == 0)
        line = strchr(line, '\n') + 1;
    CHECK(sscanf(line, "shape %u %u %u %u %llu", &cpus, &workers, &callers, &items, &room) == 5);
    /* the room of a history isn't judged: as much as there may be */
    shape = (struct cmwq_shape){.room = (uint64_t)1 << 40,
                                .keep = 100000,
                                .items = (uint16_t)items,
                                .cpus = (uint8_t)cpus,
                                .workers = (uint8_t)workers,
                                .callers = (uint8_t)callers};
    line = strchr(line, '\n') + 1;
    for (; sscanf(line, "wq %u %7s", &max_active, flags) == 2; line = strchr(line, '\n') + 1)
        queues[count++] = (struct cmwq_queue){(uint16_t)max_active, strchr(flags, 'h') != NULL,
                                              strchr(flags, 'i') != NULL, strchr(flags, 'f') != NULL};
    CHECK(cmwq_open(&book, &shape, queues, count) == CMWQ_OK &&
          cmwq_open(&by_number, &shape, queues, count) == CMWQ_OK);
    /* a history of format 3 has a last line after its entries */
    for (; line < text + all && strncmp(line, "end ", 4) != 0; line = end + 1, made++) {
        struct cmwq_entry entry;
        struct cmwq_reply reply;
        size_t call_len;

        end = memchr(line, '\n', (size_t)(text + all - line));
        call_len = call_in(line, end, call);
        CHECK(cmwq_step_line(&book, (const uint8_t *)call, call_len, out, sizeof out, &len) == CMWQ_OK);
        if (made == wrong_at) {
            CHECK(len != (size_t)(end + 1 - line) || memcmp(out, line, len) != 0);
            break;
        }
        CHECK(len == (size_t)(end + 1 - line) && memcmp(out, line, len) == 0);
        CHECK(cmwq_entry(&book, made, &entry) == CMWQ_OK && cmwq_would(&by_number, &entry.call, &reply) == CMWQ_OK);
        CHECK(memcmp(&reply, &entry.reply, sizeof reply - 5) == 0 &&
              cmwq_step(&by_number, &entry.call, &reply) == CMWQ_OK);
        CHECK(reply.kind == entry.reply.kind && reply.number == entry.reply.number &&
              reply.other == entry.reply.other && reply.item == entry.reply.item);
        CHECK(cmwq_entry_line(&by_number, made, other, sizeof other, &number_len) == CMWQ_OK && number_len == len &&
              memcmp(other, out, len) == 0);
    }
    CHECK(wrong_at == ~0ull || made == wrong_at);
    cmwq_close(&book);
    cmwq_close(&by_number);
    return (unsigned long)made;
}

int main(int argc, char **argv)
{
    unsigned long made = 0;

    for (int i = 1; i < argc; i++)
        made += replay(argv[i]);
    printf("%lu\n", made);
    return made == 0;
}
