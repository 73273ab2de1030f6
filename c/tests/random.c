/* random SEED CALLS: random calls by numbers. Writes the file of calls to `calls` and the history of those with room to
 * `history`, for `cmwq step` beside it. */
#include "check.h"

static const char *const names[] = {"queue", "delay",      "modify",        "cancel",      "tick",   "fire", "flush",
                                    "drain", "flush_item", "flush_delayed", "cancel_sync", "end",    "take", "finish",
                                    "sleep", "wake",       "retire",        "set_max",     "freeze", "thaw", "destroy"};

static void spell(FILE *to, const struct cmwq_call *c)
{
    if (c->who.kind == CMWQ_CALLER)
        fprintf(to, "c%u", c->who.index);
    else
        fprintf(to, "w%u%c%u", c->who.cpu, c->who.kind == CMWQ_WORKER ? 'n' : 'h', c->who.index);
    fprintf(to, " %s", names[c->kind]);
    if (c->kind <= CMWQ_CANCEL || (c->kind >= CMWQ_FLUSH_ITEM && c->kind <= CMWQ_CANCEL_SYNC))
        fprintf(to, " %u", c->item);
    if (c->kind < CMWQ_CANCEL || c->kind == CMWQ_FLUSH || c->kind == CMWQ_DRAIN || c->kind == CMWQ_SET_MAX ||
        c->kind == CMWQ_DESTROY)
        fprintf(to, " %u", c->queue);
    if (c->kind < CMWQ_CANCEL)
        fprintf(to, " %u", c->cpu);
    if (c->kind == CMWQ_DELAY || c->kind == CMWQ_MODIFY || c->kind == CMWQ_TICK || c->kind == CMWQ_SET_MAX)
        fprintf(to, " %u", (unsigned)c->number);
    if (c->kind == CMWQ_END)
        fprintf(to, " %llu", (unsigned long long)c->ticket);
    fputc('\n', to);
}

int main(int argc, char **argv)
{
    uint64_t seed = argc > 1 ? strtoull(argv[1], NULL, 10) * 0x9e3779b97f4a7c15u + 1 : 1;
    long calls = argc > 2 ? atol(argv[2]) : 1000;
    struct cmwq_shape shape = {.keep = 1000000};
    struct cmwq_queue queues[4];
    struct cmwq_book book = {0};
    unsigned count = 1 + next_random(&seed) % 4;
    FILE *to_calls = fopen("calls", "w"), *to_history = fopen("history", "w");
    uint64_t tickets[8] = {0};
    unsigned known = 0;
    uint8_t line[CMWQ_LINE];
    size_t len;

    CHECK(to_calls && to_history);
    shape.room = (uint64_t)(calls * 3 / 4);
    shape.items = (uint16_t)(1 + next_random(&seed) % 12);
    shape.cpus = (uint8_t)(1 + next_random(&seed) % 2);
    shape.workers = (uint8_t)(1 + next_random(&seed) % 3);
    shape.callers = (uint8_t)(1 + next_random(&seed) % 5);
    fprintf(to_calls, "shape %u %u %u %u %llu\n", shape.cpus, shape.workers, shape.callers, shape.items,
            (unsigned long long)shape.room);
    fprintf(to_history, "history 2\nshape %u %u %u %u %llu\n", shape.cpus, shape.workers, shape.callers, shape.items,
            (unsigned long long)shape.room);
    for (unsigned q = 0; q < count; q++) {
        char flags[4] = "", *at = flags;

        queues[q] = (struct cmwq_queue){(uint16_t)(1 + next_random(&seed) % 4), next_random(&seed) % 3 == 0,
                                        next_random(&seed) % 3 == 0, next_random(&seed) % 2};
        if (queues[q].high)
            *at++ = 'h';
        if (queues[q].intensive)
            *at++ = 'i';
        if (queues[q].freezable)
            *at++ = 'f';
        if (at == flags)
            *at++ = '-';
        *at = 0;
        fprintf(to_calls, "wq %u %s\n", queues[q].max_active, flags);
        fprintf(to_history, "wq %u %s\n", queues[q].max_active, flags);
    }
    CHECK(cmwq_open(&book, &shape, queues, count) == CMWQ_OK);
    for (long i = 0; i < calls; i++) {
        struct cmwq_call call = random_call(&seed, &shape, count, cmwq_len(&book));
        struct cmwq_reply would, reply;
        uint32_t first, status;

        if (call.kind == CMWQ_END && next_random(&seed) % 4)
            call.ticket = tickets[next_random(&seed) % 8];
        first = cmwq_would(&book, &call, &would);
        status = cmwq_step(&book, &call, &reply);

        CHECK(status == CMWQ_OK || status == CMWQ_FULL);
        CHECK(first == status && (status != CMWQ_OK || (would.kind == reply.kind && would.number == reply.number &&
                                                        would.other == reply.other)));
        spell(to_calls, &call);
        if (status == CMWQ_OK && reply.kind >= CMWQ_TICKET && reply.kind <= CMWQ_TICKET_NO)
            tickets[known++ % 8] = reply.number;
        if (status == CMWQ_OK) {
            CHECK(cmwq_entry_line(&book, cmwq_len(&book) - 1, line, sizeof line, &len) == CMWQ_OK);
            fwrite(line, 1, len, to_history);
        }
    }
    fclose(to_calls);
    fclose(to_history);
    cmwq_close(&book);
    return 0;
}
