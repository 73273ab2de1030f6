/* Queues an item, runs it and flushes: all as one thread, which plays caller and worker. docs/C.md goes through it. */
#include "cmwq.h"
#include <stdio.h>

static struct cmwq_book book; /* zeros: no book */

static struct cmwq_reply step(struct cmwq_call call)
{
    struct cmwq_reply reply = {0};
    uint32_t status = cmwq_step(&book, &call, &reply);

    if (status != CMWQ_OK)
        printf("status %u\n", (unsigned)status);
    return reply;
}

int main(void)
{
    struct cmwq_shape shape = {.room = 100, .keep = 100, .items = 2, .cpus = 1, .workers = 2, .callers = 1};
    struct cmwq_queue queue = {.max_active = 1};
    struct cmwq_who worker = {.kind = CMWQ_WORKER};
    struct cmwq_reply flush;
    uint8_t line[CMWQ_LINE];
    size_t len;

    if (cmwq_open(&book, &shape, &queue, 1) != CMWQ_OK)
        return 1;
    step((struct cmwq_call){.kind = CMWQ_QUEUE, .item = 1});
    flush = step((struct cmwq_call){.kind = CMWQ_FLUSH});
    printf("the flush has ticket %llu, ready: %d\n", (unsigned long long)flush.number, cmwq_ready(&book, flush.number));
    step((struct cmwq_call){.kind = CMWQ_TAKE, .who = worker});
    printf("item 1 runs\n");
    step((struct cmwq_call){.kind = CMWQ_FINISH, .who = worker});
    printf("ready: %d\n", cmwq_ready(&book, flush.number));
    step((struct cmwq_call){.kind = CMWQ_END, .ticket = flush.number});
    for (uint64_t n = 0; n < cmwq_len(&book); n++)
        if (cmwq_entry_line(&book, n, line, sizeof line, &len) == CMWQ_OK)
            fwrite(line, 1, len, stdout);
    cmwq_close(&book);
    return 0;
}
