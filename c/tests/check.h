/* What the tests share. */
#ifndef CHECK_H
#define CHECK_H
#include "cmwq.h"
#include "holds.h"
#include <string.h>

/* xorshift: the tests' random numbers */
static inline uint32_t next_random(uint64_t *seed)
{
    *seed ^= *seed << 13;
    *seed ^= *seed >> 7;
    *seed ^= *seed << 17;
    return (uint32_t)(*seed >> 16);
}

/* A random call of a shape, now and then outside it. */
static inline struct cmwq_call random_call(uint64_t *seed, const struct cmwq_shape *shape, unsigned queues,
                                           uint64_t len)
{
    static const uint8_t often[] = {CMWQ_QUEUE, CMWQ_QUEUE, CMWQ_DELAY, CMWQ_MODIFY, CMWQ_CANCEL,     CMWQ_TICK,
                                    CMWQ_FIRE,  CMWQ_TAKE,  CMWQ_TAKE,  CMWQ_FINISH, CMWQ_FINISH,     CMWQ_SLEEP,
                                    CMWQ_WAKE,  CMWQ_END,   CMWQ_END,   CMWQ_FLUSH,  CMWQ_FLUSH_ITEM, CMWQ_CANCEL_SYNC};
    struct cmwq_call call;

    memset(&call, 0, sizeof call);
    call.kind = next_random(seed) % 30 ? often[next_random(seed) % sizeof often] : (uint8_t)(next_random(seed) % 21);
    if (call.kind == CMWQ_DESTROY && next_random(seed) % 16)
        call.kind = CMWQ_QUEUE; /* a queue that is gone takes no more */
    call.item = (uint16_t)(next_random(seed) % shape->items);
    call.queue = (uint8_t)(next_random(seed) % queues);
    call.cpu = (uint8_t)(next_random(seed) % shape->cpus);
    call.number = 1 + next_random(seed) % 9;
    call.ticket = len ? next_random(seed) % len : 0;
    if ((call.kind >= CMWQ_TAKE && call.kind <= CMWQ_RETIRE) ||
        (call.kind <= CMWQ_CANCEL && next_random(seed) % 4 == 0)) {
        call.who.kind = (uint8_t)(CMWQ_WORKER + next_random(seed) % 2);
        call.who.index = (uint8_t)(next_random(seed) % shape->workers);
        call.who.cpu = (uint8_t)(next_random(seed) % shape->cpus);
    } else {
        call.who.index = (uint8_t)(next_random(seed) % shape->callers);
    }
    return call;
}
#endif
