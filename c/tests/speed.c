/* speed CALLS: the load `wide queue, take and finish` by numbers. Prints the nanoseconds a call; with a second argument
 * writes the file of the same calls there. */
#define _POSIX_C_SOURCE 199309L
#include "check.h"
#include <time.h>

static double seconds(void)
{
    struct timespec now;

    clock_gettime(CLOCK_MONOTONIC, &now);
    return (double)now.tv_sec + (double)now.tv_nsec * 1e-9;
}

int main(int argc, char **argv)
{
    long calls = argc > 1 ? atol(argv[1]) : 1000000, made = 0;
    struct cmwq_shape shape = {.room = 1000000, .keep = 1000000, .items = 64, .cpus = 4, .workers = 8, .callers = 1};
    struct cmwq_queue queue = {.max_active = 256};
    struct cmwq_book book = {0};
    struct cmwq_reply reply;
    FILE *to = argc > 2 ? fopen(argv[2], "w") : NULL;
    double spent;

    CHECK(cmwq_open(&book, &shape, &queue, 1) == CMWQ_OK);
    if (to)
        fprintf(to, "shape 4 8 1 64 1000000\nwq 256 -\n");
    spent = seconds();
    while (made + 192 <= calls) {
        for (int i = 0; i < 64; i++, made++) {
            struct cmwq_call call = {.kind = CMWQ_QUEUE, .item = (uint16_t)i, .cpu = (uint8_t)(i & 3)};

            CHECK(cmwq_step(&book, &call, &reply) == CMWQ_OK && reply.kind == CMWQ_YES);
            if (to)
                fprintf(to, "c0 queue %d 0 %d\n", i, i & 3);
        }
        for (int i = 0; i < 128; i++, made++) {
            struct cmwq_call call = {.kind = i & 1 ? CMWQ_FINISH : CMWQ_TAKE,
                                     .who = {CMWQ_WORKER, 0, (uint8_t)(i / 2 & 3)}};

            CHECK(cmwq_step(&book, &call, &reply) == CMWQ_OK && reply.kind == (i & 1 ? CMWQ_FINISHED : reply.kind) &&
                  reply.kind != CMWQ_NOTHING);
            if (to)
                fprintf(to, "w%dn0 %s\n", i / 2 & 3, i & 1 ? "finish" : "take");
        }
    }
    spent = seconds() - spent;
    CHECK(cmwq_len(&book) == (uint64_t)made);
    printf("%ld calls, %.0f ns a call\n", made, spent * 1e9 / (double)made);
    cmwq_close(&book);
    return 0;
}
