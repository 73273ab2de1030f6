/* Calls from all sides while a hub is closed: the history that it leaves is whole, and its last line counts it. */
#include "cmwq_hub.h"
#include "check.h"
#include <unistd.h>

enum { ROUNDS = 40, CALLERS = 3, TEXT = 1 << 24 };

static struct cmwq_hub hub;
static char text[TEXT];
static size_t written;

static bool keep(void *data, const char *part, size_t len)
{
    (void)data;
    CHECK(written + len <= TEXT);
    memcpy(text + written, part, len);
    written += len;
    return true;
}

/* Makes entries for as long as the hub takes them, and goes on until it is closed. */
static void *call(void *at)
{
    unsigned mine = *(unsigned *)at;
    int result;

    do {
        cmwq_work_busy(&hub, mine);
        result = cmwq_cancel_work(&hub, mine);
        CHECK(result >= 0 || result == -CMWQ_STOPPED || result == -CMWQ_CLOSED);
    } while (result != -CMWQ_CLOSED);
    return NULL;
}

int main(void)
{
    struct cmwq_queue queue = {.max_active = 1};
    struct cmwq_options options = {.queues = &queue, .queue_count = 1, .items = CALLERS, .journal = keep};
    pthread_t threads[CALLERS];
    unsigned names[CALLERS];
    uint8_t line[CMWQ_LINE];
    size_t len;

    alarm(540);
    for (unsigned round = 0; round < ROUNDS; round++) {
        written = 0;
        CHECK(cmwq_hub_open(&hub, &options) == CMWQ_OK);
        for (unsigned k = 0; k < CALLERS; k++) {
            names[k] = k;
            CHECK(pthread_create(&threads[k], NULL, call, &names[k]) == 0);
        }
        nanosleep(&(struct timespec){0, round % 8 * 100000}, NULL);
        CHECK(cmwq_hub_close(&hub) == CMWQ_OK);
        for (unsigned k = 0; k < CALLERS; k++)
            pthread_join(threads[k], NULL);
        len = 0;
        if (cmwq_check((const uint8_t *)text, written, line, sizeof line, &len) != CMWQ_OK) {
            fprintf(stderr, "round %u: %.*s", round, (int)len, (const char *)line);
            CHECK(false);
        }
    }
    return 0;
}
