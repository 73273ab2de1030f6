/* A library of another version than the header is refused, and the numbers of statuses have words. */
#include "cmwq.h"
#undef CMWQ_VERSION
#define CMWQ_VERSION 2000001
#include "cmwq_hub.h"
#include "check.h"

int main(void)
{
    struct cmwq_queue queue = {.max_active = 1};
    struct cmwq_options options = {.queues = &queue, .queue_count = 1, .items = 1};
    struct cmwq_hub hub = {0};

    CHECK(cmwq_hub_open(&hub, &options) == -CMWQ_OTHER_VERSION && cmwq_hub_close(&hub) == -CMWQ_CLOSED);
    CHECK(!strcmp(cmwq_why(1), "done") && !strcmp(cmwq_why(-CMWQ_NO_CALLER), "too many calls wait"));
    CHECK(strstr(cmwq_why(-CMWQ_TIMED_OUT), "time") && strstr(cmwq_why(-CMWQ_OTHER_VERSION), "version"));
    CHECK(strstr(cmwq_why(-CMWQ_HAS_TIMERS), "delayed") && strstr(cmwq_why(-99), "not"));
    return 0;
}
