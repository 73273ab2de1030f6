/* A life of a durable hub in C: life JOURNAL begin | go_on. rust/tests/durable.rs runs it before one in Rust, and after
   it. */
#include "cmwq_hub.h"

static unsigned ran[4];

static void work(struct cmwq_run *run, void *data)
{
    (void)data;
    __atomic_add_fetch(&ran[run->item], 1, __ATOMIC_SEQ_CST);
}

int main(int argc, char **argv)
{
    static const struct cmwq_queue queues[] = {{.max_active = 2}, {.max_active = 1, .freezable = 1}};
    static const struct cmwq_work works[] = {{work, NULL}, {work, NULL}, {work, NULL}, {work, NULL}};
    struct cmwq_options options = {.works = works, .items = 4, .queues = queues, .queue_count = 2, .each = true};
    struct cmwq_hub hub = {0};
    int result;

    if (argc != 3) return 2;
    options.durable = argv[1];
    result = cmwq_hub_open(&hub, &options);
    if (result < 0) return fprintf(stderr, "%s, line %llu\n", cmwq_why(result), (unsigned long long)hub.line), 3;
    if (!strcmp(argv[2], "begin")) {
        if (cmwq_freeze_workqueues(&hub) != 1 || cmwq_queue_work_on(&hub, 0, 1, 1) != 1) return 4;
        if (cmwq_queue_delayed_work_on(&hub, 0, 0, 2, 3600000) != 1) return 5;
        return -cmwq_hub_leave(&hub);
    }
    /* what Rust has left */
    if (cmwq_work_busy(&hub, 0) != 1 || cmwq_work_busy(&hub, 3) != 1 || cmwq_work_busy(&hub, 2) != 0) return 6;
    if (cmwq_thaw_workqueues(&hub) != 1 || cmwq_flush_workqueue(&hub, 1, CMWQ_FOREVER) != 1) return 7;
    if (ran[0] != 1 || ran[1] != 0 || cmwq_cancel_work(&hub, 3) != 1) return 8;
    return -cmwq_hub_close(&hub);
}
