/* The program of docs/C.md: an item that writes, one that reports, and a delay. */
#include "cmwq_hub.h"

static unsigned lines;

static void write_line(struct cmwq_run *run, void *data)
{
    (void)run;
    ++*(unsigned *)data;
}

static void report(struct cmwq_run *run, void *data)
{
    cmwq_flush_work(run->hub, 0, CMWQ_FOREVER); /* the run sleeps meanwhile */
    printf("%u line\n", *(unsigned *)data);
    printf("it would wait for itself: %d\n", cmwq_flush_work(run->hub, run->item, CMWQ_FOREVER) == -CMWQ_ITSELF);
}

int main(void)
{
    struct cmwq_work works[] = {{write_line, &lines}, {report, &lines}};
    struct cmwq_queue queues[] = {{.max_active = 2}};
    struct cmwq_options options = {.works = works, .items = 2, .queues = queues, .queue_count = 1, .workers = 4};
    struct cmwq_hub hub = {0};

    if (cmwq_hub_open(&hub, &options) < 0)
        return 1;
    cmwq_queue_work_on(&hub, 0, 0, 0);
    cmwq_queue_delayed_work_on(&hub, 0, 0, 1, 5);
    cmwq_flush_delayed_work(&hub, 1, CMWQ_FOREVER);
    return cmwq_hub_close(&hub) < 0;
}
