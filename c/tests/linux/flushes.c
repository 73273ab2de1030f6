/* flush_work() in another work, others that run while a run waits or blocks, and waits that could never end. */
#include "check.h"

static int order, in_pair, warned, ran;
static const char *const wanted[][4] = {
    {"flush_work", "wait_for_itself", "events", "wait_for_itself"},
    {"cancel_work_sync", "wait_for_itself", "events", "wait_for_itself"},
    {"flush_workqueue", NULL, "events", "wait_for_itself"},
    {"drain_workqueue", NULL, "chain", "drain_it"},
    {"destroy_workqueue", NULL, "chain", "drain_it"},
};

static bool is_same(const char *one, const char *other)
{ return one && other ? !strcmp(one, other) : !one && !other; }

static void note(const struct cmwq_linux_warning *it)
{
    const char *const *line = wanted[warned];

    CHECK(warned < (int)(sizeof wanted / sizeof *wanted));
    CHECK(is_same(it->call, line[0]) && is_same(it->work, line[1]));
    CHECK(is_same(it->queue, line[2]) && is_same(it->caller, line[3]));
    CHECK(is_same(it->why, "the run would wait for its own end"));
    warned++;
}

static void take_time(struct work_struct *work)
{
    CHECK(current_work() == work);
    cmwq_linux_blocks();
    rest_in_run(100);
    SET(in_pair, 1); /* the run blocks still, and the pool of its CPU goes on */
    for (int k = 0; k < 5000 && GET(order) == 0; k++) rest(1000);
    rest(20000);
    cmwq_linux_goes_on();
    CHECK(GET(order) == 1);
    SET(order, 2);
}
static DECLARE_WORK(first, take_time);

static void wait_for_first(struct work_struct *work)
{
    (void)work;
    SET(order, 1);
    flush_work(&first);
    CHECK(GET(order) == 2);
    SET(order, 3);
}
static DECLARE_WORK(second, wait_for_first);

static void wait_for_itself(struct work_struct *work)
{
    CHECK(!flush_work(work) && !cancel_work_sync(work));
    flush_scheduled_work();
}
static DECLARE_WORK(itself, wait_for_itself);

static struct workqueue_struct *chain;
static void drain_it(struct work_struct *work)
{
    (void)work;
    drain_workqueue(chain);
    destroy_workqueue(chain);
    ran++;
}
static DECLARE_WORK(drainer, drain_it);

int main(void)
{
    struct cmwq_linux_options options = {.warn = note, .cpus = 1};

    CHECK(cmwq_linux_open(&options) == 0);
    cmwq_linux_blocks(); /* which is nothing outside of a work */
    cmwq_linux_goes_on();
    CHECK(schedule_work(&first));
    while (!GET(in_pair)) rest(100);
    CHECK(schedule_work(&second));
    flush_work(&second);
    CHECK(order == 3);
    CHECK(!flush_work(&second));
    CHECK(schedule_work(&itself));
    flush_scheduled_work();
    CHECK(warned == 3);
    chain = alloc_ordered_workqueue("chain", 0);
    CHECK(queue_work(chain, &drainer));
    flush_work(&drainer);
    CHECK(ran == 1 && warned == 5);
    destroy_workqueue(chain);
    return cmwq_linux_close() != 0;
}
