/* Queues that are made and destroyed, more than there are slots; ordered ones; drain; freeze; max_active; CPUs. */
#include "check.h"

struct step { struct work_struct work; int number; };
static int last, active, most, calls, links, pause_us = 20;
static struct workqueue_struct *chained;

static void in_order(struct work_struct *work)
{
    struct step *step = container_of(work, struct step, work);

    CHECK(step->number == last + 1);
    last = step->number;
}

static void count(struct work_struct *work)
{
    int now = ADD(active, 1), old = GET(most);

    (void)work;
    while (old < now && !__atomic_compare_exchange_n(&most, &old, now, false, __ATOMIC_SEQ_CST, __ATOMIC_SEQ_CST)) {}
    rest((unsigned)pause_us);
    ADD(active, -1);
}

static void call(struct work_struct *work)
{
    (void)work;
    ADD(calls, 1);
}
static DECLARE_WORK(caller, call);

static void chain(struct work_struct *work)
{
    if (++links < 5) CHECK(queue_work(chained, work));
}
static DECLARE_WORK(a_link, chain);

static int gate, in_gate;
static void wait_for_gate(struct work_struct *work)
{
    (void)work;
    ADD(in_gate, 1);
    while (!GET(gate)) rest_in_run(100);
}

/* A queue is congested on a CPU where works wait because max_active of them run. */
static void test_congested(unsigned flags)
{
    struct workqueue_struct *narrow = alloc_workqueue("narrow", flags, 2);
    struct work_struct works[5];

    SET(gate, 0);
    SET(in_gate, 0);
    for (int k = 0; k < 5; k++) {
        CHECK(narrow && workqueue_congested(0, narrow) == (k > 2));
        INIT_WORK_ONSTACK(&works[k], wait_for_gate);
        CHECK(queue_work_on(0, narrow, &works[k]));
        while (GET(in_gate) < (k < 2 ? k + 1 : 2)) rest(100);
    }
    CHECK(workqueue_congested(0, narrow) && workqueue_congested(1, narrow) == (flags == WQ_UNBOUND));
    cmwq_linux_set_cpu(1);
    CHECK(workqueue_congested(WORK_CPU_UNBOUND, narrow) == (flags == WQ_UNBOUND));
    cmwq_linux_set_cpu(0);
    CHECK(workqueue_congested(WORK_CPU_UNBOUND, narrow) && !workqueue_congested(0, system_wq));
    workqueue_set_max_active(narrow, 5);
    CHECK(!workqueue_congested(0, narrow));
    SET(gate, 1);
    destroy_workqueue(narrow);
    CHECK(in_gate == 5);
}

static long twice(void *at) { return 2 * *(long *)at; }

static void execute(struct work_struct *work)
{
    (void)work;
    calls = 100;
}

int main(void)
{
    struct workqueue_struct *few, *old[4];
    struct execute_work now;
    long seven = 7;

    for (int k = 0; k < 100; k++) {
        struct workqueue_struct *one = alloc_ordered_workqueue("ordered-%d", 0, k);
        struct workqueue_struct *two = alloc_workqueue("wide", WQ_CPU_INTENSIVE, 3);
        struct step steps[20], wide[20];

        CHECK(one && two);
        last = 0;
        for (int j = 0; j < 20; j++) {
            steps[j].number = j + 1;
            INIT_WORK_ONSTACK(&steps[j].work, in_order);
            INIT_WORK_ONSTACK(&wide[j].work, count);
            CHECK(queue_work_on(j % 2, one, &steps[j].work) && queue_work_on(1, two, &wide[j].work));
        }
        destroy_workqueue(one);
        CHECK(last == 20);
        flush_workqueue(two);
        destroy_workqueue(two);
    }
    CHECK(most > 1 && most <= 3);

    few = alloc_workqueue("few", WQ_UNBOUND, 0);
    workqueue_set_max_active(few, 1);
    pause_us = 10000;
    most = 0;
    for (int round = 0; most < 2; round++) { /* until two are seen to run at once */
        struct step steps[8];

        for (int j = 0; j < 8; j++) {
            INIT_WORK_ONSTACK(&steps[j].work, count);
            CHECK(queue_work_node(0, few, &steps[j].work));
        }
        flush_workqueue(few);
        CHECK(most == 1 || round > 0);
        workqueue_set_max_active(few, 8);
    }
    destroy_workqueue(few);

    chained = alloc_workqueue("chained", WQ_HIGHPRI | WQ_SYSFS | WQ_MEM_RECLAIM | WQ_POWER_EFFICIENT, 1);
    CHECK(queue_work(chained, &a_link));
    drain_workqueue(chained);
    CHECK(links == 5 && queue_work(chained, &caller));
    destroy_workqueue(chained);
    CHECK(calls == 1);

    CHECK(schedule_on_each_cpu(call) == 0 && calls == 3 && work_on_cpu(1, twice, &seven) == 14);
    CHECK(work_on_cpu_safe(0, twice, &seven) == 14);
    test_congested(0);
    test_congested(WQ_UNBOUND);
    CHECK(execute_in_process_context(execute, &now) == 0 && calls == 100);
    old[0] = create_workqueue("old");
    old[1] = create_singlethread_workqueue("single");
    old[2] = create_freezable_workqueue("freezable");
    old[3] = alloc_workqueue("cold", WQ_FREEZABLE | WQ_HIGHPRI, 0);
    freeze_workqueues_begin();
    for (int k = 0; k < 4; k++) {
        CHECK(old[k] && queue_work(old[k], &caller));
        if (k < 2) flush_work(&caller);
        else CHECK(!queue_work(old[k], &caller) && work_pending(&caller) && cancel_work(&caller));
    }
    CHECK(queue_work(system_freezable_wq, &caller) && work_busy(&caller) == WORK_BUSY_PENDING);
    thaw_workqueues();
    flush_workqueue(system_freezable_wq);
    CHECK(calls == 103 && !work_busy(&caller));
    for (int k = 0; k < 4; k++) destroy_workqueue(old[k]);
    return cmwq_linux_close() != 0;
}
