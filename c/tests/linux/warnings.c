/* What a kernel warns of is told, with its names, and the program goes on. */
#include "check.h"

static int warned;
static char last[200];
static pthread_mutex_t lock = PTHREAD_MUTEX_INITIALIZER;

static void note(const struct cmwq_linux_warning *it)
{
    pthread_mutex_lock(&lock);
    snprintf(last, sizeof last, "%s/%s/%s/%s: %s", it->call, it->work ? it->work : "-", it->queue ? it->queue : "-",
             it->caller ? it->caller : "-", it->why);
    warned++;
    pthread_mutex_unlock(&lock);
}

/* Whether there was one warning more, which was this. */
static void expect(int line, const char *text)
{
    static int known;

    pthread_mutex_lock(&lock);
    if (warned != ++known || strcmp(last, text)) {
        fprintf(stderr, "warnings.c:%d: %d warnings, the last: %s\n", line, warned, last);
        exit(1);
    }
    pthread_mutex_unlock(&lock);
}
#define EXPECT(text) expect(__LINE__, text)

static int open_gate, entered, ran;
static void wait_for_gate(struct work_struct *work)
{
    (void)work;
    ADD(entered, 1);
    while (!GET(open_gate)) rest(100);
    ADD(ran, 1);
}
static void count(struct work_struct *work)
{
    (void)work;
    ADD(ran, 1);
}

static void hold(struct work_struct *work)
{
    (void)work;
    while (!GET(open_gate)) rest(100);
}
static DECLARE_WORK(holder, hold);
static void wait_for_holder(struct work_struct *work)
{
    (void)work;
    flush_work(&holder);
}
static DECLARE_WORK(waiter, wait_for_holder);

static void *destroy(void *at)
{
    destroy_workqueue((struct workqueue_struct *)at);
    return NULL;
}

int main(void)
{
    struct cmwq_linux_options options = {.warn = note, .works = 8, .stall_ms = 500};
    struct workqueue_struct *queues[64], *wq;
    struct work_struct work, many[9], blank = {0};
    static struct delayed_work late;
    pthread_t thread;
    int made = 0, extra = 0;

    CHECK(cmwq_linux_open(&options) == 0);

    CHECK(!schedule_work(&blank));
    EXPECT("queue_work/-/events/-: the work has no function: INIT_WORK comes first");
    INIT_WORK_ONSTACK(&work, count);
    CHECK(!schedule_work_on(2, &work));
    EXPECT("queue_work/count/events/-: no such number, or outside its limits");
    cmwq_linux_set_cpu(1);
    CHECK(schedule_work(&work));
    flush_work(&work);
    CHECK(ran == 1);

    /* INIT_WORK of a work that is pending, but not of one that runs, or that was another one */
    freeze_workqueues_begin();
    CHECK(queue_work(system_freezable_wq, &work));
    INIT_WORK_ONSTACK(&work, count);
    EXPECT("INIT_WORK/count/-/-: the work is pending, or was freed while it was");
    CHECK(!queue_work(system_freezable_wq, &work));
    thaw_workqueues();
    flush_work(&work);
    CHECK(ran == 2);
    INIT_WORK_ONSTACK(&work, wait_for_gate);
    CHECK(schedule_work_on(0, &work));
    while (!GET(entered)) rest(100);
    CHECK(work_busy(&work) == WORK_BUSY_RUNNING);
    INIT_WORK_ONSTACK(&work, count);
    CHECK(!work_busy(&work) && schedule_work_on(1, &work));
    flush_work(&work);
    CHECK(ran == 3);

    /* a run that holds its CPU, once; not one that waits in a call, or is on no CPU */
    CHECK(queue_work(system_unbound_wq, &holder) && schedule_work_on(1, &waiter));
    rest(1500000);
    EXPECT("stall/wait_for_gate/events/-: it has held its CPU for too long, and does not say that it blocks");
    SET(open_gate, 1);
    flush_scheduled_work();
    CHECK(ran == 4 && !work_busy(&holder));
    rest(800000); /* nor one that has ended */
    open_gate = 0;

    /* a queue that is being destroyed, and one on which a work is delayed */
    wq = alloc_workqueue("going", WQ_UNBOUND, 0);
    INIT_WORK_ONSTACK(&many[0], wait_for_gate);
    INIT_WORK_ONSTACK(&work, count);
    CHECK(queue_work(wq, &many[0]));
    while (GET(entered) < 2) rest(100);
    CHECK(!pthread_create(&thread, NULL, destroy, wq));
    for (; queue_work(wq, &work); extra++, rest(1000)) flush_work(&work); /* until it has begun */
    EXPECT("queue_work/count/going/-: the queue is drained");
    SET(open_gate, 1);
    pthread_join(thread, NULL);
    CHECK(ran == 5 + extra);
    ran = 5;
    wq = alloc_workqueue("left", 0, 0);
    INIT_DELAYED_WORK(&late, count);
    CHECK(queue_delayed_work(wq, &late, 1000 * HZ));
    destroy_workqueue(wq);
    EXPECT("destroy_workqueue/count/left/-: the work is delayed on the queue");
    CHECK(cancel_delayed_work_sync(&late));

    /* more works, and more queues, than there may be */
    freeze_workqueues_begin();
    for (int k = 0; k < 9; k++) {
        INIT_WORK_ONSTACK(&many[k], count);
        CHECK(queue_work(system_freezable_wq, &many[k]) == (k < 8));
    }
    EXPECT("queue_work/count/events_freezable/-: too many are pending or run");
    thaw_workqueues();
    flush_workqueue(system_freezable_wq);
    CHECK(queue_work(system_freezable_wq, &many[8]));
    flush_work(&many[8]);
    CHECK(ran == 14);
    while ((queues[made] = alloc_workqueue("many-%d", WQ_HIGHPRI | WQ_UNBOUND, 0, made))) made++;
    CHECK(made == 8);
    EXPECT("alloc_workqueue/-/many-8/-: there are too many queues with these flags");
    while (made--) destroy_workqueue(queues[made]);
    CHECK(warned == 8);
    CHECK(cmwq_linux_close() == 0 && cmwq_linux_close() < 0);
    CHECK(!schedule_work(&work) && !work_busy(&work) && warned == 8); /* at the end nothing is told */
    return 0;
}
