/* Calls with queues that were destroyed are told by their names, and do nothing; others that were made since are not
   taken for them. */
#include "check.h"

static int warned, ran;
static char last[200];
static pthread_mutex_t lock = PTHREAD_MUTEX_INITIALIZER;

static void note(const struct cmwq_linux_warning *it)
{
    pthread_mutex_lock(&lock);
    snprintf(last, sizeof last, "%s/%s/%s: %s", it->call, it->work ? it->work : "-", it->queue ? it->queue : "-",
             it->why);
    warned++;
    pthread_mutex_unlock(&lock);
}

/* Whether there was one warning more, which was this. */
static void expect(int line, const char *text)
{
    static int known;

    pthread_mutex_lock(&lock);
    if (warned != ++known || strcmp(last, text)) {
        fprintf(stderr, "gone.c:%d: %d warnings, the last: %s\n", line, warned, last);
        exit(1);
    }
    pthread_mutex_unlock(&lock);
}
#define EXPECT(text) expect(__LINE__, text)

static void count(struct work_struct *work)
{
    (void)work;
    ADD(ran, 1);
}
static DECLARE_WORK(work, count);
static DECLARE_DELAYED_WORK(later, count);

static void run_on(struct workqueue_struct *wq)
{
    CHECK(queue_work(wq, &work));
    flush_work(&work);
}

static struct workqueue_struct *named(int k) { return alloc_workqueue("number-%d", k % 3 ? 0 : WQ_UNBOUND, 0, k); }

int main(void)
{
    struct cmwq_linux_options options = {.warn = note};
    struct workqueue_struct *first, *made[40];
    static struct rcu_work rcu;

    CHECK(cmwq_linux_open(&options) == 0);
    first = named(0);
    CHECK(first && queue_work(first, &work));
    destroy_workqueue(first);
    CHECK(ran == 1 && warned == 0);

    /* each call, also while others have been made and are gone */
    for (int k = 0; k < 40; k++) {
        CHECK((made[k] = named(k + 1)) && made[k] != first);
        run_on(made[k]);
    }
    CHECK(!queue_work(first, &work));
    EXPECT("queue_work/count/number-0: the queue was destroyed");
    CHECK(!queue_delayed_work(first, &later, 1) && !delayed_work_pending(&later));
    EXPECT("queue_delayed_work/count/number-0: the queue was destroyed");
    CHECK(!mod_delayed_work_on(0, first, &later, 0));
    EXPECT("mod_delayed_work/count/number-0: the queue was destroyed");
    flush_workqueue(first);
    EXPECT("flush_workqueue/-/number-0: the queue was destroyed");
    drain_workqueue(first);
    EXPECT("drain_workqueue/-/number-0: the queue was destroyed");
    workqueue_set_max_active(first, 2);
    EXPECT("workqueue_set_max_active/-/number-0: the queue was destroyed");
    destroy_workqueue(first);
    EXPECT("destroy_workqueue/-/number-0: the queue was destroyed");
    INIT_RCU_WORK(&rcu, count);
    CHECK(queue_rcu_work(first, &rcu));
    rcu_barrier();
    EXPECT("queue_work/count/number-0: the queue was destroyed");
    for (int k = 0; k < 40; k += 2) destroy_workqueue(made[k]);
    CHECK(!queue_work(made[2], &work));
    EXPECT("queue_work/count/number-3: the queue was destroyed");
    for (int k = 1; k < 40; k += 2) run_on(made[k]);
    CHECK(ran == 61);

    /* one that has no name any more, and one that there never was */
    for (int k = 0; k < 64; k++) destroy_workqueue(named(k));
    flush_workqueue(NULL);
    EXPECT("flush_workqueue/-/-: there is no such queue: it was destroyed, or never made");
    CHECK(!queue_work((struct workqueue_struct *)(void *)&work, &work));
    EXPECT("queue_work/count/-: there is no such queue: it was destroyed, or never made");

    /* those of the system stay */
    destroy_workqueue(system_unbound_wq);
    EXPECT("destroy_workqueue/-/events_unbound: the queue is one of the system's, and stays");
    run_on(system_unbound_wq);
    for (int k = 1; k < 40; k += 2) destroy_workqueue(made[k]);
    CHECK(ran == 62 && cmwq_linux_close() == 0);
    flush_workqueue(made[1]);
    EXPECT("flush_workqueue/-/number-2: the queue was destroyed");
    return 0;
}
