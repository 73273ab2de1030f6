/* A mistake that cmwq_turns.h is to find at some seeds: cancel_delayed_work() does not wait for the run, which queues
   the work on while the queue is destroyed. */
#include "check.h"
#ifdef MENDED
#define cancel_delayed_work cancel_delayed_work_sync
#endif

static struct workqueue_struct *wq;
static int polls;

static void poll(struct work_struct *work)
{
    ADD(polls, 1);
    rest_in_run(200);
    queue_delayed_work(wq, to_delayed_work(work), 2);
}
static DECLARE_DELAYED_WORK(poller, poll);

int main(void)
{
    CHECK((wq = alloc_workqueue("poller", 0, 0)));
    queue_delayed_work(wq, &poller, 0);
    while (GET(polls) < 5) rest(1000);
    cancel_delayed_work(&poller);
    destroy_workqueue(wq);
    rest(10000);
    return cmwq_linux_close() != 0;
}
