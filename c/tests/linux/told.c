/* A warning is a line on standard error, and with CMWQ_LINUX_ABORTS the program's end. The workqueues close at exit. */
#include "check.h"

static void wait_for_itself(struct work_struct *work) { flush_work(work); }
static DECLARE_WORK(itself, wait_for_itself);

int main(void)
{
    struct workqueue_struct *wq = alloc_ordered_workqueue("ends-%s", WQ_MEM_RECLAIM, "here");

    queue_work(wq, &itself);
    flush_workqueue(wq);
    destroy_workqueue(wq);
    queue_work(wq, &itself);
    return 0;
}
