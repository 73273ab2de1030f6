/* A mistake that cmwq_turns.h is to find at some seeds: a flush under a lock that the work takes. */
#include "check.h"
#include <linux/mutex.h>

static DEFINE_MUTEX(lock);
static int ran;

static void poll(struct work_struct *work)
{
    (void)work;
    mutex_lock(&lock);
    ran++;
    mutex_unlock(&lock);
}
static DECLARE_WORK(poller, poll);

int main(void)
{
    schedule_work(&poller);
    rest(1);
    mutex_lock(&lock);
#ifdef MENDED
    mutex_unlock(&lock);
    flush_work(&poller);
#else
    flush_work(&poller);
    mutex_unlock(&lock);
#endif
    CHECK(ran == 1);
    return cmwq_linux_close() != 0;
}
