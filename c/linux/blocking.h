/*
 * What the headers here share that stand in place of the kernel's: a run of a work that blocks in them says so, and
 * others of its pool may start meanwhile. You may replace each of them by one of your own.
 */
#ifndef CMWQ_LINUX_BLOCKING_H
#define CMWQ_LINUX_BLOCKING_H
#include <linux/workqueue.h>
#include <pthread.h>

#define MAX_SCHEDULE_TIMEOUT ((long)(~0UL >> 1))

/* Waits for a signal, at most until these jiffies, or MAX_SCHEDULE_TIMEOUT; a run says that it blocks. Return: whether
   there may have been one */
bool cmwq_linux_wait(pthread_cond_t *changed, pthread_mutex_t *lock, unsigned long until);
/* Sleeps so many microseconds. @busy: a run doesn't say that it blocks */
void cmwq_linux_sleep(unsigned long us, bool busy);

static inline unsigned long cmwq_linux_until(long timeout)
{ return timeout == MAX_SCHEDULE_TIMEOUT ? (unsigned long)timeout : jiffies + (unsigned long)timeout; }
/* What is left of a timeout, and at least 1: it isn't over. */
static inline long cmwq_linux_left(unsigned long until)
{
    long left = until == MAX_SCHEDULE_TIMEOUT ? MAX_SCHEDULE_TIMEOUT : (long)(until - jiffies);

    return left > 0 ? left : 1;
}

#endif
