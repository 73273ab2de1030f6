/* What the tests of linux/workqueue.h share. */
#ifndef CHECK_H
#define CHECK_H
#include "../holds.h"
#include <linux/workqueue.h>
#include <pthread.h>
#include <string.h>
#include <time.h>

#define ADD(to, number) __atomic_add_fetch(&(to), (number), __ATOMIC_SEQ_CST)
#define GET(from) __atomic_load_n(&(from), __ATOMIC_SEQ_CST)
#define SET(to, value) __atomic_store_n(&(to), (value), __ATOMIC_SEQ_CST)

static inline void rest(unsigned us)
{
    struct timespec time = {us / 1000000, (long)(us % 1000000) * 1000};

    nanosleep(&time, NULL);
}

/* As a kernel's code does that sleeps in a work. */
static inline void rest_in_run(unsigned us)
{
    cmwq_linux_blocks();
    rest(us);
    cmwq_linux_goes_on();
}

#endif
