/* Sleeps, in which a run says that it blocks, and delays, in which it holds its CPU. You may replace this file by one
   of your own. */
#ifndef _LINUX_DELAY_H
#define _LINUX_DELAY_H
#include <linux/blocking.h>

static inline void usleep_range(unsigned long least, unsigned long most) { (void)most; cmwq_linux_sleep(least, false); }
static inline void fsleep(unsigned long us) { cmwq_linux_sleep(us, false); }
static inline void msleep(unsigned int ms) { cmwq_linux_sleep(ms * 1000UL, false); }
static inline unsigned long msleep_interruptible(unsigned int ms) { msleep(ms); return 0; }
static inline void ssleep(unsigned int seconds) { msleep(seconds * 1000); }
static inline void ndelay(unsigned long ns) { cmwq_linux_sleep(ns / 1000 + 1, true); }
static inline void udelay(unsigned long us) { cmwq_linux_sleep(us, true); }
static inline void mdelay(unsigned long ms) { cmwq_linux_sleep(ms * 1000, true); }
/* As of linux/sched.h. Return: what is left of it: nothing */
static inline long schedule_timeout_uninterruptible(long timeout)
{ return msleep(jiffies_to_msecs((unsigned long)timeout)), 0; }
static inline long schedule_timeout_interruptible(long timeout) { return schedule_timeout_uninterruptible(timeout); }

#endif
