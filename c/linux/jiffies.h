/*
 * jiffies, of which one is a tick of the hub: a millisecond. They count from the first call of the workqueues on, and
 * are a variable, because kernel code has parameters and members of this name. You may replace this file by one of your
 * own that declares the same variable.
 */
#ifndef _LINUX_JIFFIES_H
#define _LINUX_JIFFIES_H

#define HZ 1000
#define MAX_JIFFY_OFFSET ((~0UL >> 1) - 1)

extern volatile unsigned long jiffies;

static inline unsigned long msecs_to_jiffies(const unsigned int ms) { return ms; }
static inline unsigned long usecs_to_jiffies(const unsigned int us) { return us / 1000UL + (us % 1000 != 0); }
static inline unsigned long nsecs_to_jiffies(unsigned long long ns) { return (unsigned long)(ns / 1000000); }
static inline unsigned int jiffies_to_msecs(const unsigned long j) { return (unsigned int)j; }
static inline unsigned int jiffies_to_usecs(const unsigned long j) { return (unsigned int)(j * 1000); }
static inline unsigned long long get_jiffies_64(void) { return jiffies; }

#define time_after(a, b) ((long)((b) - (a)) < 0)
#define time_before(a, b) time_after(b, a)
#define time_after_eq(a, b) ((long)((a) - (b)) >= 0)
#define time_before_eq(a, b) time_after_eq(b, a)
#define time_in_range(a, b, c) (time_after_eq(a, b) && time_before_eq(a, c))
#define time_is_before_jiffies(a) time_after(jiffies, a)
#define time_is_after_jiffies(a) time_before(jiffies, a)
#define time_is_before_eq_jiffies(a) time_after_eq(jiffies, a)
#define time_is_after_eq_jiffies(a) time_before_eq(jiffies, a)

/* Rounding is for timers that expire together, which these don't. */
static inline unsigned long round_jiffies(unsigned long j) { return j; }
static inline unsigned long round_jiffies_relative(unsigned long j) { return j; }
static inline unsigned long round_jiffies_up(unsigned long j) { return j; }
static inline unsigned long round_jiffies_up_relative(unsigned long j) { return j; }

#endif
