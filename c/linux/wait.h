/* Wait queues. A run that waits in one says that it blocks. You may replace this file by one of your own. */
#ifndef _LINUX_WAIT_H
#define _LINUX_WAIT_H
#include <linux/blocking.h>

/* @wakes: how often it was woken. So a condition is looked at without the lock, and no wake is missed */
struct wait_queue_head { pthread_mutex_t lock; pthread_cond_t changed; unsigned int wakes; };
typedef struct wait_queue_head wait_queue_head_t;

#define __WAIT_QUEUE_HEAD_INITIALIZER(name) { PTHREAD_MUTEX_INITIALIZER, PTHREAD_COND_INITIALIZER, 0 }
#define DECLARE_WAIT_QUEUE_HEAD(name) struct wait_queue_head name = __WAIT_QUEUE_HEAD_INITIALIZER(name)
#define DECLARE_WAIT_QUEUE_HEAD_ONSTACK(name) DECLARE_WAIT_QUEUE_HEAD(name)

static inline void init_waitqueue_head(struct wait_queue_head *it)
{
    pthread_mutex_init(&it->lock, NULL);
    pthread_cond_init(&it->changed, NULL);
    it->wakes = 0;
}

static inline void wake_up_all(struct wait_queue_head *it)
{
    pthread_mutex_lock(&it->lock);
    it->wakes++;
    pthread_cond_broadcast(&it->changed);
    pthread_mutex_unlock(&it->lock);
}
/* Those whose condition does not hold sleep again. */
#define wake_up(it) wake_up_all(it)
#define wake_up_interruptible(it) wake_up_all(it)
#define wake_up_interruptible_all(it) wake_up_all(it)

static inline unsigned int cmwq_linux_wakes(struct wait_queue_head *it)
{
    unsigned int wakes;

    pthread_mutex_lock(&it->lock);
    wakes = it->wakes;
    pthread_mutex_unlock(&it->lock);
    return wakes;
}

/* Waits for one more wake than these. Return: whether there was one */
static inline bool cmwq_linux_wait_wake(struct wait_queue_head *it, unsigned int known, unsigned long until)
{
    bool woken;

    pthread_mutex_lock(&it->lock);
    while (it->wakes == known && cmwq_linux_wait(&it->changed, &it->lock, until)) {}
    woken = it->wakes != known;
    pthread_mutex_unlock(&it->lock);
    return woken;
}

/* The jiffies that are left, at least 1; 0: the condition does not hold. */
#define wait_event_timeout(wq_head, condition, timeout)                                 \
    ({                                                                                  \
        unsigned long until_ = cmwq_linux_until(timeout);                               \
        bool holds_, late_ = false;                                                     \
                                                                                        \
        for (;;) {                                                                      \
            unsigned int known_ = cmwq_linux_wakes(&(wq_head));                         \
                                                                                        \
            if ((holds_ = !!(condition)) || late_) break;                               \
            late_ = !cmwq_linux_wait_wake(&(wq_head), known_, until_);                  \
        }                                                                               \
        holds_ ? cmwq_linux_left(until_) : 0;                                           \
    })
#define wait_event(wq_head, condition) ((void)wait_event_timeout(wq_head, condition, MAX_SCHEDULE_TIMEOUT))
#define wait_event_interruptible(wq_head, condition) ({ wait_event(wq_head, condition); 0; })
#define wait_event_killable(wq_head, condition) ({ wait_event(wq_head, condition); 0; })
#define wait_event_interruptible_timeout(wq_head, condition, timeout) wait_event_timeout(wq_head, condition, timeout)

#endif
