/* struct completion. A run that waits for one says that it blocks. You may replace this file by one of your own. */
#ifndef _LINUX_COMPLETION_H
#define _LINUX_COMPLETION_H
#include <limits.h>
#include <linux/blocking.h>

struct completion { pthread_mutex_t lock; pthread_cond_t changed; unsigned int done; };

#define COMPLETION_INITIALIZER(work) { PTHREAD_MUTEX_INITIALIZER, PTHREAD_COND_INITIALIZER, 0 }
#define DECLARE_COMPLETION(work) struct completion work = COMPLETION_INITIALIZER(work)
#define DECLARE_COMPLETION_ONSTACK(work) DECLARE_COMPLETION(work)
#define wait_for_completion(it) ((void)wait_for_completion_timeout(it, MAX_SCHEDULE_TIMEOUT))
#define wait_for_completion_interruptible(it) (wait_for_completion(it), 0)
#define wait_for_completion_killable(it) (wait_for_completion(it), 0)
#define wait_for_completion_interruptible_timeout(it, timeout) ((long)wait_for_completion_timeout(it, timeout))

static inline void init_completion(struct completion *it)
{
    pthread_mutex_init(&it->lock, NULL);
    pthread_cond_init(&it->changed, NULL);
    it->done = 0;
}

static inline void cmwq_linux_complete(struct completion *it, bool all)
{
    pthread_mutex_lock(&it->lock);
    if (all) it->done = UINT_MAX;
    else if (it->done != UINT_MAX) it->done++;
    pthread_cond_broadcast(&it->changed);
    pthread_mutex_unlock(&it->lock);
}
static inline void complete(struct completion *it) { cmwq_linux_complete(it, false); }
static inline void complete_all(struct completion *it) { cmwq_linux_complete(it, true); }

static inline void reinit_completion(struct completion *it)
{
    pthread_mutex_lock(&it->lock);
    it->done = 0;
    pthread_mutex_unlock(&it->lock);
}

/* Return: the jiffies that are left, at least 1; 0: it was not completed */
static inline unsigned long wait_for_completion_timeout(struct completion *it, unsigned long timeout)
{
    unsigned long until = cmwq_linux_until((long)timeout);
    bool is_done;

    pthread_mutex_lock(&it->lock);
    while (it->done == 0 && cmwq_linux_wait(&it->changed, &it->lock, until)) {}
    is_done = it->done > 0;
    if (is_done && it->done != UINT_MAX) it->done--;
    pthread_mutex_unlock(&it->lock);
    return is_done ? (unsigned long)cmwq_linux_left(until) : 0;
}

static inline bool try_wait_for_completion(struct completion *it)
{
    bool is_done;

    pthread_mutex_lock(&it->lock);
    is_done = it->done > 0;
    if (is_done && it->done != UINT_MAX) it->done--;
    pthread_mutex_unlock(&it->lock);
    return is_done;
}

static inline bool completion_done(struct completion *it)
{
    bool is_done;

    pthread_mutex_lock(&it->lock);
    is_done = it->done > 0;
    pthread_mutex_unlock(&it->lock);
    return is_done;
}

#endif
