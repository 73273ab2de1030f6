/* struct mutex. A run that waits for one says that it blocks. You may replace this file by one of your own. */
#ifndef _LINUX_MUTEX_H
#define _LINUX_MUTEX_H
#include <linux/blocking.h>

struct mutex { pthread_mutex_t lock; };

#define DEFINE_MUTEX(name) struct mutex name = { PTHREAD_MUTEX_INITIALIZER }
#define mutex_init(mutex) ((void)pthread_mutex_init(&(mutex)->lock, NULL))
#define mutex_destroy(mutex) ((void)pthread_mutex_destroy(&(mutex)->lock))
#define mutex_lock_nested(mutex, subclass) mutex_lock(mutex)
#define mutex_lock_interruptible(mutex) (mutex_lock(mutex), 0)
#define mutex_lock_killable(mutex) (mutex_lock(mutex), 0)

static inline int mutex_trylock(struct mutex *mutex) { return pthread_mutex_trylock(&mutex->lock) == 0; }
static inline void mutex_unlock(struct mutex *mutex) { pthread_mutex_unlock(&mutex->lock); }

static inline void mutex_lock(struct mutex *mutex)
{
    if (mutex_trylock(mutex)) return;
    cmwq_linux_blocks();
    pthread_mutex_lock(&mutex->lock);
    cmwq_linux_goes_on();
}

static inline bool mutex_is_locked(struct mutex *mutex)
{
    if (!mutex_trylock(mutex)) return true;
    mutex_unlock(mutex);
    return false;
}

#endif
