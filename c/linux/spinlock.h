/* Spinlocks, by locks that sleep. A run that waits for one holds its CPU, as in the kernel. You may replace this file
   by one of your own. */
#ifndef _LINUX_SPINLOCK_H
#define _LINUX_SPINLOCK_H
#include <pthread.h>

typedef struct { pthread_mutex_t lock; } spinlock_t;
typedef spinlock_t raw_spinlock_t;
typedef struct { pthread_rwlock_t lock; } rwlock_t;

#define __SPIN_LOCK_UNLOCKED(name) { PTHREAD_MUTEX_INITIALIZER }
#define DEFINE_SPINLOCK(name) spinlock_t name = { PTHREAD_MUTEX_INITIALIZER }
#define DEFINE_RAW_SPINLOCK(name) raw_spinlock_t name = { PTHREAD_MUTEX_INITIALIZER }
#define DEFINE_RWLOCK(name) rwlock_t name = { PTHREAD_RWLOCK_INITIALIZER }
#define spin_lock_init(it) ((void)pthread_mutex_init(&(it)->lock, NULL))
#define raw_spin_lock_init(it) spin_lock_init(it)
#define rwlock_init(it) ((void)pthread_rwlock_init(&(it)->lock, NULL))

static inline void spin_lock(spinlock_t *it) { pthread_mutex_lock(&it->lock); }
static inline int spin_trylock(spinlock_t *it) { return pthread_mutex_trylock(&it->lock) == 0; }
static inline void spin_unlock(spinlock_t *it) { pthread_mutex_unlock(&it->lock); }
static inline void read_lock(rwlock_t *it) { pthread_rwlock_rdlock(&it->lock); }
static inline void read_unlock(rwlock_t *it) { pthread_rwlock_unlock(&it->lock); }
static inline void write_lock(rwlock_t *it) { pthread_rwlock_wrlock(&it->lock); }
static inline void write_unlock(rwlock_t *it) { pthread_rwlock_unlock(&it->lock); }

/* There are no interrupts to hold off. */
#define spin_lock_irq(it) spin_lock(it)
#define spin_unlock_irq(it) spin_unlock(it)
#define spin_lock_bh(it) spin_lock(it)
#define spin_unlock_bh(it) spin_unlock(it)
#define spin_lock_nested(it, subclass) spin_lock(it)
#define spin_lock_irqsave(it, flags) ((flags) = 0, spin_lock(it))
#define spin_unlock_irqrestore(it, flags) ((void)(flags), spin_unlock(it))
#define raw_spin_lock(it) spin_lock(it)
#define raw_spin_unlock(it) spin_unlock(it)
#define raw_spin_lock_irqsave(it, flags) spin_lock_irqsave(it, flags)
#define raw_spin_unlock_irqrestore(it, flags) spin_unlock_irqrestore(it, flags)
#define read_lock_bh(it) read_lock(it)
#define read_unlock_bh(it) read_unlock(it)
#define write_lock_bh(it) write_lock(it)
#define write_unlock_bh(it) write_unlock(it)
#define read_lock_irqsave(it, flags) ((flags) = 0, read_lock(it))
#define read_unlock_irqrestore(it, flags) ((void)(flags), read_unlock(it))
#define write_lock_irqsave(it, flags) ((flags) = 0, write_lock(it))
#define write_unlock_irqrestore(it, flags) ((void)(flags), write_unlock(it))

#endif
