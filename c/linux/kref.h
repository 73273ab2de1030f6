/* struct kref: an object that is released with its last reference. You may replace this file by one of your own. */
#ifndef _LINUX_KREF_H
#define _LINUX_KREF_H
#include <linux/types.h>

struct kref { unsigned int count; };

#define KREF_INIT(n) { (n) }

static inline void kref_init(struct kref *kref) { __atomic_store_n(&kref->count, 1, __ATOMIC_RELAXED); }
static inline unsigned int kref_read(const struct kref *kref)
{ return __atomic_load_n(&kref->count, __ATOMIC_RELAXED); }
static inline void kref_get(struct kref *kref) { __atomic_add_fetch(&kref->count, 1, __ATOMIC_RELAXED); }

/* Return: 1 if the object was released, or else 0 */
static inline int kref_put(struct kref *kref, void (*release)(struct kref *kref))
{
    if (__atomic_sub_fetch(&kref->count, 1, __ATOMIC_ACQ_REL)) return 0;
    release(kref);
    return 1;
}

static inline int kref_get_unless_zero(struct kref *kref)
{
    unsigned int count = kref_read(kref);

    while (count && !__atomic_compare_exchange_n(&kref->count, &count, count + 1, false, __ATOMIC_RELAXED,
                                                 __ATOMIC_RELAXED)) {}
    return count != 0;
}

#endif
