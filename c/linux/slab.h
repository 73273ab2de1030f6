/* The kernel's memory, by malloc. You may replace this file by one of your own. */
#ifndef _LINUX_SLAB_H
#define _LINUX_SLAB_H
#include <linux/types.h>
#include <stdlib.h>
#include <string.h>

#define GFP_KERNEL 1u
#define GFP_ATOMIC 2u
#define GFP_NOWAIT 4u
#define GFP_NOIO 8u
#define GFP_NOFS 16u
#define __GFP_ZERO 256u
#define __GFP_NOWARN 512u

static inline void *kmalloc(size_t size, gfp_t flags) { return flags & __GFP_ZERO ? calloc(1, size) : malloc(size); }
static inline void *kzalloc(size_t size, gfp_t flags) { return kmalloc(size, flags | __GFP_ZERO); }
static inline void *kcalloc(size_t n, size_t size, gfp_t flags) { return (void)flags, calloc(n, size); }
static inline void *kmalloc_array(size_t n, size_t size, gfp_t flags) { return kcalloc(n, size, flags); }
static inline void *krealloc(const void *at, size_t size, gfp_t flags)
{ return (void)flags, realloc((void *)(uintptr_t)at, size); }
static inline void kfree(const void *at) { free((void *)(uintptr_t)at); }

static inline void *kmemdup(const void *from, size_t size, gfp_t flags)
{
    void *to = kmalloc(size, flags);

    return to ? memcpy(to, from, size) : NULL;
}
static inline char *kstrdup(const char *text, gfp_t flags)
{ return text ? (char *)kmemdup(text, strlen(text) + 1, flags) : NULL; }

#endif
