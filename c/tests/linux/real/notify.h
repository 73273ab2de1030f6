/* For drivers/gpu/drm/nouveau/nvkm/core/notify.c, whose headers are core/notify.h and core/event.h. */
#pragma once
#include "stub.h"
struct nvkm_object;
struct nvkm_event;
enum { NVKM_NOTIFY_USER, NVKM_NOTIFY_WORK, NVKM_NOTIFY_DROP = 0, NVKM_NOTIFY_KEEP = 1 };
struct nvkm_notify {
    struct nvkm_event *event; struct list_head head; unsigned long flags; int block, size, types, index;
    struct work_struct work; int (*func)(struct nvkm_notify *it); const void *data;
};
struct nvkm_event_func { int (*ctor)(struct nvkm_object *it, void *data, u32 size, struct nvkm_notify *notify); };
struct nvkm_event {
    const struct nvkm_event_func *func; struct list_head list; spinlock_t refs_lock, list_lock; int *refs, got;
};
#define assert_spin_locked(it) BUG_ON(spin_trylock(it))
#define nvkm_event_get(event, types, index) ((void)(types), (void)(index), (event)->got++)
#define nvkm_event_put(event, types, index) ((void)(types), (void)(index), (event)->got--)
void nvkm_notify_put(struct nvkm_notify *it);
void nvkm_notify_get(struct nvkm_notify *it);
void nvkm_notify_send(struct nvkm_notify *it, void *data, u32 size);
void nvkm_notify_fini(struct nvkm_notify *it);
int nvkm_notify_init(struct nvkm_object *object, struct nvkm_event *event, int (*func)(struct nvkm_notify *),
                     bool work, void *data, u32 size, u32 reply, struct nvkm_notify *it);
