/* drivers/gpu/drm/nouveau/nvkm/core/notify.c: events that are sent while those who listen come and go. */
#include "../check.h"
#include "notify.h"

static int references, heard;
static bool is_over;

static int construct(struct nvkm_object *it, void *data, u32 size, struct nvkm_notify *notify)
{
    (void)it, (void)data, (void)size;
    notify->size = sizeof(int);
    return 0;
}

static int listen(struct nvkm_notify *it)
{
    CHECK(*(const int *)it->data == 7);
    return ADD(heard, 1) % 5 ? NVKM_NOTIFY_KEEP : NVKM_NOTIFY_DROP;
}

static const struct nvkm_event_func functions = {construct};
static struct nvkm_event event = {.func = &functions, .refs = &references};
static struct nvkm_notify listeners[2];

static void *send(void *none)
{
    while (!GET(is_over)) {
        int value = 7;

        spin_lock(&event.list_lock);
        for (int k = 0; k < 2; k++) nvkm_notify_send(&listeners[k], &value, sizeof value);
        spin_unlock(&event.list_lock);
        rest(20);
    }
    return none;
}

int main(void)
{
    pthread_t thread;

    spin_lock_init(&event.refs_lock);
    spin_lock_init(&event.list_lock);
    INIT_LIST_HEAD(&event.list);
    for (int k = 0; k < 2; k++)
        CHECK(nvkm_notify_init(NULL, &event, listen, k == 0, NULL, 0, sizeof(int), &listeners[k]) == 0);
    CHECK(!pthread_create(&thread, NULL, send, NULL));
    for (int k = 0; k < 100; k++) {
        nvkm_notify_get(&listeners[k % 2]);
        if (k % 3 == 0) rest(50);
        nvkm_notify_put(&listeners[k % 2]);
    }
    for (int k = 0; k < 2; k++) nvkm_notify_get(&listeners[k]);
    WAIT_UNTIL(GET(heard) > 5);
    SET(is_over, true);
    pthread_join(thread, NULL);
    for (int k = 0; k < 2; k++) nvkm_notify_fini(&listeners[k]);
    CHECK(list_empty(&event.list) && event.got == 0);
    return 0;
}
