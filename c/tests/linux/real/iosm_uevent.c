/* drivers/net/wwan/iosm/iosm_ipc_uevent.c: events of four threads, each a work that frees itself. */
#include "../check.h"
#include "iosm_uevent.h"
#include <iosm_ipc_uevent.h>

enum { THREADS = 4, EVENTS = 200 };
static struct device device;
static int events;

int kobject_uevent_env(struct kobject *it, int action, char **env)
{
    CHECK(it == &device.kobj && action == KOBJ_CHANGE);
    CHECK(!strcmp(env[0], "IOSM_EVENT=" UEVENT_CRASH) && !env[1]);
    ADD(events, 1);
    return 0;
}

static void *send(void *none)
{
    for (int k = 0; k < EVENTS; k++) {
        ipc_uevent_send(&device, (char[]){UEVENT_CRASH});
        if (k % 32 == 0) rest(100);
    }
    return none;
}

int main(void)
{
    pthread_t threads[THREADS];

    for (int k = 0; k < THREADS; k++) CHECK(!pthread_create(&threads[k], NULL, send, NULL));
    for (int k = 0; k < THREADS; k++) pthread_join(threads[k], NULL);
    flush_scheduled_work();
    CHECK(GET(events) == THREADS * EVENTS);
    return 0;
}
