/* net/core/link_watch.c: carriers that go up and down in three threads. */
#include "../check.h"
#include "link_watch.h"

enum { DEVICES = 8, THREADS = 3 };
DEFINE_RWLOCK(dev_base_lock);
static DEFINE_MUTEX(rtnl);
static struct net_device devices[DEVICES];

void rtnl_lock(void) { mutex_lock(&rtnl); }
void rtnl_unlock(void) { mutex_unlock(&rtnl); }

static void *flap(void *at)
{
    for (long k = 0; k < 200; k++) {
        struct net_device *dev = &devices[(3 * k + (long)at) % DEVICES];

        __atomic_store_n(&dev->carrier, k % 2, __ATOMIC_RELAXED);
        linkwatch_fire_event(dev);
        if (k % 10 == 0) rest(1000);
    }
    return NULL;
}

int main(void)
{
    pthread_t threads[THREADS];

    for (int k = 0; k < DEVICES; k++) {
        devices[k].ifindex = k;
        devices[k].flags = IFF_UP;
        INIT_LIST_HEAD(&devices[k].link_watch_list);
        linkwatch_init_dev(&devices[k]);
    }
    for (long k = 0; k < THREADS; k++) CHECK(!pthread_create(&threads[k], NULL, flap, (void *)k));
    for (int k = 0; k < THREADS; k++) pthread_join(threads[k], NULL);
    msleep(1200);
    rtnl_lock();
    linkwatch_run_queue();
    rtnl_unlock();
    for (int k = 0; k < DEVICES; k++) {
        linkwatch_forget_dev(&devices[k]);
        CHECK(devices[k].references == 0);
    }
    return 0;
}
