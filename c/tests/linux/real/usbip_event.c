/* drivers/usb/usbip/usbip_event.c: events of devices from four threads, and their ends. */
#include "../check.h"
#include "usbip_event.h"

enum { DEVICES = 8, THREADS = 4 };
static struct usbip_device devices[DEVICES];

static void shut_down(struct usbip_device *it) { it->counts[0]++; }
static void reset(struct usbip_device *it) { it->counts[1]++; }
static void make_unusable(struct usbip_device *it) { it->counts[2]++; }

static void *add_events(void *at)
{
    for (long k = 0; k < 300; k++) {
        unsigned long event = k % 3 ? USBIP_EH_RESET : USBIP_EH_SHUTDOWN | USBIP_EH_UNUSABLE;

        usbip_event_add(&devices[(k + (long)at) % DEVICES], event);
        usbip_event_happened(&devices[k % DEVICES]);
        if (k % 20 == 0) rest(100);
    }
    return NULL;
}

int main(void)
{
    pthread_t threads[THREADS];

    CHECK(usbip_init_eh() == 0);
    for (int k = 0; k < DEVICES; k++) {
        spin_lock_init(&devices[k].lock);
        mutex_init(&devices[k].sysfs_lock);
        devices[k].eh_ops = (struct eh_ops){shut_down, reset, make_unusable};
        CHECK(usbip_start_eh(&devices[k]) == 0);
    }
    for (long k = 0; k < THREADS; k++) CHECK(!pthread_create(&threads[k], NULL, add_events, (void *)k));
    for (int k = 0; k < THREADS; k++) pthread_join(threads[k], NULL);
    usbip_finish_eh();
    for (int k = 0; k < DEVICES; k++) CHECK(devices[k].counts[1] > 0);
    return 0;
}
