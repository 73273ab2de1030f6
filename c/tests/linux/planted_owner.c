/* A mistake that cmwq_turns.h is to find at some seeds: a device cancels its delayed work before it ends what queues
   it, so that the work may outlive the device. */
#include "check.h"

struct device { struct delayed_work report; pthread_t source; bool is_over; int events, reports; };

static void report(struct work_struct *work)
{
    struct device *device = container_of(to_delayed_work(work), struct device, report);

    device->reports++;
}

static void *make_events(void *at)
{
    struct device *device = (struct device *)at;

    for (int k = 0; k < 20 && !GET(device->is_over); k++) {
        ADD(device->events, 1);
        rest(100); /* reads the event */
        schedule_delayed_work(&device->report, 3);
        rest(1000);
    }
    return NULL;
}

static struct device *open_device(void)
{
    struct device *device = (struct device *)calloc(1, sizeof *device);

    CHECK(device);
    INIT_DELAYED_WORK(&device->report, report);
    CHECK(!pthread_create(&device->source, NULL, make_events, device));
    return device;
}

static void close_device(struct device *device)
{
    SET(device->is_over, true);
#ifndef MENDED
    cancel_delayed_work_sync(&device->report);
#endif
    pthread_join(device->source, NULL);
#ifdef MENDED
    cancel_delayed_work_sync(&device->report);
#endif
    free(device);
}

int main(void)
{
    struct device *device = open_device();

    while (GET(device->events) < 5) rest(1000);
    close_device(device);
    rest(20000);
    return cmwq_linux_close() != 0;
}
