/* A mistake that AddressSanitizer is to find: cancel_work() where cancel_work_sync() is needed before the free. */
#include "check.h"
#ifdef MENDED
#define cancel_work cancel_work_sync
#endif

struct device { struct work_struct work; int count; };

static void poll(struct work_struct *work)
{
    struct device *device = container_of(work, struct device, work);

    rest_in_run(2000);
    device->count++;
}

int main(void)
{
    for (int k = 0; k < 20; k++) {
        struct device *device = (struct device *)calloc(1, sizeof *device);

        CHECK(device);
        INIT_WORK(&device->work, poll);
        schedule_work(&device->work);
        rest(1000);
        cancel_work(&device->work);
        free(device);
    }
    flush_scheduled_work();
    return cmwq_linux_close() != 0;
}
