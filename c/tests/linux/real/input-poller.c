/* drivers/input/input-poller.c: a device that is polled, with an interval that is changed by sysfs. */
#include "../check.h"
#include "input-poller.h"

static int polls;

static void poll(struct input_dev *dev)
{
    (void)dev;
    ADD(polls, 1);
}

int main(void)
{
    struct input_dev *dev = (struct input_dev *)calloc(1, sizeof *dev);
    struct device_attribute *interval;

    CHECK(dev);
    mutex_init(&dev->mutex);
    CHECK(input_setup_polling(dev, poll) == 0);
    input_set_poll_interval(dev, 5);
    input_set_max_poll_interval(dev, 100);
    input_dev_poller_finalize(dev->poller);
    dev->enabled = true;
    input_dev_poller_start(dev->poller);
    WAIT_UNTIL(GET(polls) > 5);
    interval = container_of(input_poller_attribute_group.attrs[0], struct device_attribute, attr);
    CHECK(interval->store(&dev->dev, interval, "1", 1) == 1);
    WAIT_UNTIL(GET(polls) > 15);
    freeze_workqueues_begin();
    msleep(10);
    thaw_workqueues();
    input_dev_poller_stop(dev->poller);
    free(dev->poller);
    free(dev);
    return 0;
}
