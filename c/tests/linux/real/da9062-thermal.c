/* drivers/thermal/da9062-thermal.c: a heat that is polled until it is over, with the interrupt off; and a freeze. */
#include "../check.h"
#include "da9062-thermal.h"

static struct regmap regmap;
static int hot = 3, updates, coolings;

int stub_is_hot(void) { return ADD(hot, -1) >= 0; }

void thermal_zone_device_update(struct thermal_zone_device *it, int event)
{
    int temperature = -1;

    CHECK(event == THERMAL_EVENT_UNSPECIFIED && it->ops->get_temp(it, &temperature) == 0);
    ADD(updates, 1);
    ADD(coolings, temperature == 0);
}

int main(void)
{
    static struct platform_device device;
    static struct device parent;
    static struct da9062 chip = {&regmap};

    parent.data = &chip;
    device.dev.parent = &parent;
    device.dev.of_node = &device;
    CHECK(stub_driver->probe(&device) == 0);
    CHECK(stub_interrupt(1) == IRQ_HANDLED && stub_interrupt(1) == IRQ_NONE);
    WAIT_UNTIL(GET(coolings) == 1);
    CHECK(GET(updates) == 4);
    SET(hot, 1000000);
    freeze_workqueues_begin();
    WAIT_UNTIL(stub_interrupt(1) == IRQ_HANDLED);
    msleep(20);
    CHECK(GET(updates) == 4);
    thaw_workqueues();
    WAIT_UNTIL(GET(updates) > 5);
    CHECK(stub_driver->remove(&device) == 0);
    stub_leave(&device.dev);
    return 0;
}
