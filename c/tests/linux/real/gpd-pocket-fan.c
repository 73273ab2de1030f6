/* drivers/platform/x86/gpd-pocket-fan.c: a fan that follows two sensors; a suspend, and what it does without them. */
#include "../check.h"
#include "gpd-pocket-fan.h"

struct thermal_zone_device stub_zones[2] = {{70000}, {40000}};

static int speed(void)
{ return gpiod_get_value_cansleep(&stub_pins[0]) + 2 * gpiod_get_value_cansleep(&stub_pins[1]); }

int main(void)
{
    static struct platform_device device;
    const struct dev_pm_ops *pm = stub_driver->driver.pm;

    CHECK(stub_driver->probe(&device) == 0);
    WAIT_UNTIL(speed() == 3);
    CHECK(pm->suspend(&device.dev) == 0 && speed() == 0);
    SET(stub_zones[0].temperature, 30000);
    CHECK(pm->resume(&device.dev) == 0);
    msleep(5);
    SET(stub_zones[1].temperature, -1);
    for (int k = 0; k < 10; k++) {
        CHECK(pm->suspend(&device.dev) == 0);
        CHECK(pm->resume(&device.dev) == 0);
    }
    WAIT_UNTIL(speed() == 3);
    stub_leave(&device.dev);
    return 0;
}
