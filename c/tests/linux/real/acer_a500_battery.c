/* drivers/power/supply/acer_a500_battery.c: a battery that empties while it is polled and asked; a suspend. */
#include "../check.h"
#include "acer_a500_battery.h"

struct regmap stub_regmap;
static struct power_supply supply;
static int changes;

void power_supply_changed(struct power_supply *it)
{
    CHECK(it == &supply);
    ADD(changes, 1);
}

struct power_supply *devm_power_supply_register_no_ws(struct device *dev, const struct power_supply_desc *desc,
                                                      const struct power_supply_config *config)
{
    supply = (struct power_supply){.dev.parent = dev, .desc = desc, .drv_data = config->drv_data};
    return &supply;
}

static unsigned int ask(enum power_supply_property which)
{
    union power_supply_propval value;

    CHECK(supply.desc->get_property(&supply, which, &value) == 0);
    return value.intval;
}

int main(void)
{
    static struct platform_device device;
    static struct device parent;
    const struct dev_pm_ops *pm = stub_driver->driver.pm;
    unsigned int left = 110;

    device.dev.parent = &parent;
    regmap_write(&stub_regmap, 0, left);
    regmap_write(&stub_regmap, 0xa, 2981);
    CHECK(stub_driver->probe(&device) == 0);
    while (GET(changes) < 3) {
        left = left ? left - 1 : 110;
        regmap_write(&stub_regmap, 0, left);
        CHECK(ask(POWER_SUPPLY_PROP_TEMP) == 250);
        rest(3000);
    }
    CHECK(ask(POWER_SUPPLY_PROP_CAPACITY) == (left < 100 ? left : 100));
    CHECK(pm->suspend(&device.dev) == 0 && pm->resume(&device.dev) == 0);
    CHECK(stub_driver->remove(&device) == 0);
    stub_leave(&device.dev);
    return 0;
}
