/* drivers/input/misc/da9052_onkey.c: a key that is held for a while. */
#include "../check.h"
#include "da9052_onkey.h"

static int held = 4, reports;

int da9052_reg_read(struct da9052 *chip, unsigned char reg)
{
    (void)chip;
    (void)reg;
    return ADD(held, -1) > 0 ? 0 : DA9052_STATUSA_NONKEY;
}

void input_report_key(struct input_dev *dev, unsigned int key, int value)
{
    (void)dev;
    (void)value;
    CHECK(key == KEY_POWER);
    ADD(reports, 1);
}

int main(void)
{
    static struct platform_device device;
    static struct device parent;
    static struct da9052 chip;

    parent.data = &chip;
    device.dev.parent = &parent;
    chip.dev = &parent;
    CHECK(stub_driver->probe(&device) == 0);
    chip.handler(1, chip.data);
    while (GET(reports) < 4) rest(1000);
    SET(held, 100);
    chip.handler(1, chip.data);
    CHECK(stub_driver->remove(&device) == 0);
    return 0;
}
