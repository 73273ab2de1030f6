/* drivers/input/misc/da9055_onkey.c: a key that is held for a while, and one while the driver leaves. */
#include "../check.h"
#include "da9055_onkey.h"

static int held = 3, reports;

int da9055_reg_read(struct da9055 *chip, unsigned char reg)
{
    CHECK(chip && reg == DA9055_REG_STATUS_A);
    return ADD(held, -1) > 0 ? DA9055_NOKEY_STS : 0;
}

void input_report_key(struct input_dev *dev, unsigned int key, int value)
{
    CHECK(dev == stub_input && key == KEY_POWER);
    (void)value;
    ADD(reports, 1);
}

int main(void)
{
    static struct platform_device device;
    static struct device parent;
    static struct da9055 chip;

    parent.data = &chip;
    chip.dev = device.dev.parent = &parent;
    CHECK(stub_driver->probe(&device) == 0);
    CHECK(stub_interrupt(1) == IRQ_HANDLED);
    WAIT_UNTIL(GET(reports) == 2);
    SET(held, 1000000);
    CHECK(stub_interrupt(1) == IRQ_HANDLED);
    msleep(15);
    CHECK(stub_driver->remove(&device) == 0);
    CHECK(GET(reports) == 3);
    stub_leave(&device.dev);
    return 0;
}
