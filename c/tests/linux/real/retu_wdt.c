/* drivers/watchdog/retu_wdt.c: the driver pings by itself until the watchdog is opened, and again once it is closed. */
#include "../check.h"
#include "retu_wdt.h"

static struct watchdog_device *dog;
static int writes;

int retu_write(struct retu_dev *it, unsigned char reg, unsigned short value)
{
    CHECK(it && reg == RETU_REG_WATCHDOG && value <= 63);
    ADD(writes, 1);
    return 0;
}

int devm_watchdog_register_device(struct device *dev, struct watchdog_device *it)
{
    (void)dev;
    dog = it;
    return 0;
}

int main(void)
{
    static struct platform_device device;
    static struct device parent;
    static struct retu_dev retu;
    int before;

    parent.data = &retu;
    device.dev.parent = &parent;
    CHECK(stub_driver->probe(&device) == 0);
    WAIT_UNTIL(GET(writes) >= 3);
    CHECK(dog->ops->start(dog) == 0 && dog->ops->set_timeout(dog, 10) == 0);
    before = GET(writes);
    msleep(400);
    CHECK(GET(writes) == before); /* nobody pings */
    CHECK(dog->ops->ping(dog) == 0 && dog->ops->stop(dog) == 0);
    WAIT_UNTIL(GET(writes) >= before + 3);
    stub_leave(&device.dev);
    return 0;
}
