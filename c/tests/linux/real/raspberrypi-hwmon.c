/* drivers/hwmon/raspberrypi-hwmon.c: a voltage that is polled, and read by another thread. */
#include "../check.h"
#include "raspberrypi-hwmon.h"

static const struct hwmon_chip_info *info;
static int events;

int rpi_firmware_property(struct rpi_firmware *it, u32 tag, void *data, size_t size)
{
    CHECK(tag == RPI_FIRMWARE_GET_THROTTLED && size == sizeof(u32) && *(u32 *)data == 0xffff);
    *(u32 *)data = ADD(it->calls, 1) / 2 % 2 ? 1u << 16 : 0;
    return 0;
}

int hwmon_notify_event(struct device *dev, enum hwmon_sensor_types type, u32 attr, int channel)
{
    CHECK(dev && type == hwmon_in && attr == hwmon_in_lcrit_alarm && channel == 0);
    ADD(events, 1);
    return 0;
}

struct device *devm_hwmon_device_register_with_info(struct device *dev, const char *name, void *data,
                                                    const struct hwmon_chip_info *chip, void *groups)
{
    static struct device own;

    (void)dev, (void)name, (void)groups;
    own.data = data;
    info = chip;
    return &own;
}

int main(void)
{
    static struct platform_device device;
    static struct device parent;
    static struct rpi_firmware firmware;
    long value = -1;

    parent.data = &firmware;
    device.dev.parent = &parent;
    CHECK(stub_driver->probe(&device) == 0);
    while (GET(events) < 3) {
        CHECK(info->ops->read(&device.dev, hwmon_in, hwmon_in_lcrit_alarm, 0, &value) == 0);
        CHECK(value == 0 || value == 1);
        rest(2000);
    }
    stub_leave(&device.dev);
    return 0;
}
