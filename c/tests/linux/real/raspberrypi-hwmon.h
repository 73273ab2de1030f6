/* For drivers/hwmon/raspberrypi-hwmon.c. */
#pragma once
#include "device.h"
enum hwmon_sensor_types { hwmon_in = 2 };
enum { hwmon_in_lcrit_alarm = 9, RPI_FIRMWARE_GET_THROTTLED = 0x30046 };
#define HWMON_I_LCRIT_ALARM BIT(hwmon_in_lcrit_alarm)
struct hwmon_channel_info { enum hwmon_sensor_types type; const u32 *config; };
#define HWMON_CHANNEL_INFO(kind, ...) \
    (&(const struct hwmon_channel_info){ hwmon_##kind, (const u32[]){ __VA_ARGS__, 0 } })
struct hwmon_ops {
    umode_t (*is_visible)(const void *data, enum hwmon_sensor_types type, u32 attr, int channel);
    int (*read)(struct device *dev, enum hwmon_sensor_types type, u32 attr, int channel, long *value);
};
struct hwmon_chip_info { const struct hwmon_ops *ops; const struct hwmon_channel_info **info; };
struct rpi_firmware { int calls; };
int rpi_firmware_property(struct rpi_firmware *it, u32 tag, void *data, size_t size);
int hwmon_notify_event(struct device *dev, enum hwmon_sensor_types type, u32 attr, int channel);
struct device *devm_hwmon_device_register_with_info(struct device *dev, const char *name, void *data,
                                                    const struct hwmon_chip_info *chip, void *groups);
