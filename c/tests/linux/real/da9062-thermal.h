/* For drivers/thermal/da9062-thermal.c. */
#pragma once
#include "device.h"
enum thermal_trip_type { THERMAL_TRIP_HOT = 2 };
enum { THERMAL_EVENT_UNSPECIFIED, DA9062AA_EVENT_B = 7, DA9062AA_E_TEMP_MASK = 2 };
struct da9062 { struct regmap *regmap; };
struct thermal_zone_device;
struct thermal_zone_device_ops {
    int (*get_temp)(struct thermal_zone_device *it, int *temperature);
    int (*get_trip_type)(struct thermal_zone_device *it, int trip, enum thermal_trip_type *type);
    int (*get_trip_temp)(struct thermal_zone_device *it, int trip, int *temperature);
};
struct thermal_zone_device { void *devdata; struct thermal_zone_device_ops *ops; unsigned long passive_delay_jiffies; };
#define of_match_node(table, node) ((void)(node), &(table)[0])
#define of_property_read_u32(node, name, to) ((void)(node), *(to) = 1000, 0)
#define thermal_zone_device_enable(it) ((void)(it), 0)
#define thermal_zone_device_unregister(it) free(it)
void thermal_zone_device_update(struct thermal_zone_device *it, int event);
static inline struct thermal_zone_device *thermal_zone_device_register(
    const char *name, int trips, int mask, void *data, struct thermal_zone_device_ops *ops, void *more, int passive_ms,
    int ms)
{
    struct thermal_zone_device *it = (struct thermal_zone_device *)malloc(sizeof *it);

    (void)name, (void)trips, (void)mask, (void)more, (void)ms;
    if (!it) return (struct thermal_zone_device *)ERR_PTR(-ENOMEM);
    *it = (struct thermal_zone_device){data, ops, (unsigned long)passive_ms * HZ / 1000};
    return it;
}
#define regmap_read(it, at, to) ((void)(it), (void)(at), *(to) = stub_is_hot() ? DA9062AA_E_TEMP_MASK : 0, 0)
int stub_is_hot(void);
