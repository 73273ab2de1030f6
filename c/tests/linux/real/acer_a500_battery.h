/* For drivers/power/supply/acer_a500_battery.c. */
#pragma once
#include "device.h"
enum power_supply_property {
    POWER_SUPPLY_PROP_STATUS, POWER_SUPPLY_PROP_TECHNOLOGY, POWER_SUPPLY_PROP_PRESENT, POWER_SUPPLY_PROP_CAPACITY,
    POWER_SUPPLY_PROP_CHARGE_FULL_DESIGN, POWER_SUPPLY_PROP_CURRENT_NOW, POWER_SUPPLY_PROP_VOLTAGE_NOW,
    POWER_SUPPLY_PROP_TEMP
};
enum { POWER_SUPPLY_STATUS_CHARGING = 1, POWER_SUPPLY_STATUS_DISCHARGING, POWER_SUPPLY_STATUS_FULL = 4 };
enum { POWER_SUPPLY_TECHNOLOGY_LION = 2, POWER_SUPPLY_TYPE_BATTERY = 1 };
union power_supply_propval { unsigned int intval; };
struct power_supply;
struct power_supply_desc {
    const char *name; int type; const enum power_supply_property *properties; size_t num_properties;
    int (*get_property)(struct power_supply *it, enum power_supply_property which, union power_supply_propval *to);
    void (*external_power_changed)(struct power_supply *it);
};
struct power_supply_config { void *of_node, *drv_data; };
struct power_supply { struct device dev; const struct power_supply_desc *desc; void *drv_data; };
#define power_supply_get_drvdata(it) ((struct a500_battery *)(it)->drv_data)
#define power_supply_am_i_supplied(it) ((void)(it), false)
#define dev_get_regmap(dev, name) (&stub_regmap)
extern struct regmap stub_regmap;
void power_supply_changed(struct power_supply *it);
struct power_supply *devm_power_supply_register_no_ws(struct device *dev, const struct power_supply_desc *desc,
                                                      const struct power_supply_config *config);
