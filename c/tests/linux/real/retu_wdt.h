/* For drivers/watchdog/retu_wdt.c. */
#pragma once
#include "device.h"
struct retu_dev { int none; };
struct watchdog_info { unsigned int options; const char *identity; };
struct watchdog_device;
struct watchdog_ops {
    void *owner; int (*start)(struct watchdog_device *it), (*stop)(struct watchdog_device *it);
    int (*ping)(struct watchdog_device *it), (*set_timeout)(struct watchdog_device *it, unsigned int timeout);
};
struct watchdog_device {
    const struct watchdog_info *info; const struct watchdog_ops *ops; unsigned int timeout, min_timeout, max_timeout;
    struct device *parent; void *data;
};
enum { RETU_REG_WATCHDOG = 0x17, WDIOF_SETTIMEOUT = 1, WDIOF_MAGICCLOSE = 2, WDIOF_KEEPALIVEPING = 4 };
#define WATCHDOG_NOWAYOUT false
#define watchdog_set_drvdata(it, value) ((it)->data = (value))
#define watchdog_get_drvdata(it) ((struct retu_wdt_dev *)(it)->data)
#define watchdog_set_nowayout(it, value) ((void)(it), (void)(value))
int retu_write(struct retu_dev *it, unsigned char reg, unsigned short value);
int devm_watchdog_register_device(struct device *dev, struct watchdog_device *it);
