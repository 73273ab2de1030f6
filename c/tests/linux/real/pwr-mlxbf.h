/* For drivers/power/reset/pwr-mlxbf.c. */
#pragma once
#include "device.h"
struct acpi_device { int none; };
#define ACPI_COMPANION(dev) ((void)(dev), &(struct acpi_device){ 0 })
#define acpi_device_hid(it) ((void)(it), "MLNXBF29")
#define acpi_dev_gpio_irq_get(it, n) ((void)(it), (n) + 1)
int acpi_bus_generate_netlink_event(const char *kind, const char *name, u8 type, int data);
void emergency_restart(void);
