/* For drivers/extcon/extcon-intel-int3496.c. */
#pragma once
#include "extcon.h"
struct acpi_gpio_params { unsigned int index, line; bool low; };
struct acpi_gpio_mapping { const char *name; const struct acpi_gpio_params *data; unsigned int size, quirks; };
#define ACPI_GPIO_QUIRK_NO_IO_RESTRICTION 1
#define has_acpi_companion(dev) ((void)(dev), true)
#define devm_acpi_dev_add_driver_gpios(dev, pins) ((void)(dev), (void)(pins), 0)
