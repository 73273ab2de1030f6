/* For drivers/input/misc/da9055_onkey.c. */
#pragma once
#include "input.h"
struct da9055 { struct device *dev; void *irq_data; };
enum { DA9055_REG_STATUS_A = 1, DA9055_NOKEY_STS = 1 };
#define regmap_irq_get_virq(data, irq) ((void)(data), (irq))
int da9055_reg_read(struct da9055 *chip, unsigned char reg);
