/* For drivers/input/misc/da9052_onkey.c. */
#pragma once
#include "input.h"
struct da9052 { struct device *dev; irq_handler_t handler; void *data; };
enum { DA9052_IRQ_NONKEY = 8, DA9052_STATUS_A_REG = 1, DA9052_STATUSA_NONKEY = 1 };
int da9052_reg_read(struct da9052 *chip, unsigned char reg);
static inline int da9052_request_irq(struct da9052 *chip, int irq, const char *name, irq_handler_t handler, void *data)
{ return (void)irq, (void)name, chip->handler = handler, chip->data = data, 0; }
static inline void da9052_free_irq(struct da9052 *chip, int irq, void *data)
{ (void)irq, (void)data, chip->handler = NULL; }
