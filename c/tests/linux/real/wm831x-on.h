/* For drivers/input/misc/wm831x-on.c. */
#pragma once
#include "input.h"
struct wm831x { struct device *dev; };
enum { WM831X_ON_PIN_CONTROL = 0x4005, WM831X_ON_PIN_STS = 2 };
#define wm831x_irq(chip, irq) ((void)(chip), (irq))
int wm831x_reg_read(struct wm831x *chip, unsigned short reg);
