/* For drivers/leds/trigger/ledtrig-tty.c. */
#pragma once
#include "device.h"
struct led_classdev { struct device dev; void *trigger; int blinks; };
struct led_trigger {
    const char *name; int (*activate)(struct led_classdev *it); void (*deactivate)(struct led_classdev *it);
    const struct attribute_group **groups;
};
struct tty_struct { struct device *dev; int references; };
struct serial_icounter_struct { int rx, tx; };
struct led_classdev stub_led __attribute__((weak));
#define led_set_trigger_data(it, value) ((it)->trigger = (value))
#define led_get_trigger_data(it) ((it)->trigger)
#define led_trigger_get_drvdata(dev) (container_of(dev, struct led_classdev, dev)->trigger)
#define module_led_trigger(it) struct led_trigger *stub_trigger = &it
extern struct led_trigger *stub_trigger;
int tty_dev_name_to_number(const char *name, dev_t *number);
struct tty_struct *tty_kopen_shared(dev_t number);
void tty_kref_put(struct tty_struct *it);
int tty_get_icount(struct tty_struct *it, struct serial_icounter_struct *to);
void led_blink_set_oneshot(struct led_classdev *it, unsigned long *on, unsigned long *off, int invert);
static inline char *kmemdup_nul(const char *text, size_t len, gfp_t flags)
{ return (void)flags, strndup(text, len); }
