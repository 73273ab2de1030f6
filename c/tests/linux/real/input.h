/* For drivers/input: linux/input.h and what stands around it. */
#pragma once
#include "device.h"
enum { EV_KEY = 1, EV_SND = 0x12, EV_FF = 0x15, KEY_POWER = 116, SND_BELL = 1, FF_RUMBLE = 0x50, BUS_HOST = 0x19 };
struct input_dev_poller;
struct input_id { unsigned short bustype, vendor, product, version; };
struct ff_effect { struct { struct { unsigned short strong_magnitude, weak_magnitude; } rumble; } u; };
struct input_dev {
    struct device dev; struct input_dev_poller *poller; struct mutex mutex; const char *name, *phys; struct input_id id;
    unsigned long evbit[1], keybit[12]; bool enabled; void (*close)(struct input_dev *dev);
    int (*event)(struct input_dev *dev, unsigned int type, unsigned int code, int value);
    int (*play)(struct input_dev *dev, void *data, struct ff_effect *effect);
};
/* the one that was registered last */
struct input_dev *stub_input __attribute__((weak));
#define to_input_dev(it) container_of(it, struct input_dev, dev)
#define input_device_enabled(it) ((it)->enabled)
static inline int kstrtouint(const char *text, unsigned base, unsigned *number)
{ return *number = (unsigned)strtoul(text, NULL, (int)base), 0; }
int input_setup_polling(struct input_dev *dev, void (*poll)(struct input_dev *dev));
void input_set_poll_interval(struct input_dev *dev, unsigned int interval);
void input_set_min_poll_interval(struct input_dev *dev, unsigned int interval);
void input_set_max_poll_interval(struct input_dev *dev, unsigned int interval);
int input_get_poll_interval(struct input_dev *dev);
static inline struct input_dev *input_allocate_device(void)
{ return (struct input_dev *)calloc(1, sizeof(struct input_dev)); }
static inline void input_free_device(struct input_dev *it) { free(it); }
#define devm_input_allocate_device(dev) ((struct input_dev *)devm_kzalloc(dev, sizeof(struct input_dev), GFP_KERNEL))
static inline int input_register_device(struct input_dev *it) { return stub_input = it, 0; }
static inline void input_unregister_device(struct input_dev *it) { free(it); }
static inline void input_sync(struct input_dev *it) { (void)it; }
static inline void *input_get_drvdata(struct input_dev *it) { return it->dev.data; }
static inline void input_set_drvdata(struct input_dev *it, void *data) { it->dev.data = data; }
static inline void input_set_capability(struct input_dev *it, unsigned int type, unsigned int code)
{ (void)it, (void)type, (void)code; }
static inline int input_ff_create_memless(struct input_dev *it, void *data,
                                          int (*play)(struct input_dev *, void *, struct ff_effect *))
{ return (void)data, it->play = play, 0; }
void input_report_key(struct input_dev *dev, unsigned int key, int value);
