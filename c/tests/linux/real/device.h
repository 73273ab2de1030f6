/* For drivers, a little of each: devices whose memory and ends go with them, interrupts, pins, registers, power. */
#pragma once
#include "stub.h"

/* what a device does when its driver leaves it, the latest first */
struct stub_end { struct stub_end *next; void (*end)(void *data); void *data; };
static inline int devm_add_action(struct device *dev, void (*end)(void *data), void *data)
{
    struct stub_end *it = (struct stub_end *)malloc(sizeof *it);

    if (!it) return -ENOMEM;
    *it = (struct stub_end){dev->ends, end, data};
    dev->ends = it;
    return 0;
}
static inline void stub_leave(struct device *dev)
{
    while (dev->ends) {
        struct stub_end *it = dev->ends;

        dev->ends = it->next;
        it->end(it->data);
        free(it);
    }
}
static inline void *devm_kzalloc(struct device *dev, size_t size, gfp_t flags)
{
    void *at = kzalloc(size, flags);

    return at && devm_add_action(dev, free, at) == 0 ? at : NULL;
}
static inline void stub_cancel(void *work) { cancel_work_sync((struct work_struct *)work); }
static inline void stub_cancel_delayed(void *work) { cancel_delayed_work_sync((struct delayed_work *)work); }
#define devm_work_autocancel(dev, work, func) (INIT_WORK(work, func), devm_add_action(dev, stub_cancel, work))
#define devm_delayed_work_autocancel(dev, work, func) \
    (INIT_DELAYED_WORK(work, func), devm_add_action(dev, stub_cancel_delayed, work))
#define dev_name(dev) ((void)(dev), "device")

/* drivers */
struct of_device_id { const char *compatible; const void *data; };
struct acpi_device_id { const char *id; unsigned long data; };
struct platform_device_id { const char *name; };
struct dev_pm_ops { int (*suspend)(struct device *dev), (*resume)(struct device *dev); };
struct device_driver {
    const char *name; const struct of_device_id *of_match_table; const struct acpi_device_id *acpi_match_table;
    const struct dev_pm_ops *pm;
};
struct platform_device { const char *name; struct device dev; };
struct platform_driver {
    int (*probe)(struct platform_device *dev), (*remove)(struct platform_device *dev); struct device_driver driver;
    const struct platform_device_id *id_table;
};
#define platform_set_drvdata(it, value) ((it)->dev.data = (value))
#define platform_get_drvdata(it) ((it)->dev.data)
#define to_platform_device(it) container_of(it, struct platform_device, dev)
#define module_platform_driver(it) struct platform_driver *stub_driver = &it
#define of_match_ptr(it) NULL
#define SIMPLE_DEV_PM_OPS(name, suspends, resumes) \
    const struct dev_pm_ops __attribute__((unused)) name = { suspends, resumes }
extern struct platform_driver *stub_driver;

/* files of a device */
struct device_attribute {
    struct attribute attr; ssize_t (*show)(struct device *dev, struct device_attribute *it, char *text);
    ssize_t (*store)(struct device *dev, struct device_attribute *it, const char *text, size_t len);
};
struct attribute_group {
    umode_t (*is_visible)(struct kobject *it, struct attribute *attr, int n); struct attribute **attrs;
};
#define DEVICE_ATTR(n, m, s, t) struct device_attribute dev_attr_##n = { { #n, m }, s, t }
#define DEVICE_ATTR_RW(n) DEVICE_ATTR(n, 0644, n##_show, n##_store)
#define ATTRIBUTE_GROUPS(n)                                              \
    static const struct attribute_group n##_group = { NULL, n##_attrs }; \
    static const struct attribute_group *n##_groups[] = { &n##_group, NULL }

/* interrupts: a main calls stub_interrupt() */
typedef int irqreturn_t;
typedef irqreturn_t (*irq_handler_t)(int irq, void *data);
enum {
    IRQ_NONE, IRQ_HANDLED, IRQF_TRIGGER_RISING = 1, IRQF_TRIGGER_FALLING = 2, IRQF_TRIGGER_HIGH = 4,
    IRQF_TRIGGER_LOW = 8, IRQF_SHARED = 16, IRQF_ONESHOT = 32, STUB_IRQS = 8
};
struct stub_irq { spinlock_t lock; irq_handler_t handler; void *data; int number, disabled; };
struct stub_irq stub_irqs[STUB_IRQS] __attribute__((weak));
static inline int request_threaded_irq(int irq, irq_handler_t first, irq_handler_t handler, unsigned long flags,
                                       const char *name, void *data)
{
    (void)flags, (void)name;
    spin_lock(&stub_irqs[irq].lock);
    stub_irqs[irq].handler = handler ? handler : first;
    stub_irqs[irq].data = data;
    stub_irqs[irq].number = irq;
    spin_unlock(&stub_irqs[irq].lock);
    return 0;
}
/* It waits for the handler. */
static inline void free_irq(int irq, void *data)
{
    (void)data;
    spin_lock(&stub_irqs[irq].lock);
    stub_irqs[irq].handler = NULL;
    spin_unlock(&stub_irqs[irq].lock);
}
static inline void stub_free_irq(void *at) { free_irq(((struct stub_irq *)at)->number, NULL); }
static inline int devm_request_threaded_irq(struct device *dev, int irq, irq_handler_t first, irq_handler_t handler,
                                            unsigned long flags, const char *name, void *data)
{
    request_threaded_irq(irq, first, handler, flags, name, data);
    return devm_add_action(dev, stub_free_irq, &stub_irqs[irq]);
}
#define devm_request_irq(dev, irq, handler, flags, name, data) \
    devm_request_threaded_irq(dev, irq, NULL, handler, flags, name, data)
#define devm_request_any_context_irq(dev, irq, handler, flags, name, data) \
    devm_request_threaded_irq(dev, irq, NULL, handler, flags, name, data)
static inline void disable_irq_nosync(int irq) { __atomic_add_fetch(&stub_irqs[irq].disabled, 1, __ATOMIC_SEQ_CST); }
static inline void enable_irq(int irq) { __atomic_sub_fetch(&stub_irqs[irq].disabled, 1, __ATOMIC_SEQ_CST); }
#define platform_get_irq(dev, n) ((void)(dev), (n) + 1)
#define platform_get_irq_byname(dev, name) ((void)(dev), 1)
/* Return: what the handler returned, or IRQ_NONE if there is none that listens */
static inline irqreturn_t stub_interrupt(int irq)
{
    struct stub_irq *it = &stub_irqs[irq];
    irqreturn_t result = IRQ_NONE;

    spin_lock(&it->lock);
    if (it->handler && !__atomic_load_n(&it->disabled, __ATOMIC_SEQ_CST)) result = it->handler(irq, it->data);
    spin_unlock(&it->lock);
    return result;
}

/* pins, in the order in which a driver asks for them; pin n interrupts as n + 1 */
enum { GPIOD_ASIS, GPIOD_IN, GPIOD_OUT_LOW, GPIOD_OUT_HIGH = 4, GPIOD_FLAGS_BIT_NONEXCLUSIVE = 8, STUB_PINS = 4 };
struct gpio_desc { int value, changes; };
struct gpio_desc stub_pins[STUB_PINS] __attribute__((weak));
int stub_pins_taken __attribute__((weak));
static inline struct gpio_desc *devm_gpiod_get(struct device *dev, const char *name, int flags)
{ return (void)dev, (void)name, (void)flags, &stub_pins[stub_pins_taken++ % STUB_PINS]; }
#define devm_gpiod_get_optional(dev, name, flags) devm_gpiod_get(dev, name, flags)
#define devm_gpiod_get_index(dev, name, n, flags) devm_gpiod_get(dev, name, flags)
static inline int gpiod_get_value_cansleep(const struct gpio_desc *pin)
{ return __atomic_load_n(&pin->value, __ATOMIC_SEQ_CST); }
static inline int gpiod_set_value_cansleep(struct gpio_desc *pin, int value)
{
    if (__atomic_exchange_n(&pin->value, value, __ATOMIC_SEQ_CST) != value)
        __atomic_add_fetch(&pin->changes, 1, __ATOMIC_SEQ_CST);
    return 0;
}
#define gpiod_direction_output(pin, value) gpiod_set_value_cansleep(pin, value)
#define gpiod_to_irq(pin) ((int)((pin) - stub_pins) + 1)
#define gpiod_is_active_low(pin) ((void)(pin), 0)

/* registers and power */
struct regmap { unsigned int values[32]; };
static inline int regmap_read(struct regmap *it, unsigned int at, unsigned int *value)
{ return *value = __atomic_load_n(&it->values[at], __ATOMIC_SEQ_CST), 0; }
static inline int regmap_write(struct regmap *it, unsigned int at, unsigned int value)
{ return __atomic_store_n(&it->values[at], value, __ATOMIC_SEQ_CST), 0; }
struct regulator { int enabled; };
struct regulator stub_regulator __attribute__((weak));
#define devm_regulator_get(dev, name) ((void)(dev), &stub_regulator)
#define devm_regulator_get_optional(dev, name) devm_regulator_get(dev, name)
static inline int regulator_enable(struct regulator *it)
{ return __atomic_add_fetch(&it->enabled, 1, __ATOMIC_SEQ_CST), 0; }
static inline int regulator_disable(struct regulator *it)
{ return __atomic_sub_fetch(&it->enabled, 1, __ATOMIC_SEQ_CST), 0; }
static inline int regulator_is_enabled(struct regulator *it)
{ return __atomic_load_n(&it->enabled, __ATOMIC_SEQ_CST) > 0; }
