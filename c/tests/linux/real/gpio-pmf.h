/* For sound/aoa/core/gpio-pmf.c, whose header is aoa.h. */
#pragma once
#include "stub.h"
struct device_node { int none; };
struct pmf_args { int count; union { u32 v; u32 *p; } u[4]; };
struct pmf_irq_client { void (*handler)(void *data); void *data, *owner; };
typedef void (*notify_func_t)(void *data);
enum notify_type { AOA_NOTIFY_HEADPHONE, AOA_NOTIFY_LINE_IN, AOA_NOTIFY_LINE_OUT };
struct gpio_notification {
    struct delayed_work work; notify_func_t notify; void *data, *gpio_private; struct mutex mutex;
};
struct gpio_runtime {
    struct device_node *node; int implementation_private;
    struct gpio_notification headphone_notify, line_in_notify, line_out_notify;
};
struct gpio_methods {
    void (*init)(struct gpio_runtime *rt), (*exit)(struct gpio_runtime *rt), (*all_amps_off)(struct gpio_runtime *rt);
    void (*all_amps_restore)(struct gpio_runtime *rt), (*set_headphone)(struct gpio_runtime *rt, int on);
    void (*set_speakers)(struct gpio_runtime *rt, int on), (*set_lineout)(struct gpio_runtime *rt, int on);
    void (*set_hw_reset)(struct gpio_runtime *rt, int on);
    int (*get_headphone)(struct gpio_runtime *rt), (*get_speakers)(struct gpio_runtime *rt);
    int (*get_lineout)(struct gpio_runtime *rt);
    int (*set_notify)(struct gpio_runtime *rt, enum notify_type type, notify_func_t notify, void *data);
    int (*get_detect)(struct gpio_runtime *rt, enum notify_type type);
};
extern struct gpio_methods *pmf_gpio_methods;
int pmf_call_function(struct device_node *node, const char *name, struct pmf_args *args);
int pmf_register_irq_client(struct device_node *node, const char *name, struct pmf_irq_client *it);
void pmf_unregister_irq_client(struct pmf_irq_client *it);
/* a lock that is held until the end of the block */
static inline void stub_let_go(struct mutex **it) { mutex_unlock(*it); }
static inline struct mutex *stub_hold(struct mutex *it) { return mutex_lock(it), it; }
#define guard(kind) STUB_GUARD_##kind
#define STUB_GUARD_mutex(it) struct mutex *held __attribute__((cleanup(stub_let_go), unused)) = stub_hold(it)
