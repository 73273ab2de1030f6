/* sound/aoa/core/gpio-pmf.c: plugs that interrupt while somebody listens, and no longer. */
#include "../check.h"
#include "gpio-pmf.h"

static DEFINE_SPINLOCK(lock);
static struct pmf_irq_client *clients[2];
static int plugs;

int pmf_call_function(struct device_node *node, const char *name, struct pmf_args *args)
{
    (void)node;
    if (strstr(name, "detect")) *args->u[0].p = 1;
    return 0;
}

int pmf_register_irq_client(struct device_node *node, const char *name, struct pmf_irq_client *it)
{
    (void)node;
    spin_lock(&lock);
    clients[!strcmp(name, "linein-detect")] = it;
    spin_unlock(&lock);
    return 0;
}

void pmf_unregister_irq_client(struct pmf_irq_client *it)
{
    spin_lock(&lock);
    for (int k = 0; k < 2; k++)
        if (clients[k] == it) clients[k] = NULL;
    spin_unlock(&lock);
}

static void *plug(void *none)
{
    for (int k = 0; k < 200; k++) {
        spin_lock(&lock);
        if (clients[k % 2]) clients[k % 2]->handler(clients[k % 2]->data);
        spin_unlock(&lock);
        if (k % 4 == 0) rest(100);
    }
    return none;
}

static void listen(void *data) { ADD(*(int *)data, 1); }

int main(void)
{
    static struct gpio_runtime rt;
    struct gpio_methods *methods = pmf_gpio_methods;
    pthread_t thread;

    methods->init(&rt);
    methods->set_headphone(&rt, 1);
    CHECK(methods->get_headphone(&rt) == 1 && methods->get_detect(&rt, AOA_NOTIFY_LINE_OUT) == 1);
    CHECK(!pthread_create(&thread, NULL, plug, NULL));
    for (int k = 0; k < 10; k++) {
        CHECK(methods->set_notify(&rt, AOA_NOTIFY_HEADPHONE, listen, &plugs) == 0);
        CHECK(methods->set_notify(&rt, AOA_NOTIFY_LINE_IN, listen, &plugs) == 0);
        rest(300);
        CHECK(methods->set_notify(&rt, AOA_NOTIFY_HEADPHONE, NULL, NULL) == 0);
        CHECK(methods->set_notify(&rt, AOA_NOTIFY_LINE_IN, listen, &plugs) == 0);
        CHECK(methods->set_notify(&rt, AOA_NOTIFY_LINE_IN, NULL, NULL) == 0);
    }
    CHECK(methods->set_notify(&rt, AOA_NOTIFY_LINE_IN, listen, &plugs) == 0);
    methods->all_amps_off(&rt);
    pthread_join(thread, NULL);
    methods->exit(&rt);
    return 0;
}
