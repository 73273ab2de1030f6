/*
 * A driver as the kernel has them, and a program around it. The lamp switches itself on or off every two jiffies. Its
 * struct is freed when it is removed, so nothing of it may be pending or run then.
 */
#include <linux/completion.h>
#include <linux/mutex.h>
#include <linux/slab.h>
#include <linux/workqueue.h>
#include <stdio.h>

struct lamp { struct delayed_work blink; struct mutex lock; struct completion *seen; bool is_on; int changes; };

static void lamp_blink(struct work_struct *work)
{
    struct lamp *lamp = container_of(to_delayed_work(work), struct lamp, blink);

    mutex_lock(&lamp->lock);
    lamp->is_on = !lamp->is_on;
    if (lamp->changes < 6) printf("lamp: %s\n", lamp->is_on ? "on" : "off");
    if (++lamp->changes == 6) complete(lamp->seen);
    mutex_unlock(&lamp->lock);
    schedule_delayed_work(&lamp->blink, 2);
}

static struct lamp *lamp_probe(struct completion *seen)
{
    struct lamp *lamp = kzalloc(sizeof *lamp, GFP_KERNEL);

    if (!lamp) return NULL;
    mutex_init(&lamp->lock);
    lamp->seen = seen;
    INIT_DELAYED_WORK(&lamp->blink, lamp_blink);
    schedule_delayed_work(&lamp->blink, 0);
    return lamp;
}

static void lamp_remove(struct lamp *lamp)
{
    cancel_delayed_work_sync(&lamp->blink);
    kfree(lamp);
}

int main(void)
{
    DECLARE_COMPLETION_ONSTACK(seen);
    struct lamp *lamp = lamp_probe(&seen);

    if (!lamp) return 1;
    wait_for_completion(&seen);
    lamp_remove(lamp);
    printf("lamp: removed\n");
    return 0;
}
