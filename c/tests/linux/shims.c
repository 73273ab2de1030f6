/* The headers that stand in place of the kernel's: a run that waits in one of them lets others of its pool run. */
#include "check.h"
#include <linux/completion.h>
#include <linux/delay.h>
#include <linux/kref.h>
#include <linux/list.h>
#include <linux/mutex.h>
#include <linux/slab.h>
#include <linux/spinlock.h>
#include <linux/wait.h>

enum { WAYS = 4 };
static DEFINE_MUTEX(mutex);
static DECLARE_COMPLETION(completion);
static DECLARE_WAIT_QUEUE_HEAD(queue);
static int way, met, woken;

static void wait_in(struct work_struct *work)
{
    (void)work;
    switch (way) {
    case 0:
        mutex_lock(&mutex);
        mutex_unlock(&mutex);
        break;
    case 1:
        wait_for_completion(&completion);
        break;
    case 2:
        wait_event(queue, GET(woken));
        break;
    default:
        for (int k = 0; k < 500 && GET(met) <= way; k++) msleep(10);
    }
    CHECK(GET(met) == way + 1); /* the pool's only CPU was free */
}
static DECLARE_WORK(waiter, wait_in);

static void meet(struct work_struct *work)
{
    (void)work;
    ADD(met, 1);
    SET(woken, 1);
    wake_up(&queue);
    complete(&completion);
}
static DECLARE_WORK(other, meet);

struct thing { struct list_head link; struct kref references; int number; };
static int released;

static void release(struct kref *kref)
{
    struct thing *thing = container_of(kref, struct thing, references);

    released += thing->number;
    kfree(thing);
}

static void use_lists(void)
{
    LIST_HEAD(things);
    LIST_HEAD(others);
    struct thing *thing, *next;
    int seen = 0;
    char *text = kstrdup("text", GFP_KERNEL);

    for (int k = 1; k <= 4; k++) {
        CHECK((thing = (struct thing *)kzalloc(sizeof *thing, GFP_KERNEL)) && thing->number == 0);
        thing->number = k;
        kref_init(&thing->references);
        if (k % 2) list_add(&thing->link, &things);
        else list_add_tail(&thing->link, &others);
    }
    list_splice_tail_init(&others, &things);
    CHECK(list_empty(&others) && !list_is_singular(&things));
    list_for_each_entry(thing, &things, link) seen = 10 * seen + thing->number;
    CHECK(seen == 3124);
    list_move_tail(things.next, &things);
    list_for_each_entry_reverse(thing, &things, link) seen = 10 * seen + thing->number;
    CHECK(seen == 31243421 && list_first_entry(&things, struct thing, link)->number == 1);
    list_for_each_entry_safe(thing, next, &things, link) {
        list_del(&thing->link);
        kref_get(&thing->references);
        CHECK(!kref_put(&thing->references, release) && kref_put(&thing->references, release));
    }
    CHECK(list_empty(&things) && released == 10 && text && !strcmp(text, "text"));
    kfree(text);
}

int main(void)
{
    struct cmwq_linux_options options = {.cpus = 1};
    static DEFINE_SPINLOCK(spin);
    unsigned long flags, begun;

    CHECK(cmwq_linux_open(&options) == 0);
    for (way = 0; way < WAYS; way++) {
        reinit_completion(&completion);
        SET(woken, 0);
        mutex_lock(&mutex);
        CHECK(schedule_work(&waiter));
        while (work_busy(&waiter) != WORK_BUSY_RUNNING) rest(100);
        rest(2000);
        CHECK(schedule_work(&other));
        flush_work(&other);
        mutex_unlock(&mutex);
        flush_work(&waiter);
        CHECK(met == way + 1);
    }
    spin_lock_irqsave(&spin, flags);
    CHECK(!spin_trylock(&spin));
    spin_unlock_irqrestore(&spin, flags);
    CHECK(!mutex_is_locked(&mutex) && mutex_trylock(&mutex) && mutex_is_locked(&mutex));
    begun = jiffies;
    reinit_completion(&completion);
    CHECK(wait_for_completion_timeout(&completion, 20) == 0 && time_after_eq(jiffies, begun + 20));
    complete_all(&completion);
    CHECK(wait_for_completion_timeout(&completion, 20) > 0 && completion_done(&completion));
    begun = jiffies;
    CHECK(wait_event_timeout(queue, woken == 2, 20) == 0 && time_after_eq(jiffies, begun + 20));
    CHECK(wait_event_timeout(queue, woken == 1, 20) > 0 && wait_event_interruptible(queue, true) == 0);
    usleep_range(100, 200);
    use_lists();
    return cmwq_linux_close() != 0;
}
