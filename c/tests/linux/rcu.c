/* queue_rcu_work(): a work runs after all readers that began before have ended. */
#include "check.h"

struct node { struct rcu_work work; int value; };
static struct node *shown;
static int ran, stop;

static void count(struct work_struct *work)
{
    (void)work;
    ADD(ran, 1);
}

static void drop(struct work_struct *work)
{
    struct node *node = container_of(to_rcu_work(work), struct node, work);

    node->value = -1;
    free(node);
    ADD(ran, 1);
}

static void *read_on(void *none)
{
    while (!GET(stop)) {
        rcu_read_lock();
        CHECK(rcu_dereference(shown)->value > 0);
        rcu_read_unlock();
    }
    return none;
}

static void *read_long(void *none)
{
    rcu_read_lock();
    SET(stop, 2);
    while (GET(stop) != 3) rest(100);
    rest(20000);
    rcu_read_unlock();
    return none;
}

static struct node *make(int value)
{
    struct node *node = (struct node *)calloc(1, sizeof *node);

    CHECK(node);
    INIT_RCU_WORK(&node->work, drop);
    node->value = value;
    return node;
}

int main(void)
{
    static struct rcu_work again;
    struct node *old;
    pthread_t readers[2];

    shown = make(1);
    for (int k = 0; k < 2; k++) CHECK(!pthread_create(&readers[k], NULL, read_on, NULL));
    for (int k = 2; k < 200; k++) {
        old = shown;
        rcu_assign_pointer(shown, make(k));
        CHECK(queue_rcu_work(system_wq, &old->work));
        if (k % 50 == 0) synchronize_rcu();
    }
    SET(stop, 1);
    for (int k = 0; k < 2; k++) pthread_join(readers[k], NULL);
    rcu_barrier();
    flush_scheduled_work();
    CHECK(ran == 198);

    /* queued once, and flushed, while another thread reads */
    INIT_RCU_WORK(&again, count);
    CHECK(!pthread_create(&readers[0], NULL, read_long, NULL));
    while (GET(stop) != 2) rest(100);
    CHECK(queue_rcu_work(system_wq, &again) && !queue_rcu_work(system_wq, &again));
    rest(5000);
    CHECK(GET(ran) == 198);
    SET(stop, 3);
    flush_rcu_work(&again);
    CHECK(ran == 199 && !flush_rcu_work(&again));
    pthread_join(readers[0], NULL);
    free(shown);
    return cmwq_linux_close() != 0;
}
