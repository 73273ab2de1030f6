/* A work that is queued on another queue while it runs; on which CPU a work runs. */
#include "check.h"

/* @open: so many of the runs may end, in the order in which they began, or the other way round */
struct gate { struct delayed_work work; int inside, runs, open; bool turned, cancelled; };
static struct gate gate;
static struct workqueue_struct *one, *two;

static void pass(struct work_struct *work)
{
    struct gate *it = container_of(to_delayed_work(work), struct gate, work);

    int run = ADD(it->runs, 1), turn = it->turned && run <= 2 ? 3 - run : run;

    ADD(it->inside, 1);
    cmwq_linux_blocks();
    while (GET(it->open) < turn) rest(100);
    cmwq_linux_goes_on();
    if (it->cancelled) CHECK(!queue_work(turn % 2 ? one : two, work));
    ADD(it->inside, -1);
}

static void enter(struct workqueue_struct *wq, int inside)
{
    CHECK(queue_work(wq, &gate.work.work));
    while (GET(gate.inside) < inside) rest(100);
}

static void *open_late(void *none)
{
    for (int k = 0; k < 500 && work_pending(&gate.work.work); k++) rest(100); /* until a cancel has begun */
    for (int k = 1; k <= 2; k++) {
        rest(20000);
        SET(gate.open, k);
    }
    rest(5000);
    SET(gate.open, 100);
    return none;
}

static void begin(void)
{
    gate.runs = 0;
    gate.open = 0;
    gate.turned = gate.cancelled = false;
    INIT_DELAYED_WORK(&gate.work, pass);
}

int main(void)
{
    struct work_struct *work = &gate.work.work;
    pthread_t opener;

    one = alloc_workqueue("one", 0, 0);
    two = alloc_workqueue("two", WQ_UNBOUND, 0);

    /* cancel_work_sync() waits for both runs, and takes back what is queued */
    for (int k = 0; k < 2; k++) {
        begin();
        gate.turned = k;
        gate.cancelled = true;
        enter(one, 1);
        CHECK(work_busy(work) == WORK_BUSY_RUNNING);
        enter(two, 2);
        CHECK(queue_work(one, work) && !queue_work(two, work) && work_busy(work) == 3);
        CHECK(!pthread_create(&opener, NULL, open_late, NULL));
        CHECK(cancel_work_sync(work) && gate.inside == 0 && gate.runs == 2 && !work_busy(work));
        pthread_join(opener, NULL);
    }

    /* so does flush_work(), whichever is later */
    for (int k = 0; k < 2; k++) {
        begin();
        enter(k ? two : one, 1);
        enter(k ? one : two, 2);
        CHECK(!pthread_create(&opener, NULL, open_late, NULL));
        flush_work(work);
        CHECK(gate.inside == 0 && gate.runs == 2);
        pthread_join(opener, NULL);
    }

    /* a delay is moved to another queue than that where the work runs */
    begin();
    enter(one, 1);
    CHECK(queue_delayed_work(one, &gate.work, 1000 * HZ) && mod_delayed_work(two, &gate.work, 2000 * HZ));
    CHECK(!queue_work(one, work) && work_busy(work) == 3);
    CHECK(mod_delayed_work(two, &gate.work, 0));
    while (GET(gate.inside) < 2) rest(100);
    CHECK(!work_pending(work) && !mod_delayed_work(one, &gate.work, 1000 * HZ));
    SET(gate.open, 100);
    CHECK(cancel_delayed_work_sync(&gate.work) && gate.runs == 2);

    /* on the same queue a work runs once at a time */
    begin();
    enter(one, 1);
    CHECK(queue_work_on(1, one, work) && work_busy(work) == 3);
    rest(5000);
    CHECK(GET(gate.inside) == 1);
    SET(gate.open, 100);
    flush_work(work);
    CHECK(gate.runs == 2);
    destroy_workqueue(one);
    destroy_workqueue(two);
    return cmwq_linux_close() != 0;
}
