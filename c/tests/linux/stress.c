/* Random calls by four threads and by the works themselves. In the end each work has run as often as it was queued and
   not taken back, and never twice at a time if it was queued on one queue alone: stress [CALLS [SEED]]. */
#include "check.h"

enum { THINGS = 24, THREADS = 4, QUEUES = 4 };
/* @home: it is queued there alone; @modified: then it is not cancelled, when mod_delayed_work() would queue nothing */
struct thing { struct delayed_work work; struct workqueue_struct *home; bool modified; int owed, runs, inside; };
static struct thing things[THINGS];
static struct workqueue_struct *queues[QUEUES];
static unsigned calls = 3000, seeds;

static unsigned next_random(uint64_t *seed)
{
    *seed = *seed * UINT64_C(6364136223846793005) + UINT64_C(1442695040888963407);
    return (unsigned)(*seed >> 33);
}

static void some_call(uint64_t *seed, bool in_run)
{
    struct thing *it = &things[next_random(seed) % THINGS];
    struct workqueue_struct *wq = it->home ? it->home : queues[next_random(seed) % QUEUES];
    unsigned delay = next_random(seed) % 4;

    switch (next_random(seed) % (in_run ? 7 : 11)) {
    case 0:
    case 1:
        if (queue_work(wq, &it->work.work)) ADD(it->owed, 1);
        break;
    case 2:
        if (queue_work_on((int)(delay % 2), wq, &it->work.work)) ADD(it->owed, 1);
        break;
    case 3:
        if (queue_delayed_work(wq, &it->work, delay)) ADD(it->owed, 1);
        break;
    case 4:
        if (it->modified && !mod_delayed_work(wq, &it->work, delay)) ADD(it->owed, 1);
        break;
    case 5:
        if (cancel_delayed_work(&it->work)) ADD(it->owed, -1);
        break;
    case 6:
        if (delayed_work_pending(&it->work)) work_busy(&it->work.work);
        break;
    case 7:
    case 8:
        if (!it->modified && cancel_delayed_work_sync(&it->work)) ADD(it->owed, -1);
        break;
    case 9:
        flush_delayed_work(&it->work);
        break;
    default:
        if (delay) flush_work(&it->work.work);
        else flush_workqueue(wq);
    }
}

static void run(struct work_struct *work)
{
    struct thing *it = container_of(to_delayed_work(work), struct thing, work);
    uint64_t seed = ADD(seeds, 7919);
    int inside = ADD(it->inside, 1);

    CHECK(!it->home || inside == 1);
    ADD(it->runs, 1);
    if (next_random(&seed) % 3 == 0) some_call(&seed, true);
    if (next_random(&seed) % 29 == 0) rest_in_run(200);
    ADD(it->inside, -1);
}

static void *call_on(void *at)
{
    uint64_t seed = (uint64_t)(uintptr_t)at;

    for (unsigned k = 0; k < calls; k++) some_call(&seed, false);
    return NULL;
}

int main(int argc, char **argv)
{
    struct cmwq_linux_options options = {.works = 64, .aborts = true};
    pthread_t threads[THREADS];

    if (argc > 1) calls = (unsigned)strtoul(argv[1], NULL, 10);
    if (argc > 2) seeds = (unsigned)strtoul(argv[2], NULL, 10);
    CHECK(cmwq_linux_open(&options) == 0);
    queues[0] = alloc_workqueue("bound", 0, 2);
    queues[1] = alloc_workqueue("unbound", WQ_UNBOUND, 4);
    queues[2] = alloc_ordered_workqueue("ordered", 0);
    queues[3] = alloc_workqueue("high", WQ_HIGHPRI, 0);
    for (unsigned k = 0; k < THINGS; k++) {
        INIT_DELAYED_WORK(&things[k].work, run);
        things[k].home = k % 6 < 4 ? queues[k % QUEUES] : NULL;
        things[k].modified = k % 3 == 0;
    }
    for (uintptr_t k = 0; k < THREADS; k++)
        CHECK(!pthread_create(&threads[k], NULL, call_on, (void *)(GET(seeds) + k + 1)));
    for (unsigned k = 0; k < THREADS; k++) pthread_join(threads[k], NULL);
    for (unsigned round = 0; round < 50; round++) /* runs queue others */
        for (unsigned k = 0; k < THINGS; k++) flush_delayed_work(&things[k].work);
    for (unsigned round = 0; round < 50; round++)
        for (unsigned k = 0; k < THINGS; k++)
            if (cancel_delayed_work_sync(&things[k].work)) ADD(things[k].owed, -1);
    for (unsigned k = 0; k < QUEUES; k++) destroy_workqueue(queues[k]);
    for (unsigned k = 0; k < THINGS; k++) CHECK(things[k].runs == things[k].owed);
    return cmwq_linux_close() != 0;
}
