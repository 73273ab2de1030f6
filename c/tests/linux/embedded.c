/* Structs with a work inside, freed after cancel_work_sync(), or by their own work function; more than there are
   numbers. */
#include "check.h"

enum { THREADS = 4, ROUNDS = 1000 };
struct request { int size; struct work_struct work; };
static int ran, freed;

static void serve(struct work_struct *work)
{
    CHECK(current_work() == work);
    ADD(ran, container_of(work, struct request, work)->size);
}

static void free_itself(struct work_struct *work)
{
    free(container_of(work, struct request, work));
    ADD(freed, 1);
}

static void *make_requests(void *at)
{
    struct workqueue_struct *wq = (struct workqueue_struct *)at;

    for (int k = 0; k < ROUNDS; k++) {
        struct request *request = (struct request *)malloc(sizeof *request);
        struct request *other = (struct request *)malloc(sizeof *other);

        CHECK(request && other);
        request->size = 1;
        INIT_WORK(&request->work, serve);
        INIT_WORK(&other->work, free_itself);
        CHECK(!work_busy(&request->work) && queue_work(wq, &request->work));
        CHECK(queue_work_on(k % 2, system_wq, &other->work));
        if (k % 3 == 0) flush_work(&request->work);
        if (cancel_work_sync(&request->work)) ADD(ran, 1);
        CHECK(!work_busy(&request->work) && !work_pending(&request->work));
        free(request);
    }
    return NULL;
}

int main(void)
{
    struct cmwq_linux_options options = {.works = 2 * THREADS * ROUNDS};
    struct workqueue_struct *wq;
    pthread_t threads[THREADS];

    CHECK(cmwq_linux_open(&options) == 0 && cmwq_linux_open(&options) < 0 && !current_work());
    wq = alloc_workqueue("requests-%d", WQ_UNBOUND, 4, 7);
    for (int k = 0; k < THREADS; k++) CHECK(!pthread_create(&threads[k], NULL, make_requests, wq));
    for (int k = 0; k < THREADS; k++) pthread_join(threads[k], NULL);
    flush_scheduled_work();
    CHECK(ran == THREADS * ROUNDS && freed == THREADS * ROUNDS);
    destroy_workqueue(wq);
    return cmwq_linux_close() != 0;
}
