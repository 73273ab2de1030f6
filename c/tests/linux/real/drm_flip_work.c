/* drivers/gpu/drm/drm_flip_work.c: four threads queue values and commit them. */
#include "../check.h"
#include <drm/drm_flip_work.h>

enum { THREADS = 4, VALUES = 1000 };
static struct drm_flip_work flip;
static struct workqueue_struct *wq;
static long sum;

static void add(struct drm_flip_work *work, void *value)
{
    (void)work;
    sum += (long)value;
}

static void *queue_values(void *none)
{
    for (long k = 1; k <= VALUES; k++) {
        drm_flip_work_queue(&flip, (void *)k);
        if (k % 3 == 0 || k == VALUES) drm_flip_work_commit(&flip, wq);
    }
    return none;
}

int main(void)
{
    pthread_t threads[THREADS];

    wq = alloc_workqueue("flip", WQ_HIGHPRI, 0);
    drm_flip_work_init(&flip, "flip", add);
    for (int k = 0; k < THREADS; k++) CHECK(!pthread_create(&threads[k], NULL, queue_values, NULL));
    for (int k = 0; k < THREADS; k++) pthread_join(threads[k], NULL);
    flush_workqueue(wq);
    CHECK(sum == THREADS * (VALUES * (VALUES + 1L) / 2));
    drm_flip_work_cleanup(&flip);
    destroy_workqueue(wq);
    return 0;
}
