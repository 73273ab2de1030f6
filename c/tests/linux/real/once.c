/* lib/once.c: what is done once, and a work that frees itself. */
#include "../check.h"
#include "once.h"

enum { KEYS = 50, THREADS = 4 };
static struct static_key_true keys[KEYS];
static struct module module;
static bool done[KEYS];
static int times;

static void *try_all(void *none)
{
    for (int k = 0; k < KEYS; k++) {
        unsigned long flags;

        if (k % 2 == 0 && __do_once_start(&done[k], &flags)) {
            ADD(times, 1);
            __do_once_done(&done[k], &keys[k], &flags, &module);
        } else if (k % 2 == 1 && __do_once_sleepable_start(&done[k])) {
            ADD(times, 1);
            __do_once_sleepable_done(&done[k], &keys[k], &module);
        }
    }
    return none;
}

int main(void)
{
    pthread_t threads[THREADS];

    for (int k = 0; k < KEYS; k++) keys[k].enabled = 1;
    for (int k = 0; k < THREADS; k++) CHECK(!pthread_create(&threads[k], NULL, try_all, NULL));
    for (int k = 0; k < THREADS; k++) pthread_join(threads[k], NULL);
    flush_scheduled_work();
    for (int k = 0; k < KEYS; k++) CHECK(!keys[k].enabled);
    CHECK(times == KEYS && module.references == 0);
    return 0;
}
