/* kernel/power/poweroff.c: a key that is hit by two threads, and a work on CPU 0. */
#include "../check.h"
#include "poweroff.h"

static const struct sysrq_key_op *op;
static int times;

void kernel_power_off(void) { ADD(times, 1); }

int register_sysrq_key(int key, const struct sysrq_key_op *it)
{
    CHECK(key == 'o');
    op = it;
    return 0;
}

static void *hit(void *none)
{
    for (int k = 0; k < 100; k++) {
        op->handler('o');
        if (k % 10 == 0) rest(100);
    }
    return none;
}

int main(void)
{
    pthread_t threads[2];

    CHECK(stub_init() == 0);
    for (int k = 0; k < 2; k++) CHECK(!pthread_create(&threads[k], NULL, hit, NULL));
    for (int k = 0; k < 2; k++) pthread_join(threads[k], NULL);
    flush_scheduled_work();
    CHECK(GET(times) > 0 && GET(times) <= 200);
    return 0;
}
