/* lib/livepatch/test_klp_callbacks_busy.c: a work that its module waits for, and one that it has to let go. */
#include "../check.h"
#include "test_klp_callbacks_busy.h"

int main(void)
{
    CHECK(stub_init() == 0);
    stub_exit();
    __atomic_store_n(stub_block, true, __ATOMIC_RELAXED);
    CHECK(stub_init() == 0);
    msleep(30);
    stub_exit();
    return 0;
}
