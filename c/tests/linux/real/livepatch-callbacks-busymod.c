/* samples/livepatch/livepatch-callbacks-busymod.c: a work that runs while its module is removed. */
#include "../check.h"
#include "livepatch-callbacks-busymod.h"

int main(void)
{
    CHECK(stub_init() == 0);
    msleep(5);
    stub_exit();
    return 0;
}
