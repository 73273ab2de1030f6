/* samples/livepatch/livepatch-shadow-mod.c: two delayed works, one of which makes what the other frees. Each dummy
   leaks a little: that is what the sample is about. */
#include "../check.h"
#include "livepatch-shadow-mod.h"

int main(void)
{
    CHECK(stub_init() == 0);
    msleep(3300);
    stub_exit();
    return 0;
}
