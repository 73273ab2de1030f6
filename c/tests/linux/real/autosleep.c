/* kernel/power/autosleep.c: a work that queues itself, until the state is changed. */
#include "../check.h"
#include "autosleep.h"

int system_state = SYSTEM_RUNNING;
static unsigned int count;
static int suspends;

bool pm_get_wakeup_count(unsigned int *now, bool block)
{
    if (block) msleep(1);
    *now = __atomic_fetch_add(&count, 1, __ATOMIC_SEQ_CST);
    return true;
}

bool pm_save_wakeup_count(unsigned int now) { return now % 3 != 0; }

int pm_suspend(suspend_state_t state)
{
    CHECK(state == PM_SUSPEND_MEM);
    ADD(suspends, 1);
    return 0;
}

int main(void)
{
    CHECK(pm_autosleep_init() == 0 && pm_autosleep_set_state(PM_SUSPEND_MEM) == 0);
    WAIT_UNTIL(GET(suspends) > 3);
    CHECK(pm_autosleep_set_state(PM_SUSPEND_ON) == 0);
    msleep(20);
    return 0;
}
