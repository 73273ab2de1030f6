/* drivers/edac/wq.c: pollers that queue themselves, are changed, and are stopped. */
#include "../check.h"
#include "wq.h"

static struct delayed_work works[4];
static int polls[4];

static void poll(struct work_struct *work)
{
    struct delayed_work *mine = to_delayed_work(work);

    ADD(polls[mine - works], 1);
    edac_queue_work(mine, msecs_to_jiffies(1));
}

int main(void)
{
    CHECK(edac_workqueue_setup() == 0);
    for (int k = 0; k < 4; k++) {
        INIT_DELAYED_WORK(&works[k], poll);
        CHECK(edac_queue_work(&works[k], 5000) && edac_mod_work(&works[k], 0));
    }
    for (int k = 0; k < 4; k++) WAIT_UNTIL(GET(polls[k]) > 5);
    for (int k = 0; k < 4; k++) {
        edac_stop_work(&works[k]);
        CHECK(!delayed_work_pending(&works[k]));
    }
    edac_workqueue_teardown();
    return 0;
}
