/* lib/dim/rdma_dim.c: completions whose moderation a work applies. */
#include "../check.h"
#include <linux/dim.h>

static int applied;

static void apply(struct work_struct *work)
{
    struct dim *dim = container_of(work, struct dim, work);

    CHECK(dim->profile_ix < RDMA_DIM_PARAMS_NUM_PROFILES);
    dim->state = DIM_START_MEASURE;
    ADD(applied, 1);
}

int main(void)
{
    static struct dim dim;

    dim.state = DIM_START_MEASURE;
    dim.tune_state = DIM_GOING_RIGHT;
    INIT_WORK(&dim.work, apply);
    for (int k = 0; k < 3000; k++) {
        flush_work(&dim.work);
        rdma_dim(&dim, k % 700 < 350 ? 640 : 40);
        if (k % 64 == 0) rest(1500);
    }
    cancel_work_sync(&dim.work);
    CHECK(applied > 0);
    return 0;
}
