/* lib/dim: the moderation of interrupts, whose work is scheduled by what stands for the interrupt. */
#include "../check.h"
#include <linux/dim.h>

static int applied;

static void apply(struct work_struct *work)
{
    struct dim *dim = container_of(work, struct dim, work);

    net_dim_get_rx_moderation(dim->mode, dim->profile_ix);
    dim->state = DIM_START_MEASURE;
    ADD(applied, 1);
}

int main(void)
{
    static struct dim dim;
    struct dim_sample sample = {0};

    INIT_WORK(&dim.work, apply);
    for (int k = 0; k < 3000; k++) {
        dim_update_sample((u16)k, (u64)k * (k % 700 < 350 ? 64 : 4), (u64)k * 64000, &sample);
        flush_work(&dim.work);
        net_dim(&dim, sample);
        if (k % 64 == 0) rest(1500);
    }
    cancel_work_sync(&dim.work);
    CHECK(applied > 0);
    return 0;
}
