/* A work that queues itself until it is cancelled. Then its struct is freed. */
#include "check.h"

struct loop { struct work_struct work; int rounds; };

static void again(struct work_struct *work)
{
    struct loop *loop = container_of(work, struct loop, work);

    ADD(loop->rounds, 1);
    queue_work(system_highpri_wq, work);
}

int main(void)
{
    for (int k = 0; k < 50; k++) {
        struct loop *loop = (struct loop *)calloc(1, sizeof *loop);

        CHECK(loop);
        INIT_WORK(&loop->work, again);
        CHECK(queue_work(system_highpri_wq, &loop->work));
        while (GET(loop->rounds) < 20) rest(100);
        cancel_work_sync(&loop->work);
        CHECK(!work_busy(&loop->work));
        free(loop);
    }
    return cmwq_linux_close() != 0;
}
