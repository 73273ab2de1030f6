/* Delays, mod_delayed_work(), and a work that queues itself with a delay. */
#include "check.h"

static unsigned long ran_at;
static int polls;

static void note_time(struct work_struct *work)
{
    CHECK(to_delayed_work(work));
    SET(ran_at, jiffies);
}
static DECLARE_DELAYED_WORK(once, note_time);

static void look(struct work_struct *work)
{
    if (ADD(polls, 1) < 20) schedule_delayed_work(to_delayed_work(work), msecs_to_jiffies(2));
}
static DECLARE_DEFERRABLE_WORK(poll, look);

int main(void)
{
    struct delayed_work here;
    unsigned long begun;

    CHECK(!delayed_work_pending(&once) && !cancel_delayed_work(&once) && !cancel_delayed_work_sync(&once));
    begun = jiffies;
    CHECK(schedule_delayed_work(&once, 1000 * HZ) && !schedule_delayed_work(&once, 1));
    CHECK(delayed_work_pending(&once) && mod_delayed_work(system_wq, &once, 30));
    CHECK(schedule_delayed_work_on(1, &poll, 0));
    while (work_busy(&once.work)) rest(1000);
    CHECK(time_after_eq(GET(ran_at), begun + 30) && time_after_eq(jiffies, begun + 30));

    CHECK(!mod_delayed_work_on(0, system_wq, &once, 1000 * HZ));
    CHECK(mod_delayed_work(system_highpri_wq, &once, 2000 * HZ));
    CHECK(cancel_delayed_work(&once) && !cancel_delayed_work(&once) && !work_busy(&once.work));
    CHECK(schedule_delayed_work(&once, MAX_JIFFY_OFFSET) && flush_delayed_work(&once) && !flush_delayed_work(&once));

    while (GET(polls) < 20) rest(1000);
    cancel_delayed_work_sync(&poll);
    CHECK(polls == 20 && !delayed_work_pending(&poll));

    INIT_DELAYED_WORK_ONSTACK(&here, note_time);
    CHECK(queue_delayed_work(system_unbound_wq, &here, 500 * HZ) && flush_delayed_work(&here));
    CHECK(queue_delayed_work_on(1, system_long_wq, &here, 1000 * HZ) && cancel_delayed_work_sync(&here));
    destroy_delayed_work_on_stack(&here);
    return cmwq_linux_close() != 0;
}
