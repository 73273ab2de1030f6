/*
 * Workqueues in an event loop of epoll, in one thread: runs that wait for devices, a run that waits for another one,
 * and a delay. A device is a timerfd here. Nothing blocks but epoll_wait().
 */
#include "cmwq_loop.h"
#include <sys/epoll.h>

enum { DISK, NET, REPORT, LATE, ITEMS };

static struct cmwq_loop loop;
static int events;

/* Polls an fd: of an item's device, or of the loop itself. */
static bool add(int fd, unsigned of)
{
    struct epoll_event event = {.events = EPOLLIN, .data.u32 = of};

    return fd >= 0 && epoll_ctl(events, EPOLL_CTL_ADD, fd, &event) == 0;
}

/* Opens a device that is ready in so many milliseconds. */
static int device(unsigned of, long milliseconds)
{
    struct itimerspec when = {.it_value = {.tv_nsec = milliseconds * 1000000}};
    int fd = timerfd_create(CLOCK_MONOTONIC, TFD_NONBLOCK);

    return fd >= 0 && timerfd_settime(fd, 0, &when, NULL) == 0 && add(fd, of) ? fd : -1;
}

static bool reads(struct cmwq_loop_run *run, void *data)
{
    const char *name = (const char *)data;

    if (run->calls == 0) {
        printf("%s: begins\n", name);
        run->state = (uintptr_t)device(run->item, 5);
        return (int)run->state < 0; /* not yet: it is called again when the device is ready */
    }
    printf("%s: has read\n", name);
    close((int)run->state);
    if (run->item == DISK)
        cmwq_loop_queue_work_on(run->loop, 0, 0, NET);
    else
        cmwq_loop_mod_delayed_work_on(run->loop, 0, 0, LATE, 1);
    return true;
}

static bool reports(struct cmwq_loop_run *run, void *data)
{
    (void)data;
    if (run->calls == 0) {
        printf("report: %s\n", cmwq_why(cmwq_loop_flush_work(run->loop, run->item, NULL)));
        return cmwq_loop_flush_work(run->loop, DISK, NULL) != -CMWQ_WAITS; /* not yet, if the disk's run goes on */
    }
    printf("report: the disk's run has ended: %d\n", run->result);
    return true;
}

static bool stops(struct cmwq_loop_run *run, void *data)
{
    (void)data;
    printf("late: runs\n");
    return cmwq_loop_stop(run->loop) == CMWQ_OK;
}

static void flushed(struct cmwq_loop_wait *wait, int result)
{
    (void)wait;
    printf("what was queued first has ended: %d\n", result);
}

int main(void)
{
    static char disk[] = "disk", net[] = "net";
    struct cmwq_loop_work works[ITEMS] = {{reads, disk}, {reads, net}, {reports, NULL}, {stops, NULL}};
    struct cmwq_queue queues[] = {{.max_active = 4}};
    struct cmwq_loop_options options = {.hub = {.queues = queues, .queue_count = 1, .items = ITEMS}, .works = works};
    struct cmwq_loop_wait wait = {.ended = flushed};

    events = epoll_create1(0);
    if (events < 0 || cmwq_loop_open(&loop, &options) < 0 || !add(cmwq_loop_fd(&loop), ITEMS))
        return 1;
    cmwq_loop_queue_work_on(&loop, 0, 0, DISK);
    cmwq_loop_queue_work_on(&loop, 0, 0, REPORT);
    cmwq_loop_queue_delayed_work_on(&loop, 0, 0, LATE, 3600000);
    if (cmwq_loop_flush_workqueue(&loop, 0, &wait) != -CMWQ_WAITS)
        return 1;
    while (!cmwq_loop_is_over(&loop)) {
        struct epoll_event event;

        if (epoll_wait(events, &event, 1, -1) != 1)
            continue;
        if (event.data.u32 < ITEMS)
            cmwq_loop_resume(&loop, event.data.u32);
        cmwq_loop_run(&loop);
    }
    close(events);
    return cmwq_loop_close(&loop) < 0;
}
