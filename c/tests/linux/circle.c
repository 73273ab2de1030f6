/* A wait that is refused is told with who waits for whom. */
#include "check.h"

enum { MOST = 8 };
static char told[MOST][300];
static int count;

static void note(const struct cmwq_linux_warning *it)
{
    int k;

    if (!strcmp(it->call, "queue_work")) {
        CHECK(!it->circle); /* this one is no wait */
        return;
    }
    k = ADD(count, 1) - 1;
    CHECK(k < MOST && it->circle);
    snprintf(told[k], sizeof told[k], "%s", it->circle);
}

/* What was told last is one of these. */
static void expect(const char *one, const char *other, const char *third)
{
    const char *last;

    CHECK(GET(count) > 0);
    last = told[GET(count) - 1];
    SET(count, 0);
    if (strcmp(last, one) && (!other || strcmp(last, other)) && (!third || strcmp(last, third))) {
        fprintf(stderr, "told: %s\n", last);
        exit(1);
    }
}

static struct workqueue_struct *line, *wide;
static void one(struct work_struct *work), two(struct work_struct *work), three(struct work_struct *work);
static DECLARE_WORK(a, one);
static DECLARE_WORK(b, two);
static DECLARE_WORK(c, three);
static struct work_struct none;
static int scene, inside;

/* Each waits until all of its scene run. */
static void meet(int many)
{
    ADD(inside, 1);
    while (GET(inside) < many) rest_in_run(100);
}

static void one(struct work_struct *work)
{
    switch (scene) {
    case 0: flush_work(work), schedule_work(&none); break;
    case 1: flush_workqueue(line); break;
    case 2: meet(2); flush_work(&b); break;
    case 3: meet(3); flush_workqueue(wide); break;
    default:
        while (!work_pending(&b)) rest_in_run(100);
        flush_work(&b);
    }
}

static void two(struct work_struct *work)
{
    (void)work;
    if (scene == 2) meet(2), flush_work(&a);
    if (scene == 3) meet(3), cancel_work_sync(&c);
}

static void three(struct work_struct *work)
{
    (void)work;
    meet(3);
    flush_work(&a);
}

int main(void)
{
    struct cmwq_linux_options options = {.warn = note};

    CHECK(cmwq_linux_open(&options) == 0);
    line = alloc_ordered_workqueue("line", 0);
    wide = alloc_workqueue("wide", WQ_UNBOUND, 0);
    for (scene = 0; scene < 5; scene++) {
        SET(inside, 0);
        queue_work(line, &a);
        if (scene == 2 || scene == 3) queue_work(wide, &b);
        if (scene == 3) queue_work(system_highpri_wq, &c);
        if (scene == 4) queue_work(line, &b);
        flush_work(&a);
        flush_work(&b);
        flush_work(&c);
        if (scene == 0) expect("one waits for itself", NULL, NULL);
        if (scene == 1) expect("one waits for line, on which it runs", NULL, NULL);
        if (scene == 2) expect("one waits for two, two waits for one", "two waits for one, one waits for two", NULL);
        if (scene == 3)
            expect("one waits for wide, on which two runs, two waits for three, three waits for one",
                   "two waits for three, three waits for one, one waits for wide, on which two runs",
                   "three waits for one, one waits for wide, on which two runs, two waits for three");
        if (scene == 4) expect("one waits for two, which is behind it on line", NULL, NULL);
    }
    destroy_workqueue(line);
    destroy_workqueue(wide);
    return cmwq_linux_close() != 0;
}
