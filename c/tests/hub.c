/* Callers and workers at once on the hub: each queueing runs once, one item is never in two runs, each flush waits for
 * what was queued before it. */
#include "cmwq_hub.h"
#include "check.h"
#include <unistd.h>

enum { CALLERS = 4, ROUNDS = 500, MINE = 3, ITEMS = CALLERS * MINE };

static struct cmwq_hub hub;

struct item { pthread_mutex_t lock; unsigned queued, ran; bool runs; };

static struct item items[ITEMS];
static size_t lines;

static bool count_lines(void *data, const char *text, size_t len)
{
    (void)data;
    CHECK(len > 0 && text[len - 1] == '\n');
    for (size_t k = 0; k < len; k++)
        lines += text[k] == '\n';
    return true;
}

static void work(struct cmwq_run *run, void *data)
{
    struct item *item = data;

    CHECK(&items[run->item] == item);
    pthread_mutex_lock(&item->lock);
    CHECK(!item->runs);
    item->runs = true;
    pthread_mutex_unlock(&item->lock);
    if (run->item % MINE == 0) /* this one sleeps while it runs */
        CHECK(cmwq_worker_sleeping(run->hub) == 1 && cmwq_worker_running(run->hub) == 1);
    pthread_mutex_lock(&item->lock);
    item->runs = false;
    item->ran++;
    pthread_mutex_unlock(&item->lock);
}

static void *caller(void *at)
{
    unsigned me = *(unsigned *)at;

    for (unsigned round = 1; round <= ROUNDS; round++) {
        for (unsigned mine = 0; mine < MINE; mine++) {
            unsigned item = me * MINE + mine;

            if (mine == 2 && round % 2)
                CHECK(cmwq_mod_delayed_work_on(&hub, 0, 0, item, round % 4 / 2) == 0);
            else
                CHECK(cmwq_queue_work_on(&hub, 0, mine == 1, item) == 1);
            items[item].queued++;
        }
        CHECK(cmwq_flush_delayed_work(&hub, me * MINE + 2, CMWQ_FOREVER) >= 0);
        CHECK(cmwq_flush_workqueue(&hub, 0, CMWQ_FOREVER) >= 0 && cmwq_flush_workqueue(&hub, 1, CMWQ_FOREVER) >= 0);
        for (unsigned mine = 0; mine < MINE; mine++) {
            struct item *item = &items[me * MINE + mine];

            pthread_mutex_lock(&item->lock);
            CHECK(item->ran == item->queued && !item->runs);
            pthread_mutex_unlock(&item->lock);
        }
        CHECK(cmwq_cancel_work_sync(&hub, me * MINE, CMWQ_FOREVER) == 0);
    }
    return NULL;
}

int main(void)
{
    struct cmwq_queue queues[2] = {{.max_active = 3}, {.max_active = 2, .high = 1, .intensive = 1}};
    struct cmwq_work works[ITEMS];
    struct cmwq_options options = {
        .queues = queues, .queue_count = 2, .works = works, .items = ITEMS, .keep = 256, .journal = count_lines};
    pthread_t threads[CALLERS];
    unsigned names[CALLERS];

    alarm(540);
    for (int i = 0; i < ITEMS; i++) {
        pthread_mutex_init(&items[i].lock, NULL);
        works[i] = (struct cmwq_work){work, &items[i]};
    }
    CHECK(cmwq_hub_open(&hub, &options) == CMWQ_OK);
    for (unsigned i = 0; i < CALLERS; i++) {
        names[i] = i;
        CHECK(pthread_create(&threads[i], NULL, caller, &names[i]) == 0);
    }
    for (int i = 0; i < CALLERS; i++)
        pthread_join(threads[i], NULL);
    CHECK(cmwq_drain_workqueue(&hub, 0, CMWQ_FOREVER) >= 0 && cmwq_destroy_workqueue(&hub, 0, CMWQ_FOREVER) >= 0);
    CHECK(cmwq_queue_work_on(&hub, 0, 0, 0) == -CMWQ_IS_GONE && cmwq_hub_close(&hub) == CMWQ_OK);
    for (int i = 0; i < ITEMS; i++)
        CHECK(items[i].ran == ROUNDS && items[i].queued == ROUNDS && !items[i].runs);
    CHECK(lines > CALLERS * ROUNDS * MINE * 3);
    return 0;
}
