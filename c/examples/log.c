/*
 * A log service on a hub. Two writers gather lines on threads of their own. Each line puts off the item that writes the
 * lines that wait to the open file; when the file is full, that item queues another one, which closes it. The history
 * is kept as a journal of format 3, which `cmwq check` and cmwq_check() judge.
 */
#include "cmwq_hub.h"

enum { WRITE, ROTATE, ITEMS };          /* the items */
enum { WRITING, ROTATING, QUEUES };     /* the queue of each */
enum { LINES = 100, QUIET = 3, FULL = 50 };

struct log { pthread_mutex_t lock; unsigned waiting, open, closed; };

struct journal { char *text; size_t len, room; };

static struct cmwq_hub hub;
static struct log lines = {PTHREAD_MUTEX_INITIALIZER, 0, 0, 0};
static struct journal journal;

/* The hub hands out its history. */
static bool keep(void *data, const char *text, size_t len)
{
    struct journal *to = data;

    if (to->len + len > to->room) {
        char *more = realloc(to->text, 2 * (to->len + len));

        if (!more)
            return false;
        to->text = more;
        to->room = 2 * (to->len + len);
    }
    memcpy(to->text + to->len, text, len);
    to->len += len;
    return true;
}

/* INIT_WORK(&write, write_lines) */
static void write_lines(struct cmwq_run *run, void *data)
{
    struct log *log = data;
    bool full;

    pthread_mutex_lock(&log->lock);
    log->open += log->waiting;
    log->waiting = 0;
    full = log->open >= FULL;
    pthread_mutex_unlock(&log->lock);
    if (full)
        cmwq_queue_work_on(run->hub, 0, ROTATING, ROTATE);
}

static void close_file(struct cmwq_run *run, void *data)
{
    struct log *log = data;

    (void)run;
    pthread_mutex_lock(&log->lock);
    log->closed += log->open;
    log->open = 0;
    pthread_mutex_unlock(&log->lock);
}

/* A writer's thread. */
static void *gather(void *at)
{
    (void)at;
    for (int line = 1; line <= LINES; line++) {
        pthread_mutex_lock(&lines.lock);
        lines.waiting++;
        pthread_mutex_unlock(&lines.lock);
        cmwq_mod_delayed_work_on(&hub, 0, WRITING, WRITE, QUIET);
        if (line % 10 == 0)
            cmwq_flush_delayed_work(&hub, WRITE, CMWQ_FOREVER);
    }
    return NULL;
}

int main(void)
{
    struct cmwq_queue queues[QUEUES] = {{.max_active = 1}, {.max_active = 1, .intensive = 1}};
    struct cmwq_work works[ITEMS] = {{write_lines, &lines}, {close_file, &lines}};
    struct cmwq_options options = {
        .queues = queues, .queue_count = QUEUES, .works = works, .items = ITEMS, .workers = 2};
    pthread_t writers[2];
    uint8_t verdict[CMWQ_LINE];
    size_t len = 0;
    bool ended = true;

    options.journal = keep;
    options.journal_data = &journal;
    if (cmwq_hub_open(&hub, &options) < 0)
        return 1;
    for (int i = 0; i < 2; i++)
        if (pthread_create(&writers[i], NULL, gather, NULL))
            return 1;
    for (int i = 0; i < 2; i++)
        pthread_join(writers[i], NULL);
    ended &= cmwq_flush_delayed_work(&hub, WRITE, CMWQ_FOREVER) >= 0;
    ended &= cmwq_queue_work_on(&hub, 0, ROTATING, ROTATE) >= 0;
    for (unsigned queue = 0; queue < QUEUES; queue++) {
        ended &= cmwq_drain_workqueue(&hub, queue, CMWQ_FOREVER) >= 0;
        ended &= cmwq_destroy_workqueue(&hub, queue, CMWQ_FOREVER) >= 0;
    }
    ended &= cmwq_hub_close(&hub) == 0;
    printf("all waits ended: %d\nlines gathered: %d\nlines in closed files: %u\n", ended, 2 * LINES, lines.closed);
    if (cmwq_check((const uint8_t *)journal.text, journal.len, verdict, sizeof verdict, &len) == CMWQ_OK)
        printf("the history is legal\n");
    else
        printf("the history is not legal: %.*s", (int)len, (const char *)verdict);
    free(journal.text);
    return 0;
}
