/*
 * The workqueues of linux/workqueue.h, over a hub of cmwq_hub.h. The board decides what happens. Here are only the
 * numbers that are lent to works, the slots of queues, and names.
 *
 * A work is known by its address. A number is lent to it when it is first queued, and may be taken back while it is
 * idle and nobody waits for it. A work that is queued on another queue while it runs is lent one more. Once a run of a
 * work has begun, its memory is touched by calls about it alone: a work may free itself.
 *
 * A queue has one of the hub's queues as its slot, with the same flags, and leaves it to a later one when it is
 * destroyed. Unbound queues are on a CPU of their own, numbered after the last, in slots that are CPU-intensive. Each
 * call looks for its queue among those that there are, by the address, before it reads what is there.
 */
#ifndef _GNU_SOURCE
#define _GNU_SOURCE
#endif
#include "cmwq_hub.h"
#include <errno.h>
#include <linux/blocking.h>
#include <linux/workqueue.h>
#include <stdarg.h>

enum { NONE = 0x10000, NUMBERS_OF_A_WORK = 16, NAME = 40, SLOTS = 128, NAMES_BYTES = 1000000 };
/* Buckets of queues, a power of two; and so many that are gone are still known by their names. */
enum { QUEUE_BUCKETS = 256, GONE = 64 };
/* Threads that have a caller of their own, from 1 on, and calls that may wait at a time. */
enum { CALLERS = 126, WAITS = 128, THREAD_NAME = 16 };
enum { HIGH = 1, INTENSIVE = 2, FREEZABLE = 4, CLASSES = 8 };
static const unsigned slots_of_class[CLASSES] = {44, 8, 44, 8, 8, 4, 8, 4};

struct workqueue_struct { unsigned flags; bool is_of_system; char name[NAME]; };

/* @work: of which run, read without the lock when one begins; @known: found by that address; @next: in a bucket, or in
   the list of those that are free; @slot: where it was queued last; @pins: calls that wait for it; @cancels: those of
   them that cancel it */
struct number { struct work_struct *work; const char *name; unsigned next, slot, pins, cancels; bool known; };
struct set { unsigned count, of[NUMBERS_OF_A_WORK]; };

/* From which of the jiffies on, plus 1, a worker has held its CPU, or 0; and with a run of which number. */
struct watch { unsigned long since; unsigned number; };

static struct cmwq_hub hub;
static struct cmwq_linux_options is;
static pthread_mutex_t opening = PTHREAD_MUTEX_INITIALIZER;
static bool was_opened;
static int opened;

/* The first is taken before the hub's lock, never under it. The second may be taken under any. */
static pthread_mutex_t lending = PTHREAD_MUTEX_INITIALIZER, naming = PTHREAD_MUTEX_INITIALIZER;
static pthread_mutex_t writing_names = PTHREAD_MUTEX_INITIALIZER; /* not under naming */
static struct number *numbers;
static unsigned *buckets, bucket_bits, used, first_free = NONE;
/* @queue: which has the slot, or NULL; @next: the slot of the next one in its bucket, plus 1, or 0; @width: its
   max_active */
static struct { const struct workqueue_struct *queue; unsigned next, width; char name[NAME]; bool taken; } slots[SLOTS];
static unsigned queue_buckets[QUEUE_BUCKETS];
/* The last queues that were destroyed. Their memory is kept, so that none that is made has the address of one. */
static struct workqueue_struct *gone[GONE];
static unsigned next_gone;
static struct cmwq_queue shape[SLOTS];
static struct watch *watches;
static FILE *history;
static bool names_changed;
static char caller_names[CALLERS + 1][THREAD_NAME] = {"clock"};

/* Of the calling thread: the run that it is in, if any; how often it has said that it blocks; its CPU. */
struct own { struct work_struct *work; const char *name; struct cmwq_run *run; unsigned number; };
static _Thread_local struct own mine;

/* A run that waits: by which number it runs, and on which slot; and for what, which is a queue if @number is NONE. It
   lies on the stack of its thread. In the list with the lock of naming. */
struct target { const char *name; unsigned number, slot; };
struct waiting { struct target run, what; struct waiting *next, *before; };
static struct waiting *runs_that_wait;
/* Of the wait that was refused last: who waits for whom. */
static _Thread_local char circle[400];
static _Thread_local unsigned blocks;
static _Thread_local int my_cpu = -1;
static _Thread_local bool is_named;
static unsigned next_cpu;

#define SYSTEM(var, its_flags, its_name)                                                \
    static struct workqueue_struct var##_is = {its_flags, true, its_name};              \
    struct workqueue_struct *var = &var##_is
SYSTEM(system_wq, 0, "events");
SYSTEM(system_highpri_wq, WQ_HIGHPRI, "events_highpri");
SYSTEM(system_long_wq, 0, "events_long");
SYSTEM(system_unbound_wq, WQ_UNBOUND, "events_unbound");
SYSTEM(system_freezable_wq, WQ_FREEZABLE, "events_freezable");
SYSTEM(system_power_efficient_wq, WQ_POWER_EFFICIENT, "events_power_efficient");
SYSTEM(system_freezable_power_efficient_wq, WQ_FREEZABLE | WQ_POWER_EFFICIENT, "events_freezable_power_efficient");

/* Tells what a kernel warns of, or hangs on. Under no lock. */
static void warn_why(const char *call, const char *work, const char *queue, const char *why)
{
    struct cmwq_linux_warning warning = {call, work, queue, mine.name, why, circle[0] ? circle : NULL};
    char text[1024];
    size_t len;

    if (is.warn) {
        is.warn(&warning);
    } else {
        len = (size_t)snprintf(text, sizeof text, "cmwq: %.60s", call);
        if (work) len += (size_t)snprintf(text + len, sizeof text - len, " of %.60s", work);
        if (queue) len += (size_t)snprintf(text + len, sizeof text - len, " on %.60s", queue);
        if (mine.name) len += (size_t)snprintf(text + len, sizeof text - len, ", by %.60s", mine.name);
        len += (size_t)snprintf(text + len, sizeof text - len, ": %.180s", why);
        snprintf(text + len, sizeof text - len, "%s%s\n", circle[0] ? ": " : "", circle);
        fputs(text, stderr);
    }
    circle[0] = 0;
    if (!is.aborts) return;
    cmwq_linux_write_out();
    abort();
}

/* The same of what a call of the hub returned. At the end calls return what they can, and nothing is told. */
static void warn(const char *call, const char *work, const char *queue, int result)
{
    if (result < 0 && result != -CMWQ_CLOSED && result != -CMWQ_STOPPED)
        warn_why(call, work, queue, result == -CMWQ_FULL ? "too many are pending or run" : cmwq_why(result));
}

/* Kernel code reads jiffies without a lock, so ThreadSanitizer is not told of these writes. */
volatile unsigned long jiffies;
static pthread_t ticker;
static bool ticks;
__attribute__((no_sanitize("thread"))) static void set_jiffies(void)
{
    unsigned long now = (unsigned long)(cmwq_hub_now_(&hub) / hub.is.tick_ns), old = jiffies;

    while (old < now && !__sync_bool_compare_and_swap(&jiffies, old, now)) old = jiffies;
}
__attribute__((no_sanitize("thread"))) static unsigned long read_jiffies(void) { return jiffies; }

static struct watch *watch_of(const struct cmwq_who *who)
{ return &watches[(2u * who->cpu + (who->kind == CMWQ_HIGH_WORKER)) * is.workers + who->index]; }

/* Whether the calling thread's run holds its CPU, from now on. */
static void watch(bool holds)
{
    struct watch *it = mine.run && mine.run->who.cpu < is.cpus ? watch_of(&mine.run->who) : NULL;

    if (!it) return;
    __atomic_store_n(&it->number, mine.number, __ATOMIC_RELAXED);
    __atomic_store_n(&it->since, holds ? read_jiffies() + 1 : 0, __ATOMIC_RELEASE);
}

/* Tells of each run that has held its CPU for too long, once. */
static void look_for_stalls(void)
{
    char queue[NAME];

    for (unsigned k = 0; k < 2 * is.cpus * is.workers; k++) {
        unsigned long since = __atomic_load_n(&watches[k].since, __ATOMIC_ACQUIRE);
        struct number *it = &numbers[__atomic_load_n(&watches[k].number, __ATOMIC_RELAXED)];
        const char *name = __atomic_load_n(&it->name, __ATOMIC_RELAXED);
        bool intensive;

        if (!since || read_jiffies() + 1 - since < is.stall_ms) continue;
        pthread_mutex_lock(&lending);
        intensive = shape[it->slot].intensive;
        memcpy(queue, slots[it->slot].name, NAME);
        pthread_mutex_unlock(&lending);
        if (__atomic_compare_exchange_n(&watches[k].since, &since, 0, false, __ATOMIC_RELAXED, __ATOMIC_RELAXED) &&
            !intensive)
            warn_why("stall", name, queue, "it has held its CPU for too long, and does not say that it blocks");
    }
}

static void *tick(void *data)
{
    struct timespec step = {0, 1000000000 / HZ};

    for (unsigned k = 1; __atomic_load_n(&ticks, __ATOMIC_ACQUIRE); nanosleep(&step, NULL), k++) {
        set_jiffies();
        if (k % 64 == 0) look_for_stalls();
    }
    return data;
}

static void call_work(struct cmwq_run *run, void *at)
{
    struct number *own = (struct number *)at;

    mine.work = __atomic_load_n(&own->work, __ATOMIC_ACQUIRE);
    mine.name = own->name;
    mine.number = (unsigned)(own - numbers);
    mine.run = run;
    blocks = 0;
    set_jiffies();
    watch(true);
    mine.work->func(mine.work); /* which may free it */
    watch(false);
    memset(&mine, 0, sizeof mine);
}

/* Writes a name for JSON. Return: how many bytes */
static long write_name(FILE *to, const char *name)
{
    long bytes = fprintf(to, "{\"name\": \"");

    for (; *name; name++)
        if (*name == '"' || *name == '\\') bytes += fprintf(to, "\\%c", *name);
        else bytes += fprintf(to, "%c", *name < ' ' || *name > '~' ? '?' : *name);
    return bytes + fprintf(to, "\"}");
}

/* Writes the file of names anew. It is put in the place of the old one as a whole, since the program may be killed. */
static void write_names(void)
{
    char path[PATH_MAX + 8], fresh[PATH_MAX + 16];
    long bytes = 0;
    FILE *to;

    snprintf(path, sizeof path, "%s.names", is.history);
    snprintf(fresh, sizeof fresh, "%s.new", path);
    pthread_mutex_lock(&writing_names);
    if (!(to = fopen(fresh, "w"))) {
        pthread_mutex_unlock(&writing_names);
        return;
    }
    bytes += fprintf(to, "{\"queues\": [");
    pthread_mutex_lock(&naming);
    for (unsigned k = 0; k < SLOTS; k++) {
        bytes += fprintf(to, k ? ", " : "");
        bytes += slots[k].name[0] ? write_name(to, slots[k].name) : fprintf(to, "{}");
    }
    pthread_mutex_unlock(&naming);
    bytes += fprintf(to, "],\n\"callers\": [");
    pthread_mutex_lock(&naming);
    for (unsigned k = 0; k <= CALLERS; k++) {
        bytes += fprintf(to, k ? ", " : "");
        bytes += caller_names[k][0] ? write_name(to, caller_names[k]) : fprintf(to, "{}");
    }
    pthread_mutex_unlock(&naming);
    bytes += fprintf(to, "],\n\"items\": [");
    for (unsigned k = 0; k < __atomic_load_n(&used, __ATOMIC_ACQUIRE) && bytes < NAMES_BYTES; k++) {
        const char *name = __atomic_load_n(&numbers[k].name, __ATOMIC_RELAXED);

        bytes += fprintf(to, k ? ", " : "");
        bytes += write_name(to, name ? name : "?");
    }
    fprintf(to, "]}\n");
    if (fclose(to) == 0) rename(fresh, path);
    pthread_mutex_unlock(&writing_names);
}

/* The hub's journal. The file has no buffer, so that what is written outlives the program's end by a signal. */
static bool write_history(void *data, const char *text, size_t len)
{
    bool is_written = fwrite(text, 1, len, (FILE *)data) == len;

    if (__atomic_exchange_n(&names_changed, false, __ATOMIC_ACQ_REL)) write_names();
    return is_written;
}

void cmwq_linux_write_out(void)
{
    if (!__atomic_load_n(&was_opened, __ATOMIC_ACQUIRE) || opened < 0 || !is.history) return;
    cmwq_hub_tell_all_(&hub);
    write_names();
}

static unsigned class_of(unsigned flags)
{
    return (flags & WQ_HIGHPRI ? HIGH : 0) | (flags & (WQ_CPU_INTENSIVE | WQ_UNBOUND) ? INTENSIVE : 0) |
           (flags & WQ_FREEZABLE ? FREEZABLE : 0);
}

/* A free slot for a queue: rather one that had its name before, or none. Return: SLOTS if there is none. With the lock
   of lending. */
static unsigned take_slot(const char *name, unsigned flags)
{
    unsigned first = 0, best = SLOTS, rank = 0;

    for (unsigned c = 0; c < class_of(flags); c++) first += slots_of_class[c];
    for (unsigned k = first; k < first + slots_of_class[class_of(flags)]; k++) {
        unsigned this_rank = slots[k].taken ? 0 : !strcmp(slots[k].name, name) ? 3 : slots[k].name[0] ? 1 : 2;

        if (this_rank > rank) {
            rank = this_rank;
            best = k;
        }
    }
    if (best == SLOTS) return SLOTS;
    slots[best].taken = true;
    pthread_mutex_lock(&naming);
    snprintf(slots[best].name, NAME, "%s", name);
    pthread_mutex_unlock(&naming);
    __atomic_store_n(&names_changed, true, __ATOMIC_RELEASE);
    return best;
}

static unsigned *bucket_of_queue(const struct workqueue_struct *wq)
{ return &queue_buckets[(uint64_t)(uintptr_t)wq * UINT64_C(0x9E3779B97F4A7C15) >> 32 & (QUEUE_BUCKETS - 1)]; }

/* The slot of a queue, or SLOTS if there is no such queue; what is at its address is not read. With the lock of
   lending. */
static unsigned slot_of(const struct workqueue_struct *wq)
{
    unsigned at = *bucket_of_queue(wq);

    while (at && slots[at - 1].queue != wq) at = slots[at - 1].next;
    return at ? at - 1 : SLOTS;
}

static void have_slot(struct workqueue_struct *wq, unsigned slot)
{
    unsigned *bucket = bucket_of_queue(wq);

    slots[slot].queue = wq;
    slots[slot].next = *bucket;
    *bucket = slot + 1;
}

/* The queue is gone from now on. Return: what is to be freed */
static struct workqueue_struct *forget_queue(struct workqueue_struct *wq)
{
    unsigned *at = bucket_of_queue(wq), slot = slot_of(wq), place = next_gone++ % GONE;
    struct workqueue_struct *eldest = gone[place];

    while (*at != slot + 1) at = &slots[*at - 1].next;
    *at = slots[slot].next;
    slots[slot].queue = NULL;
    gone[place] = wq;
    return eldest;
}

/* Tells of a call with a queue that there isn't. Under no lock. */
static void warn_gone(const char *call, const char *work, const struct workqueue_struct *wq)
{
    char queue[NAME] = "";

    pthread_mutex_lock(&lending);
    for (unsigned k = 0; k < GONE && wq; k++)
        if (gone[k] == wq) memcpy(queue, gone[k]->name, NAME);
    pthread_mutex_unlock(&lending);
    warn_why(call, work, queue[0] ? queue : NULL,
             queue[0] ? "the queue was destroyed" : "there is no such queue: it was destroyed, or never made");
}

static unsigned setting(unsigned given, const char *variable, unsigned otherwise)
{
    const char *text = getenv(variable);
    unsigned long number = text ? strtoul(text, NULL, 10) : 0;

    return given ? given : number > 0 && number <= INT_MAX ? (unsigned)number : otherwise;
}

static void close_at_exit(void) { cmwq_linux_close(); }

/* Opens the hub. Return: CMWQ_OK, or minus a status */
static int open_hub(void)
{
    struct workqueue_struct *systems[] = {system_wq, system_highpri_wq, system_long_wq, system_unbound_wq,
        system_freezable_wq, system_power_efficient_wq, system_freezable_power_efficient_wq};
    struct cmwq_options options = {0};
    struct cmwq_work *works;
    int result;

    is.cpus = setting(is.cpus, "CMWQ_LINUX_CPUS", 2);
    is.workers = setting(is.workers, "CMWQ_LINUX_WORKERS", 16);
    is.works = setting(is.works, "CMWQ_LINUX_WORKS", 16384);
    is.stall_ms = setting(is.stall_ms, "CMWQ_LINUX_STALL_MS", 5000);
    is.aborts = is.aborts || (!is.warn && setting(0, "CMWQ_LINUX_ABORTS", 0) != 0);
    is.history = is.history ? is.history : getenv("CMWQ_LINUX_HISTORY");
    if (is.cpus > 63 || is.workers > 64 || is.works > UINT16_MAX || (is.history && strlen(is.history) > PATH_MAX))
        return -CMWQ_REFUSED;
    while (1u << bucket_bits < is.works) bucket_bits++;
    numbers = (struct number *)calloc(is.works, sizeof *numbers);
    buckets = (unsigned *)malloc(sizeof *buckets << bucket_bits);
    watches = (struct watch *)calloc(2 * is.cpus * is.workers, sizeof *watches);
    works = (struct cmwq_work *)calloc(is.works, sizeof *works);
    if (!numbers || !buckets || !watches || !works) return -CMWQ_NO_MEMORY;
    for (unsigned k = 0; k < 1u << bucket_bits; k++) buckets[k] = NONE;
    for (unsigned k = 0; k < is.works; k++) works[k] = (struct cmwq_work){call_work, &numbers[k]};
    for (unsigned c = 0, k = 0; c < CLASSES; c++)
        for (unsigned end = k + slots_of_class[c]; k < end; k++)
            shape[k] = (struct cmwq_queue){WQ_DFL_ACTIVE, (c & HIGH) != 0, (c & INTENSIVE) != 0, (c & FREEZABLE) != 0};
    for (unsigned k = 0; k < sizeof systems / sizeof *systems; k++) {
        unsigned slot = take_slot(systems[k]->name, systems[k]->flags);

        slots[slot].width = WQ_DFL_ACTIVE;
        have_slot(systems[k], slot);
    }
    if (is.history && !(history = fopen(is.history, "w"))) return -CMWQ_NO_JOURNAL;
    if (history) setvbuf(history, NULL, _IONBF, 0);
    options.queues = shape;
    options.queue_count = SLOTS;
    options.works = works;
    options.items = is.works;
    options.cpus = is.cpus + 1;
    options.workers = is.workers;
    options.waits = WAITS;
    options.callers = CALLERS;
    options.tick_ns = 1000000000 / HZ;
    options.ticks = true;
    options.journal = history ? write_history : NULL;
    options.journal_data = history;
    result = cmwq_hub_open(&hub, &options);
    free(works);
    if (result < 0) return result;
    ticks = true;
    if (pthread_create(&ticker, NULL, tick, NULL)) abort();
    atexit(close_at_exit);
    return CMWQ_OK;
}

int cmwq_linux_open(const struct cmwq_linux_options *options)
{
    int result = -CMWQ_NOT_NOW;

    pthread_mutex_lock(&opening);
    if (!was_opened) {
        is = *options;
        result = opened = open_hub();
        if (result < 0) fprintf(stderr, "cmwq: the workqueues can't be opened: %s\n", cmwq_why(result));
        __atomic_store_n(&was_opened, true, __ATOMIC_RELEASE);
    }
    pthread_mutex_unlock(&opening);
    return result;
}

/* Notes the name of a thread that calls, unless it is the program's. */
static void name_caller(void)
{
    char name[THREAD_NAME] = "";
    int caller = cmwq_hub_caller(&hub);

    if (caller < 0) return;
    is_named = true;
    pthread_getname_np(pthread_self(), name, sizeof name);
    if (caller > 1 && !strncmp(name, program_invocation_short_name, sizeof name - 1)) return;
    pthread_mutex_lock(&naming);
    memcpy(caller_names[caller], name, sizeof name);
    pthread_mutex_unlock(&naming);
    __atomic_store_n(&names_changed, true, __ATOMIC_RELEASE);
}

static void open_once(void)
{
    static const struct cmwq_linux_options none;

    if (!__atomic_load_n(&was_opened, __ATOMIC_ACQUIRE)) cmwq_linux_open(&none);
    if (opened < 0) abort();
    if (!is_named && !mine.run) name_caller();
}

/* The numbers of a work. With the lock of lending. */
static unsigned *bucket_of(const struct work_struct *work)
{ return &buckets[(uint64_t)(uintptr_t)work * UINT64_C(0x9E3779B97F4A7C15) >> 32 >> (32 - bucket_bits)]; }

static struct set numbers_of(const struct work_struct *work)
{
    struct set found = {0, {0}};

    for (unsigned k = *bucket_of(work); k != NONE && found.count < NUMBERS_OF_A_WORK; k = numbers[k].next)
        if (numbers[k].work == work && numbers[k].known) found.of[found.count++] = k;
    return found;
}

static bool is_pending(unsigned k)
{
    int busy = cmwq_work_busy(&hub, k);

    return busy > 0 && busy & WORK_BUSY_PENDING;
}

/* Takes a number back, if it is idle and nobody waits for it. */
static void take_back(unsigned k)
{
    unsigned *at = bucket_of(numbers[k].work);

    if (numbers[k].pins || cmwq_work_busy(&hub, k) > 0) return;
    while (*at != k) at = &numbers[*at].next;
    *at = numbers[k].next;
    numbers[k].work = NULL;
    numbers[k].known = false;
    numbers[k].next = first_free;
    first_free = k;
}

/* Lends a work one more number. Return: NONE if there is none */
static unsigned lend(struct work_struct *work)
{
    unsigned k = used, *bucket = bucket_of(work);

    if (k < is.works) {
        __atomic_store_n(&used, k + 1, __ATOMIC_RELEASE);
    } else {
        if (first_free == NONE) /* all are lent */
            for (k = 0; k < is.works; k++) take_back(k);
        if ((k = first_free) == NONE) return NONE;
        first_free = numbers[k].next;
    }
    __atomic_store_n(&numbers[k].name, work->name, __ATOMIC_RELAXED);
    __atomic_store_n(&names_changed, true, __ATOMIC_RELEASE);
    __atomic_store_n(&numbers[k].work, work, __ATOMIC_RELEASE);
    numbers[k].known = true;
    numbers[k].next = *bucket;
    *bucket = k;
    return k;
}

static bool have_one_name(const char *one, const char *other)
{ return one == other || (one && other && !strcmp(one, other)); }

/* INIT_WORK: what this memory was before is not looked at, but a number may know it. */
void cmwq_linux_init(struct work_struct *work, work_func_t func, const char *name)
{
    bool pending = false;

    if (__atomic_load_n(&was_opened, __ATOMIC_ACQUIRE) && opened >= 0) {
        struct set of_it;

        pthread_mutex_lock(&lending);
        of_it = numbers_of(work);
        for (unsigned n = 0; n < of_it.count; n++) {
            unsigned k = of_it.of[n];
            int busy = cmwq_work_busy(&hub, k);

            if (busy > 0 && busy & 1) pending = true;
            else if (busy > 0 || numbers[k].pins) numbers[k].known = false; /* its run has freed the one before */
            else if (!have_one_name(name, numbers[k].name)) take_back(k);
        }
        pthread_mutex_unlock(&lending);
    }
    if (pending) warn_why("INIT_WORK", name, NULL, "the work is pending, or was freed while it was");
    work->func = func;
    work->name = name;
}

static unsigned local_cpu(void)
{
    if (mine.run && mine.run->who.cpu < is.cpus) return mine.run->who.cpu;
    if (my_cpu < 0) my_cpu = (int)(__atomic_fetch_add(&next_cpu, 1, __ATOMIC_RELAXED) % is.cpus);
    return (unsigned)my_cpu;
}

/* The CPU of the hub, or one that it does not have. */
static unsigned cpu_of(int cpu, const struct workqueue_struct *wq)
{
    unsigned asked = cpu == WORK_CPU_UNBOUND ? local_cpu() : (unsigned)cpu;

    return asked >= is.cpus ? NONE : wq->flags & WQ_UNBOUND ? is.cpus : asked;
}

/* A call of the hub that queues or delays by a number. */
static int put_by(unsigned k, uint8_t kind, unsigned cpu, unsigned slot, unsigned long delay)
{
    int result = cmwq_hub_do_(&hub, kind, cpu, slot, k, delay);

    if (result > 0 || (result == 0 && kind == CMWQ_MODIFY)) numbers[k].slot = slot;
    return result;
}

/* Queues or delays a work by the number that is pending, or runs on this queue, or is idle, or by one more. Others that
   are idle are taken back. With the lock of lending. Return: as cmwq_hub_do_() */
static int put_work(struct work_struct *work, uint8_t kind, unsigned cpu, unsigned slot, unsigned long delay)
{
    struct set of_it = numbers_of(work);
    unsigned pending = of_it.count == 1 ? of_it.of[0] : NONE, by = NONE;
    int result = -CMWQ_IS_FOREIGN;
    bool was_pending = false;

    for (unsigned n = 0; n < of_it.count; n++) {
        if (numbers[of_it.of[n]].cancels) return 0;
        if (of_it.count > 1 && is_pending(of_it.of[n])) pending = of_it.of[n];
    }
    if (pending != NONE) {
        result = put_by(by = pending, kind, cpu, slot, delay);
        if (result == -CMWQ_IS_FOREIGN && kind == CMWQ_MODIFY && is_pending(pending)) {
            was_pending = cmwq_hub_do_(&hub, CMWQ_CANCEL, 0, 0, pending, 0) > 0;
            kind = was_pending ? CMWQ_DELAY : CMWQ_MODIFY;
        }
    }
    for (unsigned n = 0; n < of_it.count && result == -CMWQ_IS_FOREIGN; n++)
        if (of_it.of[n] != pending) result = put_by(by = of_it.of[n], kind, cpu, slot, delay);
    if (result == -CMWQ_IS_FOREIGN) {
        by = of_it.count < NUMBERS_OF_A_WORK ? lend(work) : NONE;
        result = by == NONE ? -CMWQ_FULL : put_by(by, kind, cpu, slot, delay);
    }
    for (unsigned n = 0; n < of_it.count; n++)
        if (of_it.of[n] != by && numbers[of_it.of[n]].work == work) take_back(of_it.of[n]);
    return result;
}

static bool put(const char *call, uint8_t kind, int cpu, struct workqueue_struct *wq, struct work_struct *work,
                unsigned long delay)
{
    unsigned at, slot;
    const char *name = work->name;
    bool can_run = work->func != NULL;
    char queue[NAME];
    int result = -CMWQ_REFUSED;

    open_once();
    set_jiffies();
    if (delay > UINT32_MAX / 2) delay = UINT32_MAX / 2;
    pthread_mutex_lock(&lending);
    slot = slot_of(wq);
    at = slot == SLOTS ? NONE : cpu_of(cpu, wq);
    if (at != NONE && can_run) result = put_work(work, kind, at, slot, delay);
    if (result < 0 && slot != SLOTS) memcpy(queue, wq->name, NAME);
    pthread_mutex_unlock(&lending);
    if (slot == SLOTS) warn_gone(call, name, wq);
    else if (!can_run) warn_why(call, name, queue, "the work has no function: INIT_WORK comes first");
    else warn(call, name, queue, result);
    return result > 0;
}

bool queue_work_on(int cpu, struct workqueue_struct *wq, struct work_struct *work)
{ return put("queue_work", CMWQ_QUEUE, cpu, wq, work, 0); }
bool queue_delayed_work_on(int cpu, struct workqueue_struct *wq, struct delayed_work *dwork, unsigned long delay)
{ return put("queue_delayed_work", CMWQ_DELAY, cpu, wq, &dwork->work, delay); }
bool mod_delayed_work_on(int cpu, struct workqueue_struct *wq, struct delayed_work *dwork, unsigned long delay)
{ return put("mod_delayed_work", CMWQ_MODIFY, cpu, wq, &dwork->work, delay); }

/* Whether one waits for the run of the other: or, if it is pending, for one that is before it on its queue. */
static bool waits_for(const struct waiting *one, const struct waiting *other, bool is_before)
{
    if (one->what.number == other->run.number) return true;
    return (one->what.number == NONE || is_before) && one->what.slot == other->run.slot;
}

static size_t tell_one(size_t len, const struct waiting *one, const struct waiting *next)
{
    bool is_queue = one->what.number == NONE, is_own = one == next;
    const char *name = is_queue ? slots[one->what.slot].name : one->what.name;
    size_t room = sizeof circle - len;

    if (len >= sizeof circle) return len;
    if (one->what.number == next->run.number)
        return len + (size_t)snprintf(circle + len, room, "%s%s waits for %s", len ? ", " : "", one->run.name,
                                      is_own ? "itself" : name);
    return len + (size_t)snprintf(circle + len, room, "%s%s waits for %s, %s %s%s%s", len ? ", " : "", one->run.name,
                                  name, is_queue ? "on which" : "which is behind", is_own ? "it" : next->run.name,
                                  is_queue ? " runs" : " on ", is_queue ? "" : slots[one->what.slot].name);
}

/* Tells of the shortest way by which a run that waits waits for itself, if there is one. With the lock of naming. */
static bool tell_circle(struct waiting *own, bool is_before)
{
    struct waiting *found[WAITS];
    unsigned count = 0, way = 0;
    size_t len = 0;

    for (struct waiting *it = runs_that_wait; it; it = it->next) it->before = NULL;
    for (struct waiting *at = own; at; at = way < count ? found[way++] : NULL) {
        if (waits_for(at, own, is_before)) { /* found backwards, and told forwards */
            struct waiting *next = own;

            for (struct waiting *it = at, *before; it != own; it = before) {
                before = it->before;
                it->before = next;
                next = it;
            }
            own->before = next;
            for (struct waiting *it = own; len == 0 || it != own; it = it->before) len = tell_one(len, it, it->before);
            return true;
        }
        for (struct waiting *it = runs_that_wait; it && count < WAITS; it = it->next) {
            if (it == own || it->before || !waits_for(at, it, is_before)) continue;
            it->before = at;
            found[count++] = it;
        }
    }
    return false;
}

static struct target target_of(unsigned k)
{
    const char *name = __atomic_load_n(&numbers[k].name, __ATOMIC_RELAXED);

    return (struct target){name ? name : "a work", k, numbers[k].slot};
}

static void begin_wait(struct waiting *own, bool is_queue, unsigned slot, unsigned k)
{
    pthread_mutex_lock(&lending);
    own->run = target_of(mine.number);
    own->what = is_queue ? (struct target){NULL, NONE, slot} : target_of(k);
    pthread_mutex_unlock(&lending);
    pthread_mutex_lock(&naming);
    own->next = runs_that_wait;
    runs_that_wait = own;
    pthread_mutex_unlock(&naming);
}

static void end_wait(struct waiting *own, int result)
{
    struct waiting **at = &runs_that_wait;

    pthread_mutex_lock(&naming);
    if ((result == -CMWQ_ITSELF || result == -CMWQ_DEADLOCK) && !tell_circle(own, false)) tell_circle(own, true);
    while (*at != own) at = &(*at)->next;
    *at = own->next;
    pthread_mutex_unlock(&naming);
}

/* A call of the hub that waits, in a run or not. As many calls may wait as the hub has callers to lend. */
static int wait_for(uint8_t kind, unsigned slot, unsigned k)
{
    struct waiting own;
    int result;

    watch(false);
    if (mine.run) begin_wait(&own, kind == CMWQ_FLUSH || kind == CMWQ_DRAIN, slot, k);
    while ((result = cmwq_hub_do_(&hub, kind, 0, slot, k, CMWQ_FOREVER)) == -CMWQ_NO_CALLER) sched_yield();
    if (mine.run) end_wait(&own, result);
    watch(true);
    return result;
}

/* A cancel, or a call that waits for a work, by each of its numbers. What has none neither is pending nor runs. */
static bool about(const char *call, uint8_t kind, struct work_struct *work)
{
    const char *name = work->name;
    bool waits = kind != CMWQ_CANCEL, cancels = kind == CMWQ_CANCEL_SYNC, any = false;
    char queue[NAME] = "";
    int worst = 0;
    struct set of_it;

    open_once();
    pthread_mutex_lock(&lending);
    of_it = numbers_of(work);
    for (unsigned n = 0; n < of_it.count; n++) {
        numbers[of_it.of[n]].pins += waits;
        numbers[of_it.of[n]].cancels += cancels;
        /* nothing of it starts while the run by another number is waited for */
        if (cancels && of_it.count > 1) any |= cmwq_hub_do_(&hub, CMWQ_CANCEL, 0, 0, of_it.of[n], 0) > 0;
    }
    for (unsigned n = 0; n < of_it.count; n++) {
        unsigned k = of_it.of[n];
        int result;

        if (waits) pthread_mutex_unlock(&lending);
        result = waits ? wait_for(kind, 0, k) : cmwq_hub_do_(&hub, kind, 0, 0, k, 0);
        if (waits) pthread_mutex_lock(&lending);
        any = any || result > 0;
        if (result < worst) {
            worst = result;
            memcpy(queue, slots[numbers[k].slot].name, NAME);
        }
    }
    for (unsigned n = 0; n < of_it.count; n++) {
        numbers[of_it.of[n]].pins -= waits;
        numbers[of_it.of[n]].cancels -= cancels;
    }
    pthread_mutex_unlock(&lending);
    warn(call, name, queue, worst);
    return any;
}

bool flush_work(struct work_struct *work) { return about("flush_work", CMWQ_FLUSH_ITEM, work); }
bool flush_delayed_work(struct delayed_work *dwork)
{ return about("flush_delayed_work", CMWQ_FLUSH_DELAYED, &dwork->work); }
bool cancel_work(struct work_struct *work) { return about("cancel_work", CMWQ_CANCEL, work); }
bool cancel_work_sync(struct work_struct *work) { return about("cancel_work_sync", CMWQ_CANCEL_SYNC, work); }

unsigned int work_busy(struct work_struct *work)
{
    unsigned busy = 0;
    struct set of_it;

    open_once();
    pthread_mutex_lock(&lending);
    of_it = numbers_of(work);
    for (unsigned n = 0; n < of_it.count; n++) {
        int result = cmwq_work_busy(&hub, of_it.of[n]);

        busy |= result < 0 ? 0 : (unsigned)result;
    }
    pthread_mutex_unlock(&lending);
    return busy;
}

struct work_struct *current_work(void) { return mine.work; }

static struct workqueue_struct *make_queue(const char *fmt, va_list args, unsigned flags, int max_active)
{
    struct workqueue_struct *wq = (struct workqueue_struct *)calloc(1, sizeof *wq);
    unsigned slot;

    open_once();
    if (!wq) return NULL;
    vsnprintf(wq->name, NAME, fmt, args);
    wq->flags = flags;
    pthread_mutex_lock(&lending);
    slot = take_slot(wq->name, flags);
    if (slot != SLOTS) have_slot(wq, slot);
    pthread_mutex_unlock(&lending);
    if (slot == SLOTS) {
        warn_why("alloc_workqueue", NULL, wq->name, "there are too many queues with these flags");
        free(wq);
        return NULL;
    }
    workqueue_set_max_active(wq, max_active > 0 ? max_active : WQ_DFL_ACTIVE);
    return wq;
}

struct workqueue_struct *alloc_workqueue(const char *fmt, unsigned int flags, int max_active, ...)
{
    struct workqueue_struct *wq;
    va_list args;

    va_start(args, max_active);
    wq = make_queue(fmt, args, flags, max_active);
    va_end(args);
    return wq;
}

struct workqueue_struct *alloc_ordered_workqueue(const char *fmt, unsigned int flags, ...)
{
    struct workqueue_struct *wq;
    va_list args;

    va_start(args, flags);
    wq = make_queue(fmt, args, flags | WQ_UNBOUND, 1);
    va_end(args);
    return wq;
}

/* The slot of a queue, and its name; or tells that it is gone. Return: SLOTS then */
static unsigned find_queue(const char *call, const struct workqueue_struct *wq, char *name)
{
    unsigned slot;

    open_once();
    pthread_mutex_lock(&lending);
    slot = slot_of(wq);
    if (slot != SLOTS) memcpy(name, wq->name, NAME);
    pthread_mutex_unlock(&lending);
    if (slot == SLOTS) warn_gone(call, NULL, wq);
    return slot;
}

void workqueue_set_max_active(struct workqueue_struct *wq, int max_active)
{
    unsigned width = max_active < 1 ? 1 : (unsigned)max_active, slot;
    char queue[NAME];
    int result;

    if ((slot = find_queue("workqueue_set_max_active", wq, queue)) == SLOTS) return;
    result = cmwq_workqueue_set_max_active(&hub, slot, width);
    if (result > 0) __atomic_store_n(&slots[slot].width, (unsigned)result, __ATOMIC_RELAXED);
    warn("workqueue_set_max_active", NULL, queue, result);
}

/* Whether more works are queued there or run than max_active says, so that some wait for others. */
bool workqueue_congested(int cpu, struct workqueue_struct *wq)
{
    char queue[NAME];
    unsigned slot = find_queue("workqueue_congested", wq, queue), many = 0, at;

    if (slot == SLOTS) return false;
    pthread_mutex_lock(&lending);
    at = slot_of(wq) == slot ? cpu_of(cpu, wq) : NONE;
    pthread_mutex_lock(&hub.lock);
    for (unsigned k = 0; k < used && at != NONE && hub.state != CMWQ_NONE_; k++) {
        struct cmwq_item item;

        if (cmwq_board_item(&hub.board, (uint16_t)k, &item) != CMWQ_OK) break;
        many += item.pending == CMWQ_PENDING_QUEUED && item.queue == slot && item.cpu == at;
        many += item.runs && numbers[k].slot == slot && item.worker.cpu == at;
    }
    cmwq_hub_unlock_(&hub);
    pthread_mutex_unlock(&lending);
    return many > __atomic_load_n(&slots[slot].width, __ATOMIC_RELAXED);
}

static int wait_for_queue(const char *call, uint8_t kind, struct workqueue_struct *wq)
{
    char queue[NAME];
    unsigned slot = find_queue(call, wq, queue);
    int result;

    if (slot == SLOTS) return -CMWQ_IS_GONE;
    result = wait_for(kind, slot, 0);
    warn(call, NULL, queue, result);
    return result;
}

void flush_workqueue(struct workqueue_struct *wq) { wait_for_queue("flush_workqueue", CMWQ_FLUSH, wq); }
void drain_workqueue(struct workqueue_struct *wq) { wait_for_queue("drain_workqueue", CMWQ_DRAIN, wq); }

/* The hub's queue is drained, not destroyed, because its slot is used again: but not if a work is still to come. */
void destroy_workqueue(struct workqueue_struct *wq)
{
    int result = wait_for_queue("destroy_workqueue", CMWQ_DRAIN, wq);
    struct workqueue_struct *eldest = NULL;
    const char *late = NULL;
    bool is_late = false, stays = false;
    char queue[NAME];
    unsigned slot;

    if (result < 0 && result != -CMWQ_CLOSED && result != -CMWQ_STOPPED) return; /* it was told, and the queue stays */
    pthread_mutex_lock(&lending);
    slot = slot_of(wq); /* (another thread may have destroyed it meanwhile) */
    if (slot != SLOTS) {
        memcpy(queue, wq->name, NAME);
        stays = wq->is_of_system;
        for (unsigned k = 0; k < used && !is_late && !stays; k++) {
            is_late = numbers[k].work && numbers[k].slot == slot && is_pending(k);
            late = numbers[k].name;
        }
        slots[slot].taken = is_late || stays;
        if (!stays) eldest = forget_queue(wq);
    }
    pthread_mutex_unlock(&lending);
    if (slot == SLOTS) warn_gone("destroy_workqueue", NULL, wq);
    else if (stays) warn_why("destroy_workqueue", NULL, queue, "the queue is one of the system's, and stays");
    else if (is_late) warn_why("destroy_workqueue", late, queue, "the work is delayed on the queue");
    free(eldest);
}

int schedule_on_each_cpu(work_func_t func)
{
    struct work_struct *works;

    open_once();
    works = (struct work_struct *)calloc(is.cpus, sizeof *works);
    if (!works) return -ENOMEM;
    for (unsigned k = 0; k < is.cpus; k++) {
        cmwq_linux_init(&works[k], func, "schedule_on_each_cpu");
        schedule_work_on((int)k, &works[k]);
    }
    for (unsigned k = 0; k < is.cpus; k++) flush_work(&works[k]);
    free(works);
    return 0;
}

struct call_on { struct work_struct work; long (*fn)(void *); void *arg; long result; };

static void call_on_cpu(struct work_struct *work)
{
    struct call_on *own = container_of(work, struct call_on, work);

    own->result = own->fn(own->arg);
}

long work_on_cpu(int cpu, long (*fn)(void *), void *arg)
{
    struct call_on own = {.fn = fn, .arg = arg, .result = -EINVAL};

    cmwq_linux_init(&own.work, call_on_cpu, "work_on_cpu");
    schedule_work_on(cpu, &own.work);
    flush_work(&own.work);
    return own.result;
}

void freeze_workqueues_begin(void)
{
    open_once();
    warn("freeze_workqueues_begin", NULL, NULL, cmwq_freeze_workqueues(&hub));
}

void thaw_workqueues(void)
{
    open_once();
    warn("thaw_workqueues", NULL, NULL, cmwq_thaw_workqueues(&hub));
}

void cmwq_linux_blocks(void)
{
    if (!mine.run || blocks++) return;
    watch(false);
    cmwq_worker_sleeping(&hub);
}

void cmwq_linux_goes_on(void)
{
    if (!mine.run || !blocks || --blocks) return;
    cmwq_worker_running(&hub);
    watch(true);
}

void cmwq_linux_set_cpu(int cpu) { my_cpu = cpu; }

bool cmwq_linux_wait(pthread_cond_t *changed, pthread_mutex_t *lock, unsigned long until)
{
    uint64_t ns;
    struct timespec at;
    int result;

    open_once(); /* so that jiffies go on */
    ns = until < UINT64_MAX / 4 / hub.is.tick_ns ? hub.begun + until * hub.is.tick_ns : 0;
    at = (struct timespec){(time_t)(ns / 1000000000u), (long)(ns % 1000000000u)};
    cmwq_linux_blocks();
    result = ns ? pthread_cond_clockwait(changed, lock, CLOCK_MONOTONIC, &at) : pthread_cond_wait(changed, lock);
    cmwq_linux_goes_on();
    set_jiffies();
    return result == 0;
}

void cmwq_linux_sleep(unsigned long us, bool busy)
{
    struct timespec left = {(time_t)(us / 1000000), (long)(us % 1000000) * 1000};

    if (!busy) cmwq_linux_blocks();
    while (nanosleep(&left, &left) && errno == EINTR) {}
    if (!busy) cmwq_linux_goes_on();
    if (__atomic_load_n(&was_opened, __ATOMIC_ACQUIRE)) set_jiffies();
}

#ifdef CMWQ_LINUX_RCU /* of linux/rcupdate.h: not where another one is in its place */
static pthread_rwlock_t readers = PTHREAD_RWLOCK_INITIALIZER;
static pthread_mutex_t graces = PTHREAD_MUTEX_INITIALIZER;
static pthread_cond_t graces_changed = PTHREAD_COND_INITIALIZER;
static struct rcu_head *waiting, **last_waiting = &waiting;
static unsigned long graces_asked, graces_over;
static bool graces_begun;

void cmwq_linux_rcu_read_lock(void) { pthread_rwlock_rdlock(&readers); }
void cmwq_linux_rcu_read_unlock(void) { pthread_rwlock_unlock(&readers); }

void cmwq_linux_synchronize_rcu(void)
{
    cmwq_linux_blocks();
    pthread_rwlock_wrlock(&readers);
    pthread_rwlock_unlock(&readers);
    cmwq_linux_goes_on();
}

/* Calls each function that waits, after a grace period. This thread lasts as long as the program. */
static void *end_graces(void *data)
{
    pthread_setname_np(pthread_self(), "rcu");
    pthread_mutex_lock(&graces);
    for (;;) {
        struct rcu_head *head = waiting;

        if (!head) {
            pthread_cond_wait(&graces_changed, &graces);
            continue;
        }
        waiting = NULL;
        last_waiting = &waiting;
        pthread_mutex_unlock(&graces);
        cmwq_linux_synchronize_rcu();
        for (struct rcu_head *next; head; head = next) {
            next = head->next;
            head->func(head); /* which may free it */
            pthread_mutex_lock(&graces);
            graces_over++;
            pthread_cond_broadcast(&graces_changed);
            pthread_mutex_unlock(&graces);
        }
        pthread_mutex_lock(&graces);
    }
    return data;
}

void cmwq_linux_call_rcu(struct rcu_head *head, void (*func)(struct rcu_head *head))
{
    pthread_t thread;

    head->next = NULL;
    head->func = func;
    pthread_mutex_lock(&graces);
    if (!graces_begun) {
        if (pthread_create(&thread, NULL, end_graces, NULL)) abort();
        pthread_detach(thread);
        graces_begun = true;
    }
    *last_waiting = head;
    last_waiting = &head->next;
    graces_asked++;
    pthread_cond_broadcast(&graces_changed);
    pthread_mutex_unlock(&graces);
}

void cmwq_linux_rcu_barrier(void)
{
    unsigned long asked;

    cmwq_linux_blocks();
    pthread_mutex_lock(&graces);
    for (asked = graces_asked; graces_over < asked;) pthread_cond_wait(&graces_changed, &graces);
    pthread_mutex_unlock(&graces);
    cmwq_linux_goes_on();
}
#endif

static void queue_after_grace(struct rcu_head *head)
{
    struct rcu_work *rwork = container_of(head, struct rcu_work, rcu);
    struct workqueue_struct *wq = rwork->wq;

    __atomic_store_n(&rwork->waits, 0, __ATOMIC_RELEASE);
    queue_work(wq, &rwork->work);
}

bool queue_rcu_work(struct workqueue_struct *wq, struct rcu_work *rwork)
{
    if (work_pending(&rwork->work) || __atomic_exchange_n(&rwork->waits, 1, __ATOMIC_ACQ_REL)) return false;
    rwork->wq = wq;
    call_rcu(&rwork->rcu, queue_after_grace);
    return true;
}

bool flush_rcu_work(struct rcu_work *rwork)
{
    bool waited = __atomic_load_n(&rwork->waits, __ATOMIC_ACQUIRE) != 0;

    if (waited) rcu_barrier();
    return flush_work(&rwork->work) || waited;
}

int cmwq_linux_close(void)
{
    int result = __atomic_load_n(&was_opened, __ATOMIC_ACQUIRE) ? opened : -CMWQ_CLOSED;

    if (result == CMWQ_OK) result = cmwq_hub_close(&hub);
    if (result == -CMWQ_CLOSED || result == -CMWQ_NOT_NOW) return result;
    if (__atomic_exchange_n(&ticks, false, __ATOMIC_ACQ_REL)) pthread_join(ticker, NULL);
    if (history) {
        fclose(history);
        write_names();
        history = NULL;
    }
    return result;
}
