// SPDX-License-Identifier: GPL-2.0
/*
 * Calls workqueues from several threads at a time, and tells in the log what each call was, when it began and ended and
 * what it returned, and when tracepoints of workqueues were passed. tools/linux/judge --help has the form of the lines.
 *
 * /script has `seed N` and `calls N`, the calls of each thread. Threads and work share two CPUs. A work function may
 * spin, sleep, and call.
 *
 * Each item is always queued on the same queue. So that no call is made of which a difference is known, an item is
 * either flushed or taken back, no delayed item is of a queue that is drained, and only a run of a queue queues on it
 * while it drains.
 */
#define pr_fmt(fmt) "cmwq: " fmt

#include <linux/delay.h>
#include <linux/fs.h>
#include <linux/hash.h>
#include <linux/kprobes.h>
#include <linux/kthread.h>
#include <linux/module.h>
#include <linux/prandom.h>
#include <linux/reboot.h>
#include <linux/rwsem.h>
#include <linux/sched.h>
#include <linux/timekeeping.h>
#include <linux/tracepoint.h>
#include <linux/utsname.h>
#include <linux/vmalloc.h>
#include <linux/workqueue.h>

#define CALLERS		4
#define CPUS		2
#define TIMERS		4
#define WORKERS		256
#define MOST		(1 << 17)

enum kind {
	QUEUE_WORK, ACTIVATE_WORK, EXECUTE_START, EXECUTE_END, OTHER_WORK, SLEEP, WAKE,
	QUEUE, DELAY, MODIFY, CANCEL, CANCEL_SYNC, FLUSH, FLUSH_ITEM, DRAIN, SET_MAX, FREEZE, THAW,
};

static const char * const words[] = {
	"queue_work", "activate_work", "execute_start", "execute_end", "other_work", "sleep", "wake",
	"queue", "delay", "modify", "cancel", "cancel_sync", "flush", "flush_item", "drain", "set_max", "freeze", "thaw",
};

/* Who did it: a caller, the timers of a CPU, or a thread of the kernel that works. */
#define TIMER(i)	(CALLERS + (i))
#define WORKER(i)	(TIMER(TIMERS) + (i))

struct entry {
	u64 since, until;
	enum kind kind;
	int who, of, cpu, more, returned;
};

static const struct {
	const char *name;
	int flags, width;
	bool may_drain, may_change, is_managed;
} shapes[] = {
	{ "load0", WQ_CPU_INTENSIVE, 1, true, false, false },
	{ "load1", WQ_CPU_INTENSIVE, 2, false, true, false },
	{ "load2", WQ_HIGHPRI, 2, true, true, true },
	{ "load3", WQ_FREEZABLE, 3, false, true, true },
};

#define QUEUES		ARRAY_SIZE(shapes)

static struct item {
	int queue;
	bool is_delayed, is_flushed;
	struct delayed_work it;
} items[] = {
	{ 0 }, { 0 }, { 0, false, true }, { 1 }, { 1, true }, { 1, true }, { 1, false, true },
	{ 2 }, { 2 }, { 2, false, true }, { 3 }, { 3, true }, { 3, true }, { 3, false, true },
};

#define ITEMS		ARRAY_SIZE(items)

static struct worker {
	struct task_struct *task;
	struct entry *ended;		/* a run of which it isn't known yet until when it had ended at the latest */
	u64 seen;
} workers[WORKERS];

static struct entry *entries;
static atomic_t nr_entries, nr_workers;
static atomic64_t last_stamp;
static struct workqueue_struct *queues[QUEUES];
static struct rw_semaphore gates[QUEUES];
static struct task_struct *callers[CALLERS];
static atomic_t nr_callers = ATOMIC_INIT(CALLERS);
static DECLARE_COMPLETION(all_returned);
static unsigned long seed = 1, nr_calls = 100;
static bool is_over;
static DEFINE_MUTEX(freezing);

/* What the kernel does not export. */
static struct {
	void (*freeze_workqueues_begin)(void);
	void (*thaw_workqueues)(void);
} hidden;

/* The time, later than at any call before, on whichever CPU. */
static u64 stamp(void)
{
	s64 last = atomic64_read(&last_stamp), now;

	do {
		now = max_t(s64, ktime_get_mono_fast_ns(), last + 1);
	} while (!atomic64_try_cmpxchg(&last_stamp, &last, now));
	return now;
}

static struct entry *new_entry(enum kind kind, int who, int of)
{
	int at = atomic_inc_return(&nr_entries) - 1;
	struct entry *entry = &entries[min(at, MOST - 1)];

	entry->kind = kind;
	entry->who = who;
	entry->of = of;
	entry->returned = -1;
	entry->since = entry->until = stamp();
	return entry;
}

/* --- tracepoints --- */

static struct worker *worker_of(struct task_struct *task)
{
	int i, last = min(atomic_read(&nr_workers), WORKERS);

	for (i = 0; i < last; i++)
		if (workers[i].task == task)
			return &workers[i];
	i = atomic_inc_return(&nr_workers) - 1;
	workers[min(i, WORKERS - 1)].task = task;
	return &workers[min(i, WORKERS - 1)];
}

static struct worker *this_worker(void)
{
	return current->flags & PF_WQ_WORKER ? worker_of(current) : NULL;
}

/* What a worker has ended, it has let go of by now. */
static void settle(struct worker *worker, u64 now)
{
	if (worker->ended)
		worker->ended->until = now;
	worker->ended = NULL;
	worker->seen = now;
}

static int who(void)
{
	int i;

	if (in_hardirq() || in_serving_softirq())
		return TIMER(raw_smp_processor_id());
	for (i = 0; i < CALLERS; i++)
		if (callers[i] == current)
			return i;
	return current->flags & PF_WQ_WORKER ? WORKER(worker_of(current) - workers) : -1;
}

static int item_of(struct work_struct *work)
{
	struct item *item = container_of(work, struct item, it.work);

	return item >= items && item < items + ITEMS ? item - items : -1;
}

/* Both begin like this in each kernel that is asked. */
struct start_of_pool { raw_spinlock_t lock; int cpu; };
struct start_of_pwq { struct start_of_pool *pool; };

static void on_queue(void *data, int cpu, void *pwq, struct work_struct *work)
{
	if (item_of(work) >= 0)
		new_entry(QUEUE_WORK, who(), item_of(work))->cpu = ((struct start_of_pwq *)pwq)->pool->cpu;
}

static void on_activate(void *data, struct work_struct *work)
{
	struct entry *entry;

	if (item_of(work) < 0)
		return;
	entry = new_entry(ACTIVATE_WORK, who(), item_of(work));
	if (entry->who >= WORKER(0))
		settle(&workers[entry->who - WORKER(0)], entry->since);
}

static void on_start(void *data, struct work_struct *work)
{
	struct worker *worker = this_worker();
	struct entry *entry;
	u64 seen;

	if (!worker)
		return;
	seen = worker->seen;
	/* as the barrier of a flush */
	if (worker->ended && item_of(work) < 0)
		new_entry(OTHER_WORK, who(), worker->ended->of);
	settle(worker, stamp());
	if (item_of(work) < 0)
		return;
	entry = new_entry(EXECUTE_START, who(), item_of(work));
	entry->since = seen;
	entry->cpu = raw_smp_processor_id();
}

static void on_end(void *data, struct work_struct *work, work_func_t function)
{
	struct worker *worker = this_worker();

	if (!worker)
		return;
	worker->seen = stamp();
	if (item_of(work) >= 0)
		worker->ended = new_entry(EXECUTE_END, who(), item_of(work));
}

static void on_switch(void *data, bool is_preempted, struct task_struct *from, struct task_struct *to,
		      unsigned int state)
{
	if (from->flags & PF_WQ_WORKER && state && !is_preempted)
		settle(worker_of(from), stamp());
	if (to->flags & PF_WQ_WORKER)
		worker_of(to)->seen = stamp();
}

static void watch(struct tracepoint *point, void *nothing)
{
	void *probe = !strcmp(point->name, "workqueue_queue_work") ? (void *)on_queue :
		      !strcmp(point->name, "workqueue_activate_work") ? (void *)on_activate :
		      !strcmp(point->name, "workqueue_execute_start") ? (void *)on_start :
		      !strcmp(point->name, "workqueue_execute_end") ? (void *)on_end :
		      !strcmp(point->name, "sched_switch") ? (void *)on_switch : NULL;

	if (probe && tracepoint_probe_register(point, probe, NULL))
		pr_info("failed: %s\n", point->name);
}

/* --- work and calls --- */

/* Makes a call, of which the queue lets through what it may at this time. */
static void make(int who, enum kind kind, int of, int cpu, int more)
{
	struct item *item = &items[of];
	struct workqueue_struct *queue = queues[kind == FLUSH || kind == DRAIN || kind == SET_MAX ? of : item->queue];
	struct delayed_work *delayed = &item->it;
	struct entry *entry = new_entry(kind, who, of);

	entry->cpu = cpu;
	entry->more = more;
	if (kind == QUEUE)
		entry->returned = queue_work_on(cpu, queue, &delayed->work);
	else if (kind == DELAY)
		entry->returned = queue_delayed_work_on(cpu, queue, delayed, more);
	else if (kind == MODIFY)
		entry->returned = mod_delayed_work_on(cpu, queue, delayed, more);
	else if (kind == CANCEL)
		entry->returned = item->is_delayed ? cancel_delayed_work(delayed) : cancel_work(&delayed->work);
	else if (kind == CANCEL_SYNC)
		entry->returned = item->is_delayed ? cancel_delayed_work_sync(delayed) :
						     cancel_work_sync(&delayed->work);
	else if (kind == FLUSH)
		flush_workqueue(queue);
	else if (kind == FLUSH_ITEM)
		entry->returned = flush_work(&delayed->work);
	else if (kind == DRAIN)
		drain_workqueue(queue);
	else if (kind == FREEZE)
		hidden.freeze_workqueues_begin();
	else if (kind == THAW)
		hidden.thaw_workqueues();
	else
		workqueue_set_max_active(queue, more);
	entry->until = stamp();
}

/* What is called of an item instead of a call that is not made of it. */
static enum kind allowed(enum kind kind, const struct item *item)
{
	if ((kind == CANCEL || kind == CANCEL_SYNC || kind == MODIFY) && item->is_flushed)
		return QUEUE;
	if (kind == FLUSH_ITEM && !item->is_flushed)
		return CANCEL;
	if ((kind == DELAY || kind == MODIFY) && !item->is_delayed)
		return QUEUE;
	return kind == QUEUE && item->is_delayed ? DELAY : kind;
}

static void call_by_run(int who, const struct item *self, u32 chance)
{
	static const enum kind often[] = { QUEUE, QUEUE, QUEUE, DELAY, MODIFY, CANCEL };
	struct item *item = &items[(chance >> 8) % ITEMS];

	if (!shapes[item->queue].may_drain || item->queue == self->queue)
		make(who, allowed(often[chance % ARRAY_SIZE(often)], item), item - items, (chance >> 16) % CPUS,
		     (chance >> 18) % 4);
}

static void work_function(struct work_struct *work)
{
	struct item *item = container_of(work, struct item, it.work);
	u32 chance = hash_64(stamp(), 32), sleeps = chance >> 20;
	int self = WORKER(worker_of(current) - workers);

	if (chance % 8 == 0 && !READ_ONCE(is_over))
		call_by_run(self, item, chance >> 3);
	udelay(sleeps % 20);
	if (chance % 3) {
		if (shapes[item->queue].is_managed)
			new_entry(SLEEP, self, item - items);
		usleep_range(sleeps % 700 + 10, sleeps % 700 + 60);
		if (shapes[item->queue].is_managed)
			new_entry(WAKE, self, item - items);
	}
	if (chance % 7 == 0 && !READ_ONCE(is_over))
		call_by_run(self, item, chance >> 5);
}

/* Only who froze the system thaws it, and makes no call meanwhile that waits. */
static void freeze_and_thaw(int who, u32 chance)
{
	struct item *item = &items[ITEMS - 1];

	make(who, FREEZE, 0, 0, 0);
	for (; chance % 4; chance /= 4) {
		make(who, QUEUE, item - items, chance >> 8 & 1, 0);
		usleep_range(10, 300);
	}
	make(who, THAW, 0, 0, 0);
	mutex_unlock(&freezing);
}

static void call_by_thread(int who, u32 chance)
{
	static const enum kind often[] = {
		QUEUE, QUEUE, QUEUE, QUEUE, QUEUE, QUEUE, QUEUE, QUEUE, QUEUE, DELAY, DELAY, MODIFY, MODIFY,
		CANCEL, CANCEL, CANCEL_SYNC, CANCEL_SYNC, FLUSH, FLUSH_ITEM, DRAIN, SET_MAX, FREEZE,
	};
	enum kind kind = often[chance % ARRAY_SIZE(often)];
	/* for some time, all threads call half of the time of the same item */
	struct item *item = &items[(chance >> 29 & 1 ? atomic_read(&nr_entries) >> 8 : chance >> 8) % ITEMS];
	int queue = (chance >> 8) % QUEUES, cpu = (chance >> 16) % CPUS, more = (chance >> 18) % 4;

	if (kind == FREEZE) {
		if (mutex_trylock(&freezing))
			freeze_and_thaw(who, chance >> 8);
		return;
	}
	if ((kind == DRAIN && !shapes[queue].may_drain) || (kind == SET_MAX && !shapes[queue].may_change))
		kind = FLUSH;
	if (kind == DRAIN) {
		down_write(&gates[queue]);
		make(who, kind, queue, cpu, more);
		up_write(&gates[queue]);
	} else if (kind == FLUSH || kind == SET_MAX) {
		make(who, kind, queue, cpu, more % 3 + 1);
	} else {
		down_read(&gates[item->queue]);
		make(who, allowed(kind, item), item - items, cpu, more);
		up_read(&gates[item->queue]);
	}
}

static int call_at_random(void *data)
{
	int self = (long)data;
	struct rnd_state state;
	unsigned long i;
	u32 chance;

	prandom_seed_state(&state, seed * CALLERS + self);
	for (i = 0; i < nr_calls; i++) {
		chance = prandom_u32_state(&state);
		call_by_thread(self, chance);
		if (chance >> 30)
			usleep_range(20, 300);
		else
			cond_resched();
	}
	if (atomic_dec_and_test(&nr_callers))
		complete(&all_returned);
	return 0;
}

/* --- what is told --- */

static void tell(const struct entry *it, u64 begun)
{
	static char text[100];
	char *at = text + sprintf(text, "%llu %llu ", max(it->since, begun) - begun, max(it->until, begun) - begun);

	if (it->who < TIMER(0))
		at += sprintf(at, "c%d", it->who);
	else if (it->who < WORKER(0))
		at += sprintf(at, "t%d", it->who - TIMER(0));
	else
		at += sprintf(at, "w%d", it->who - WORKER(0));
	at += sprintf(at, " %s", words[it->kind]);
	if (it->kind < FREEZE)
		at += sprintf(at, " %d", it->of);
	if (it->kind == QUEUE || it->kind == DELAY || it->kind == MODIFY)
		at += sprintf(at, " %d", items[it->of].queue);
	if (it->kind == QUEUE_WORK || it->kind == EXECUTE_START || (it->kind >= QUEUE && it->kind <= MODIFY))
		at += sprintf(at, " %d", it->cpu);
	if (it->kind == DELAY || it->kind == MODIFY || it->kind == SET_MAX)
		at += sprintf(at, " %d", it->more);
	if (it->kind >= QUEUE)
		at += it->returned < 0 ? sprintf(at, " = -") : sprintf(at, " = %d", it->returned);
	pr_info("%s\n", text);
}

static int play(void *nothing)
{
	u64 begun = stamp();
	int i;

	pr_info("linux %s\n", init_utsname()->release);
	for (i = 0; i < ITEMS; i++)
		INIT_DELAYED_WORK(&items[i].it, work_function);
	for (i = 0; i < QUEUES; i++) {
		queues[i] = alloc_workqueue(shapes[i].name, shapes[i].flags, shapes[i].width);
		init_rwsem(&gates[i]);
	}
	for (i = 0; i < CALLERS; i++) {
		callers[i] = kthread_create(call_at_random, (void *)(long)i, "caller%d", i);
		kthread_bind(callers[i], i % CPUS);
	}
	for_each_kernel_tracepoint(watch, NULL);
	for (i = 0; i < CALLERS; i++)
		wake_up_process(callers[i]);
	wait_for_completion(&all_returned);
	WRITE_ONCE(is_over, true);
	for (i = 0; i < ITEMS; i++)
		while (work_busy(&items[i].it.work))
			msleep(50);
	msleep(100);
	for (i = 0; i < min(atomic_read(&nr_entries), MOST); i++)
		tell(&entries[i], begun);
	pr_info("over %d\n", atomic_read(&nr_entries));
	kernel_power_off();
	return 0;
}

static int find_hidden(void)
{
	struct kprobe probe = { .symbol_name = "kallsyms_lookup_name" };
	unsigned long (*look_up)(const char *name);
	int failed = register_kprobe(&probe);

	if (failed)
		return failed;
	look_up = (void *)probe.addr;
	unregister_kprobe(&probe);
	hidden.freeze_workqueues_begin = (void *)look_up("freeze_workqueues_begin");
	hidden.thaw_workqueues = (void *)look_up("thaw_workqueues");
	return hidden.freeze_workqueues_begin && hidden.thaw_workqueues ? 0 : -ENOENT;
}

static int __init load_init(void)
{
	struct file *file = filp_open("/script", O_RDONLY, 0);
	static char text[100];
	struct task_struct *player;
	loff_t at = 0;

	entries = vzalloc(MOST * sizeof(*entries));
	if (IS_ERR(file) || !entries || kernel_read(file, text, sizeof(text) - 1, &at) < 0)
		return -EIO;
	filp_close(file, NULL);
	if (find_hidden() || sscanf(text, "seed %lu\ncalls %lu", &seed, &nr_calls) != 2)
		return -EINVAL;
	player = kthread_create(play, NULL, "load");
	kthread_bind(player, 3);
	wake_up_process(player);
	return 0;
}
module_init(load_init);

MODULE_DESCRIPTION("Calls workqueues from several threads at a time");
MODULE_LICENSE("GPL");
