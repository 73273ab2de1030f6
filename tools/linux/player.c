// SPDX-License-Identifier: GPL-2.0
/*
 * Plays scenarios on the kernel's workqueues, and tells in the log what happened.
 *
 * /script has a line for each call (README.md lists them). A work function is a small server: it begins awake, that is,
 * it spins and counts as runnable, and the script lets it sleep on a completion, wake, make a call, and end. Calls that
 * wait are made by threads of their own, on the CPU of the player, or by a run that sleeps; work runs on the others.
 *
 * After each call the player waits until the machine is quiet: every kernel thread is blocked and off its CPU, except
 * the runs that spin, in several looks between which no thread switched. So that nothing started is known without a
 * guess at how long it may take.
 */
#define pr_fmt(fmt) "cmwq: " fmt

#include <linux/completion.h>
#include <linux/delay.h>
#include <linux/kprobes.h>
#include <linux/kthread.h>
#include <linux/module.h>
#include <linux/fs.h>
#include <linux/platform_device.h>
#include <linux/pm.h>
#include <linux/reboot.h>
#include <linux/sched.h>
#include <linux/sched/signal.h>
#include <linux/sched/task.h>
#include <linux/slab.h>
#include <linux/suspend.h>
#include <linux/utsname.h>
#include <linux/vmalloc.h>
#include <linux/workqueue.h>

#define MOST_ITEMS	1024
#define MOST_RUNS	4096
#define MOST_QUEUES	16
#define MOST_WAITS	256
#define MOST_EVENTS	64
#define MOST_NUMBERS	8
#define PLAYERS_CPU	3
#define TICK		(1000UL * HZ)	/* so long that no timer expires by itself */
#define LOOKS		4
#define PATIENCE	(60 * HZ)

enum order { NONE, SLEEP, CALL, END };

struct item {
	struct delayed_work work;
	int number;
	unsigned long expires;	/* of its timer, as seen last */
	int booked;		/* the step at which it came to be so */
};

struct run {
	struct item *item;
	struct task_struct *thread;
	int cpu;
	bool high, sleeps, ended;
	enum order order;
	struct completion gate;
	const char *call;
	const long *numbers;
	int returned;
	struct wait *wait;	/* a call that it is to make or makes, and then sleeps on */
};

struct wait {
	struct task_struct *thread;
	const char *call;
	int number;		/* that of its step */
	long of;
	int returned;
	bool ended, told;
};

struct event {
	struct run *run;
	bool is_end;
};

static struct scenario {
	struct item items[MOST_ITEMS];
	struct run runs[MOST_RUNS];
	struct wait waits[MOST_WAITS];
	struct event events[MOST_EVENTS];
	struct workqueue_struct *queues[MOST_QUEUES];
	int nr_items, nr_runs, nr_waits, nr_events, nr_queues;
	unsigned long begun, now;	/* in jiffies; in ticks since then */
	int step;
	bool is_plain;		/* no item is delayed */
	bool is_over;
} *scenario;

static DEFINE_SPINLOCK(lock);		/* runs and events */
static struct task_struct *player, *suspender;

/* What the kernel does not export. */
static struct {
	void (*freeze_workqueues_begin)(void);
	bool (*freeze_workqueues_busy)(void);
	void (*thaw_workqueues)(void);
	int (*clear_warn_once_set)(void *data, u64 value);
	bool *workqueue_freezing;
	unsigned int *freeze_timeout_msecs;
} hidden;

/* --- runs --- */

static int call_by_number(const char *call, const long *n);
static int wait_function(void *data);

static void happened(struct run *run, bool is_end)
{
	spin_lock(&lock);
	if (scenario->nr_events < MOST_EVENTS)
		scenario->events[scenario->nr_events++] = (struct event){ run, is_end };
	spin_unlock(&lock);
}

static enum order awaited_order(struct run *run)
{
	enum order order;

	while (!(order = smp_load_acquire(&run->order))) {
		if (READ_ONCE(scenario->is_over))
			return END;
		cond_resched();
		cpu_relax();
	}
	return order;
}

static void work_function(struct work_struct *work)
{
	struct item *item = container_of(to_delayed_work(work), struct item, work);
	struct run *run;
	enum order order;

	spin_lock(&lock);
	run = &scenario->runs[min(scenario->nr_runs++, MOST_RUNS - 1)];
	run->item = item;
	run->thread = current;
	run->cpu = raw_smp_processor_id();
	run->high = task_nice(current) < 0 || strchr(current->comm, 'H');
	init_completion(&run->gate);
	spin_unlock(&lock);

	/* a worker of high priority that spins would keep the others of the CPU from running */
	set_user_nice(current, 0);
	happened(run, false);
	while ((order = awaited_order(run)) != END) {
		if (order == SLEEP) {
			WRITE_ONCE(run->sleeps, true);
			smp_store_release(&run->order, NONE);
			wait_for_completion(&run->gate);
			while (READ_ONCE(run->wait)) {
				wait_function(run->wait);
				WRITE_ONCE(run->wait, NULL);
				wait_for_completion(&run->gate);
			}
			WRITE_ONCE(run->sleeps, false);
		} else {
			run->returned = call_by_number(run->call, run->numbers);
			smp_store_release(&run->order, NONE);
		}
	}
	happened(run, true);
	smp_store_release(&run->ended, true);
}

static struct run *run_of(long item)
{
	int i;

	for (i = 0; i < scenario->nr_runs; i++)
		if (scenario->runs[i].item->number == item && !smp_load_acquire(&scenario->runs[i].ended))
			return &scenario->runs[i];
	return NULL;
}

/* --- quiet --- */

static bool spins(const struct task_struct *thread)
{
	int i;

	for (i = scenario ? scenario->nr_runs - 1 : -1; i >= 0; i--) {
		const struct run *run = &scenario->runs[i];

		if (run->thread == thread && !READ_ONCE(run->ended))
			return !READ_ONCE(run->sleeps) && !READ_ONCE(run->order) && !scenario->is_over;
	}
	return false;
}

/* A kernel thread that is neither blocked nor a run that spins, or NULL; and how often threads have switched. */
static const struct task_struct *look(unsigned long *switches)
{
	const struct task_struct *process, *thread, *found = NULL;
	unsigned int state;

	*switches = 0;
	rcu_read_lock();
	for_each_process_thread(process, thread) {
		if (!(thread->flags & PF_KTHREAD) || thread == player || thread == suspender || spins(thread))
			continue;
		state = READ_ONCE(thread->__state);
		*switches += thread->nvcsw;
		if (state == TASK_RUNNING || (state & (TASK_WAKING | TASK_NEW)) || READ_ONCE(thread->on_cpu))
			found = thread;
	}
	rcu_read_unlock();
	return found;
}

static bool later_than(unsigned long since)
{
	return time_after(jiffies, since + PATIENCE);
}

static void settle(void)
{
	unsigned long since = jiffies, last = 0, switches;
	const struct task_struct *busy;
	int quiet = 0;

	while (quiet < LOOKS) {
		busy = look(&switches);
		quiet = busy ? 0 : quiet && switches == last ? quiet + 1 : 1;
		last = switches;
		if (later_than(since)) {
			pr_info("noisy: %s\n", busy ? busy->comm : "?");
			return;
		}
		usleep_range(300, 400);
	}
}

#define wait_until(condition)					\
({								\
	unsigned long since = jiffies;				\
	bool holds;						\
								\
	while (!(holds = (condition)) && !later_than(since))	\
		usleep_range(100, 150);				\
	holds ? 0 : -ETIMEDOUT;					\
})

/* --- freezing, by a suspend that the prepare of a device holds up and then ends --- */

static struct completion begin_suspend, let_go;
static bool suspends;

static int hold_up(struct device *device)
{
	wait_for_completion(&let_go);
	return -EBUSY;
}

static const struct dev_pm_ops operations = { .prepare = hold_up };
static struct platform_driver driver = { .driver = { .name = "cmwq_player", .pm = &operations } };

static int suspend(void *nothing)
{
	for (;;) {
		wait_for_completion(&begin_suspend);
		pm_suspend(PM_SUSPEND_TO_IDLE);
		smp_store_release(&suspends, false);
	}
	return 0;
}

static int freeze(void)
{
	if (READ_ONCE(*hidden.workqueue_freezing)) {
		hidden.freeze_workqueues_begin();
		return 0;
	}
	reinit_completion(&let_go);
	suspends = true;
	complete(&begin_suspend);
	if (wait_until(READ_ONCE(*hidden.workqueue_freezing)))
		return -ETIMEDOUT;
	/* takes the lock under which all queues are frozen */
	hidden.freeze_workqueues_busy();
	return 0;
}

static int thaw(void)
{
	if (!READ_ONCE(*hidden.workqueue_freezing)) {
		hidden.thaw_workqueues();
		return 0;
	}
	complete(&let_go);
	pm_system_wakeup();	/* if it still waits for active items */
	return wait_until(!smp_load_acquire(&suspends));
}

/* --- time --- */

static unsigned long delay_of(long ticks)
{
	return ticks ? (scenario->now + ticks) * TICK : 0;
}

static unsigned long due_of(const struct item *item)
{
	return DIV_ROUND_CLOSEST(item->work.timer.expires - scenario->begun, TICK);
}

/* Remembers when items came to be booked for the time that they are. */
static void note_bookings(void)
{
	struct item *item;

	for (item = scenario->items; item < scenario->items + scenario->nr_items; item++) {
		unsigned long expires = timer_pending(&item->work.timer) ? item->work.timer.expires : 0;

		if (expires != item->expires)
			item->booked = scenario->step;
		item->expires = expires;
	}
}

static bool is_before(const struct item *one, const struct item *other)
{
	return due_of(one) < due_of(other) || (due_of(one) == due_of(other) && one->booked < other->booked);
}

/* Lets the first timer expire that is due, by its tick and then by its booking: its item, or -ENODATA. */
static int fire(void)
{
	struct item *item, *first = NULL;
	struct timer_list *timer;

	for (item = scenario->items; item < scenario->items + scenario->nr_items; item++)
		if (timer_pending(&item->work.timer) && due_of(item) <= scenario->now)
			if (!first || is_before(item, first))
				first = item;
	if (!first)
		return -ENODATA;
	timer = &first->work.timer;
	mod_timer_pending(timer, jiffies);
	if (wait_until(!timer_pending(timer)))
		return -ETIMEDOUT;
	del_timer_sync(timer);	/* waits for its function */
	return first->number;
}

/* The item that is due and was booked next after a step, or NULL. */
static struct item *due_after(int step)
{
	struct item *item, *next = NULL;

	for (item = scenario->items; item < scenario->items + scenario->nr_items; item++)
		if (timer_pending(&item->work.timer) && due_of(item) <= scenario->now && item->booked > step)
			if (!next || item->booked < next->booked)
				next = item;
	return next;
}

/* Lets all timers that are due expire in one jiffy, for which they are set in the order of their bookings. */
static int expire(void)
{
	unsigned long when = jiffies + 2;
	struct item *item;
	int step = -1;

	local_irq_disable();
	while ((item = due_after(step))) {
		step = item->booked;
		mod_timer_pending(&item->work.timer, when);
	}
	local_irq_enable();
	for (item = scenario->items; item < scenario->items + scenario->nr_items; item++)
		if (item->expires && due_of(item) <= scenario->now && wait_until(!timer_pending(&item->work.timer)))
			return -ETIMEDOUT;
	return -ENODATA;
}

/* --- calls --- */

static int call_by_number(const char *call, const long *n)
{
	struct item *item = &scenario->items[n[0]];
	struct workqueue_struct *queue = scenario->queues[n[1]];

	if (!strcmp(call, "queue"))
		return queue_work_on(n[2], queue, &item->work.work);
	if (!strcmp(call, "delay"))
		return queue_delayed_work_on(n[2], queue, &item->work, delay_of(n[3]));
	if (!strcmp(call, "modify"))
		return mod_delayed_work_on(n[2], queue, &item->work, delay_of(n[3]));
	if (!strcmp(call, "cancel"))
		return scenario->is_plain ? cancel_work(&item->work.work) : cancel_delayed_work(&item->work);
	return -EINVAL;
}

static int wait_function(void *data)
{
	struct wait *wait = data;
	struct delayed_work *work = &scenario->items[wait->of].work;
	struct workqueue_struct **queue = &scenario->queues[wait->of];

	wait->returned = -ENODATA;
	if (!strcmp(wait->call, "flush"))
		flush_workqueue(*queue);
	else if (!strcmp(wait->call, "drain"))
		drain_workqueue(*queue);
	else if (!strcmp(wait->call, "destroy")) {
		destroy_workqueue(*queue);
		*queue = NULL;
	} else if (!strcmp(wait->call, "flush_item"))
		wait->returned = flush_work(&work->work);
	else if (!strcmp(wait->call, "flush_delayed"))
		wait->returned = flush_delayed_work(work);
	else
		wait->returned = scenario->is_plain ? cancel_work_sync(&work->work) : cancel_delayed_work_sync(work);
	smp_store_release(&wait->ended, true);
	return 0;
}

static bool waits(const char *call)
{
	return !strcmp(call, "flush") || !strcmp(call, "drain") || !strcmp(call, "destroy") ||
	       !strcmp(call, "flush_item") || !strcmp(call, "flush_delayed") || !strcmp(call, "cancel_sync");
}

/* Begins a wait, of a run that sleeps or of a thread of its own. */
static int begin_wait(const char *call, const long *n, struct run *run)
{
	struct wait *wait = &scenario->waits[scenario->nr_waits];

	if (scenario->nr_waits == MOST_WAITS)
		return -ENOSPC;
	wait->call = call;
	wait->of = n[0];
	wait->number = scenario->step;
	if (run) {
		scenario->nr_waits++;
		WRITE_ONCE(run->wait, wait);
		complete(&run->gate);
		return -ENODATA;
	}
	wait->thread = kthread_create(wait_function, wait, "wait%d", wait->number);
	if (IS_ERR(wait->thread))
		return PTR_ERR(wait->thread);
	scenario->nr_waits++;
	get_task_struct(wait->thread);
	kthread_bind(wait->thread, PLAYERS_CPU);
	wake_up_process(wait->thread);
	return -ENODATA;
}

/* Whether a run sleeps, and makes no call that waits. */
static bool sleeps_only(const struct run *run)
{
	return READ_ONCE(run->sleeps) && !READ_ONCE(run->wait);
}

static int order(struct run *run, enum order order)
{
	if (!run || READ_ONCE(run->sleeps))
		return -ESRCH;
	smp_store_release(&run->order, order);
	if (order == END)
		return wait_until(smp_load_acquire(&run->ended));
	return wait_until(!smp_load_acquire(&run->order));
}

static int wake(struct run *run)
{
	if (!run || !sleeps_only(run))
		return -ESRCH;
	complete(&run->gate);
	return 0;
}

static int call_by_run(struct run *run, const char *call, const long *n)
{
	int failed;

	if (!run)
		return -ESRCH;
	run->call = call;
	run->numbers = n;
	failed = order(run, CALL);
	return failed ? failed : run->returned;
}

/* Makes a call: what it returned, -ENODATA if that is nothing, or another error if it could not be made. */
static int make(const char *call, const long *n, bool is_by_run)
{
	struct run *run = is_by_run ? run_of(n[0]) : NULL;
	int failed = 0;

	if (is_by_run && waits(call))
		return run && sleeps_only(run) ? begin_wait(call, n + 1, run) : -ESRCH;
	if (is_by_run)
		return call_by_run(run, call, n + 1);
	if (waits(call))
		return begin_wait(call, n, NULL);
	if (!strcmp(call, "fire"))
		return fire();
	if (!strcmp(call, "expire"))
		return expire();
	if (!strcmp(call, "tick"))
		scenario->now += n[0];
	else if (!strcmp(call, "set_max"))
		workqueue_set_max_active(scenario->queues[n[0]], n[1]);
	else if (!strcmp(call, "freeze"))
		failed = freeze();
	else if (!strcmp(call, "thaw"))
		failed = thaw();
	else if (!strcmp(call, "sleep"))
		failed = order(run_of(n[0]), SLEEP);
	else if (!strcmp(call, "wake"))
		failed = wake(run_of(n[0]));
	else if (!strcmp(call, "finish"))
		failed = order(run_of(n[0]), END);
	else
		return call_by_number(call, n);
	return failed ? failed : -ENODATA;
}

/* --- what is told --- */

static int put_items(char *at, char *end, unsigned int bit)
{
	char *to = at;
	int i, first = -1;

	for (i = 0; i <= scenario->nr_items; i++) {
		bool has = i < scenario->nr_items && work_busy(&scenario->items[i].work.work) & bit;

		if (has && first < 0)
			first = i;
		if (!has && first >= 0) {
			to += scnprintf(to, end - to, first == i - 1 ? " %d" : " %d-%d", first, i - 1);
			first = -1;
		}
	}
	return to - at;
}

static void tell(int returned)
{
	static char line[900];
	char *to = line, *end = line + sizeof(line);
	struct wait *wait;
	int i;

	to += scnprintf(to, end - to, "step %d", scenario->step);
	if (returned >= 0)
		to += scnprintf(to, end - to, ", returned %d", returned);
	else if (returned != -ENODATA)
		to += scnprintf(to, end - to, ", failed %d", -returned);
	for (i = 0; i < scenario->nr_events; i++) {
		struct run *run = scenario->events[i].run;

		to += scnprintf(to, end - to, scenario->events[i].is_end ? ", ended %d" : ", started %d %d%c",
				run->item->number, run->cpu, run->high ? 'h' : 'n');
	}
	scenario->nr_events = 0;
	for (wait = scenario->waits; wait < scenario->waits + scenario->nr_waits; wait++) {
		if (!smp_load_acquire(&wait->ended) || wait->told)
			continue;
		wait->told = true;
		to += scnprintf(to, end - to, ", done %d", wait->number);
		if (wait->returned != -ENODATA)
			to += scnprintf(to, end - to, " %d", wait->returned);
	}
	to += scnprintf(to, end - to, ", pending");
	to += put_items(to, end, WORK_BUSY_PENDING);
	to += scnprintf(to, end - to, ", running");
	to += put_items(to, end, WORK_BUSY_RUNNING);
	pr_info("%s\n", line);
}

/* --- scenarios --- */

static bool has_unended(void)
{
	unsigned long switches;
	bool found = false;
	int i;

	spin_lock(&lock);
	for (i = 0; i < scenario->nr_runs; i++)
		if (!smp_load_acquire(&scenario->runs[i].ended)) {
			complete_all(&scenario->runs[i].gate);
			found = true;
		}
	spin_unlock(&lock);
	for (i = 0; i < scenario->nr_waits; i++)
		found |= !smp_load_acquire(&scenario->waits[i].ended);
	return found || look(&switches);
}

/* Lets everything end, and frees what it used; but keeps it all if something does not end. */
static void end_scenario(void)
{
	struct item *item;
	int i;

	if (READ_ONCE(*hidden.workqueue_freezing))
		thaw();
	WRITE_ONCE(scenario->is_over, true);
	if (wait_until(!has_unended())) {
		pr_info("stuck\n");
		scenario = NULL;
		return;
	}
	for (item = scenario->items; item < scenario->items + scenario->nr_items; item++)
		/* an item that a drain dropped is pending for good, and no cancel returns then */
		if (timer_pending(&item->work.timer) || !list_empty(&item->work.work.entry))
			cancel_delayed_work_sync(&item->work);
	for (i = 0; i < scenario->nr_queues; i++)
		if (scenario->queues[i])
			destroy_workqueue(scenario->queues[i]);
	settle();
	for (i = 0; i < scenario->nr_waits; i++)
		if (scenario->waits[i].thread)
			put_task_struct(scenario->waits[i].thread);
	vfree(scenario);
	scenario = NULL;
}

static void begin_scenario(const char *name)
{
	struct item *item;
	int i;

	scenario = vzalloc(sizeof(*scenario));
	if (!scenario)
		panic("no memory");
	for (i = 0; i < MOST_ITEMS; i++) {
		item = &scenario->items[i];
		item->number = i;
		INIT_DELAYED_WORK(&item->work, work_function);
	}
	scenario->begun = jiffies;
	hidden.clear_warn_once_set(NULL, 1);
	settle();
	pr_info("scenario %s\n", name);
}

static void add_queue(long max_active, const char *flags)
{
	unsigned int bits = 0;

	if (strchr(flags, 'h'))
		bits |= WQ_HIGHPRI;
	if (strchr(flags, 'i'))
		bits |= WQ_CPU_INTENSIVE;
	if (strchr(flags, 'f'))
		bits |= WQ_FREEZABLE;
	scenario->queues[scenario->nr_queues] = alloc_workqueue("player%d", bits, max_active, scenario->nr_queues);
	scenario->nr_queues++;
}

/* A line is `WORD NUMBER..`, or `by WORD ITEM NUMBER..` for a call by the run of an item. */
static void play(char *line)
{
	long numbers[MOST_NUMBERS] = { 0 };
	char *word = strsep(&line, " "), *number = line;
	bool is_by_run = !strcmp(word, "by");
	int nr;

	if (!strcmp(word, "scenario")) {
		begin_scenario(number);
		return;
	}
	if (!scenario)
		return;
	if (is_by_run)
		word = strsep(&line, " ");
	for (nr = 0; nr < MOST_NUMBERS && (number = strsep(&line, " ")); nr++)
		if (kstrtol(number, 10, &numbers[nr]))
			break;
	if (!strcmp(word, "wq")) {
		add_queue(numbers[0], number);
	} else if (!strcmp(word, "plain")) {
		scenario->is_plain = true;
	} else if (!strcmp(word, "items")) {
		scenario->nr_items = numbers[0];
	} else if (!strcmp(word, "at")) {
		scenario->step = numbers[0];
	} else if (!strcmp(word, "end")) {
		end_scenario();
		pr_info("end\n");
	} else {
		int returned = make(word, numbers, is_by_run);

		settle();
		note_bookings();
		tell(returned);
	}
}

static int play_all(void *script)
{
	char *line, *rest = script;

	pr_info("linux %s\n", init_utsname()->release);
	while ((line = strsep(&rest, "\n")))
		if (*line)
			play(line);
	pr_info("over\n");
	kernel_power_off();
	return 0;
}

/* --- the module --- */

static unsigned long (*look_up)(const char *name);

static int find_hidden(void)
{
	struct kprobe probe = { .symbol_name = "kallsyms_lookup_name" };
	int failed = register_kprobe(&probe);

	if (failed)
		return failed;
	look_up = (void *)probe.addr;
	unregister_kprobe(&probe);
#define FIND(name)	(hidden.name = (void *)look_up(#name))
	if (!FIND(freeze_workqueues_begin) || !FIND(freeze_workqueues_busy) || !FIND(thaw_workqueues) ||
	    !FIND(clear_warn_once_set) || !FIND(workqueue_freezing) || !FIND(freeze_timeout_msecs))
		return -ENOENT;
	return 0;
}

static char *read_script(void)
{
	struct file *file = filp_open("/script", O_RDONLY, 0);
	loff_t at = 0;
	ssize_t size;
	char *text;

	if (IS_ERR(file))
		return ERR_CAST(file);
	size = i_size_read(file_inode(file));
	text = vzalloc(size + 1);
	if (text && kernel_read(file, text, size, &at) != size) {
		vfree(text);
		text = ERR_PTR(-EIO);
	}
	filp_close(file, NULL);
	return text ? text : ERR_PTR(-ENOMEM);
}

static struct task_struct *start(int (*function)(void *data), void *data, const char *name)
{
	struct task_struct *thread = kthread_create(function, data, "%s", name);

	if (!IS_ERR(thread)) {
		kthread_bind(thread, PLAYERS_CPU);
		wake_up_process(thread);
	}
	return thread;
}

static int __init player_init(void)
{
	char *script = read_script();
	int failed = IS_ERR(script) ? PTR_ERR(script) : find_hidden();

	if (failed)
		return failed;
	*hidden.freeze_timeout_msecs = UINT_MAX;
	init_completion(&begin_suspend);
	init_completion(&let_go);
	failed = platform_driver_register(&driver);
	if (failed)
		return failed;
	if (IS_ERR(platform_device_register_simple("cmwq_player", -1, NULL, 0)))
		return -ENODEV;
	suspender = start(suspend, NULL, "suspender");
	player = kthread_create(play_all, script, "player");
	if (IS_ERR(suspender) || IS_ERR(player))
		return -ENOMEM;
	kthread_bind(player, PLAYERS_CPU);
	wake_up_process(player);
	return 0;
}
module_init(player_init);

MODULE_DESCRIPTION("Plays scenarios on workqueues");
MODULE_LICENSE("GPL");
