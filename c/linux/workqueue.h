/*
 * linux/workqueue.h outside of the kernel, over the proved board of cmwq: code that uses Linux workqueues compiles
 * unchanged against it. Compile cmwq_linux.c once, and link it (docs/LINUX.md).
 *
 * It is written from the kernel's documentation alone: Documentation/core-api/workqueue.rst, and what kernel-doc says
 * there of each function. It includes nothing of POSIX and nothing of cmwq, so it can stand beside any headers that you
 * have in place of the kernel's own.
 */
#ifndef _LINUX_WORKQUEUE_H
#define _LINUX_WORKQUEUE_H
#include <linux/types.h>
#include <linux/container_of.h>
#if __has_include(<linux/timer.h>) /* code that you have counts on it */
#include <linux/timer.h>
#endif

struct workqueue_struct;
struct work_struct;
typedef void (*work_func_t)(struct work_struct *work);

/* A work. @name: of its function, for what is told of it */
struct work_struct { work_func_t func; const char *name; };
struct delayed_work { struct work_struct work; };
struct execute_work { struct work_struct work; };
struct rcu_work;

#define __WORK_INITIALIZER(n, f) { .func = (f), .name = #f }
#define __DELAYED_WORK_INITIALIZER(n, f, flags) { .work = { .func = (f), .name = #f } }
#define DECLARE_WORK(n, f) struct work_struct n = { .func = (f), .name = #f }
#define DECLARE_DELAYED_WORK(n, f) struct delayed_work n = { .work = { .func = (f), .name = #f } }
#define DECLARE_DEFERRABLE_WORK(n, f) struct delayed_work n = { .work = { .func = (f), .name = #f } }

void cmwq_linux_init(struct work_struct *work, work_func_t func, const char *name);
#define INIT_WORK(_work, _func) cmwq_linux_init((_work), (_func), #_func)
#define INIT_WORK_ONSTACK(_work, _func) cmwq_linux_init((_work), (_func), #_func)
#define INIT_DELAYED_WORK(_work, _func) cmwq_linux_init(&(_work)->work, (_func), #_func)
#define INIT_DELAYED_WORK_ONSTACK(_work, _func) cmwq_linux_init(&(_work)->work, (_func), #_func)
#define INIT_DEFERRABLE_WORK(_work, _func) cmwq_linux_init(&(_work)->work, (_func), #_func)
#define INIT_DEFERRABLE_WORK_ONSTACK(_work, _func) cmwq_linux_init(&(_work)->work, (_func), #_func)

static inline struct delayed_work *to_delayed_work(struct work_struct *work)
{ return container_of(work, struct delayed_work, work); }

/* WQ_MEM_RECLAIM, WQ_SYSFS and WQ_POWER_EFFICIENT are taken, and do nothing. */
enum {
    WQ_UNBOUND = 1 << 1,
    WQ_FREEZABLE = 1 << 2,
    WQ_MEM_RECLAIM = 1 << 3,
    WQ_HIGHPRI = 1 << 4,
    WQ_CPU_INTENSIVE = 1 << 5,
    WQ_SYSFS = 1 << 6,
    WQ_POWER_EFFICIENT = 1 << 7,

    WQ_MAX_ACTIVE = 512,
    WQ_UNBOUND_MAX_ACTIVE = 512,
    WQ_DFL_ACTIVE = 256,

    WORK_CPU_UNBOUND = 1 << 16,
    WORK_BUSY_PENDING = 1,
    WORK_BUSY_RUNNING = 2,
    WORKER_DESC_LEN = 24
};

extern struct workqueue_struct *system_wq, *system_highpri_wq, *system_long_wq, *system_unbound_wq,
    *system_freezable_wq, *system_power_efficient_wq, *system_freezable_power_efficient_wq;

struct workqueue_struct *alloc_workqueue(const char *fmt, unsigned int flags, int max_active, ...)
    __attribute__((format(printf, 1, 4)));
struct workqueue_struct *alloc_ordered_workqueue(const char *fmt, unsigned int flags, ...)
    __attribute__((format(printf, 1, 3)));
#define create_workqueue(name) alloc_workqueue("%s", WQ_MEM_RECLAIM, 1, (name))
#define create_freezable_workqueue(name) alloc_workqueue("%s", WQ_FREEZABLE | WQ_UNBOUND | WQ_MEM_RECLAIM, 1, (name))
#define create_singlethread_workqueue(name) alloc_ordered_workqueue("%s", WQ_MEM_RECLAIM, (name))
void destroy_workqueue(struct workqueue_struct *wq);
void flush_workqueue(struct workqueue_struct *wq);
void drain_workqueue(struct workqueue_struct *wq);
void workqueue_set_max_active(struct workqueue_struct *wq, int max_active);
bool workqueue_congested(int cpu, struct workqueue_struct *wq);

bool queue_work_on(int cpu, struct workqueue_struct *wq, struct work_struct *work);
bool queue_delayed_work_on(int cpu, struct workqueue_struct *wq, struct delayed_work *dwork, unsigned long delay);
bool mod_delayed_work_on(int cpu, struct workqueue_struct *wq, struct delayed_work *dwork, unsigned long delay);
bool queue_rcu_work(struct workqueue_struct *wq, struct rcu_work *rwork);
bool flush_work(struct work_struct *work);
bool flush_delayed_work(struct delayed_work *dwork);
bool flush_rcu_work(struct rcu_work *rwork);
bool cancel_work(struct work_struct *work);
bool cancel_work_sync(struct work_struct *work);
unsigned int work_busy(struct work_struct *work);
struct work_struct *current_work(void);
int schedule_on_each_cpu(work_func_t func);
long work_on_cpu(int cpu, long (*fn)(void *), void *arg);
void freeze_workqueues_begin(void);
void thaw_workqueues(void);

static inline bool queue_work(struct workqueue_struct *wq, struct work_struct *work)
{ return queue_work_on(WORK_CPU_UNBOUND, wq, work); }
/* There is one node. */
static inline bool queue_work_node(int node, struct workqueue_struct *wq, struct work_struct *work)
{ return (void)node, queue_work_on(WORK_CPU_UNBOUND, wq, work); }
static inline bool queue_delayed_work(struct workqueue_struct *wq, struct delayed_work *dwork, unsigned long delay)
{ return queue_delayed_work_on(WORK_CPU_UNBOUND, wq, dwork, delay); }
static inline bool mod_delayed_work(struct workqueue_struct *wq, struct delayed_work *dwork, unsigned long delay)
{ return mod_delayed_work_on(WORK_CPU_UNBOUND, wq, dwork, delay); }
static inline bool schedule_work_on(int cpu, struct work_struct *work) { return queue_work_on(cpu, system_wq, work); }
static inline bool schedule_work(struct work_struct *work) { return queue_work(system_wq, work); }
static inline bool schedule_delayed_work_on(int cpu, struct delayed_work *dwork, unsigned long delay)
{ return queue_delayed_work_on(cpu, system_wq, dwork, delay); }
static inline bool schedule_delayed_work(struct delayed_work *dwork, unsigned long delay)
{ return queue_delayed_work(system_wq, dwork, delay); }
static inline void flush_scheduled_work(void) { flush_workqueue(system_wq); }
static inline bool cancel_delayed_work(struct delayed_work *dwork) { return cancel_work(&dwork->work); }
static inline bool cancel_delayed_work_sync(struct delayed_work *dwork) { return cancel_work_sync(&dwork->work); }
static inline bool work_pending(struct work_struct *work) { return (work_busy(work) & WORK_BUSY_PENDING) != 0; }
static inline bool delayed_work_pending(struct delayed_work *dwork) { return work_pending(&dwork->work); }
/* CPUs neither come nor go. */
static inline long work_on_cpu_safe(int cpu, long (*fn)(void *), void *arg) { return work_on_cpu(cpu, fn, arg); }
/* There are no rescuers, and threads outside of the kernel are always in process context. */
static inline bool current_is_workqueue_rescuer(void) { return false; }
static inline int execute_in_process_context(work_func_t fn, struct execute_work *ew) { return fn(&ew->work), 0; }
static inline void set_worker_desc(const char *fmt, ...) { (void)fmt; }
static inline void destroy_work_on_stack(struct work_struct *work) { (void)work; }
static inline void destroy_delayed_work_on_stack(struct delayed_work *dwork) { (void)dwork; }

/* These come last, because headers in their place may include this one. */
#include <linux/jiffies.h>
#include <linux/rcupdate.h>

/* @waits: for a grace period, after which it is queued on @wq */
struct rcu_work { struct work_struct work; struct rcu_head rcu; struct workqueue_struct *wq; int waits; };
#define INIT_RCU_WORK(_work, _func) ((_work)->waits = 0, cmwq_linux_init(&(_work)->work, (_func), #_func))
#define INIT_RCU_WORK_ONSTACK(_work, _func) INIT_RCU_WORK(_work, _func)
static inline struct rcu_work *to_rcu_work(struct work_struct *work)
{ return container_of(work, struct rcu_work, work); }

/*
 * What follows is not of the kernel. The workqueues open at the first call, and close at exit; a program need not call
 * any of this. In brackets: what 0 means, and the variable of the environment that is read then.
 */
/* NULL: no work, queue or caller. @circle: of a wait that is refused: who waits for whom, in words; or NULL */
struct cmwq_linux_warning { const char *call, *work, *queue, *caller, *why, *circle; };
struct cmwq_linux_options {
    unsigned int cpus;      /* [2, CMWQ_LINUX_CPUS] of bound queues: 1 to 63 */
    unsigned int workers;   /* [16, CMWQ_LINUX_WORKERS] of each pool: 1 to 64 */
    unsigned int works;     /* [16,384, CMWQ_LINUX_WORKS] so many may be pending or run at a time: up to 65,535 */
    unsigned int stall_ms;  /* [5,000, CMWQ_LINUX_STALL_MS] a run that holds its CPU for so long is told */
    const char *history;    /* [none, CMWQ_LINUX_HISTORY] a file; its names are in the file with .names after it */
    void (*warn)(const struct cmwq_linux_warning *warning); /* [a line on standard error] what a kernel warns of */
    bool aborts;            /* [false, CMWQ_LINUX_ABORTS if there is no @warn] after a warning */
};
/* Before any other call. Return: 0, or minus a status of cmwq_hub.h, also if they are open or closed already */
int cmwq_linux_open(const struct cmwq_linux_options *options);
/* Lets what is queued end, and ends the threads. Return: as cmwq_hub_close(). Not in a work function */
int cmwq_linux_close(void);
/* Writes all that there is of the history by now, and the names, for a program that is about to abort. It does so by
   itself before options.aborts does. Not in a signal handler */
void cmwq_linux_write_out(void);
/* Around what blocks in a work function outside of workqueues, such as a lock or a sleep. Pairs may be nested. */
void cmwq_linux_blocks(void);
void cmwq_linux_goes_on(void);
/* The CPU on which the calling thread queues work from now on, where the call names none. [one each in turn] */
void cmwq_linux_set_cpu(int cpu);

#endif
