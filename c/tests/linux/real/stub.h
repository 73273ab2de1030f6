/* A little of the kernel for the files that tools/linux/real compiles, beside the headers of c/linux: what their own
   headers would bring. Headers that are not there are empty. */
#ifndef STUB_H
#define STUB_H
#include <errno.h>
#include <limits.h>
#include <linux/completion.h>
#include <linux/delay.h>
#include <linux/list.h>
#include <linux/mutex.h>
#include <linux/slab.h>
#include <linux/spinlock.h>
#include <linux/wait.h>
#include <linux/workqueue.h>
#include <stdio.h>

/* A second of a driver takes 10 ms here. */
#undef HZ
#define HZ 10

/* Waits for what the driver's works do, without saying how long that takes. */
#define WAIT_UNTIL(it) do { if (it) break; msleep(1); } while (true)

/* modules, sections, marks */
#define KBUILD_MODNAME "stub"
#define CONFIG_PM_SLEEP 1
#define __init
#define __exit
#define __iomem
#define __maybe_unused __attribute__((unused))
#define __used __attribute__((used))
#define noinline __attribute__((noinline))
#define fallthrough __attribute__((fallthrough))
#define __acquires(it)
#define __releases(it)
#define __acquire(it) ((void)0)
#define __release(it) ((void)0)
#define likely(it) (it)
#define unlikely(it) (it)
#define EXPORT_SYMBOL(it) extern int exported_##it
#define EXPORT_SYMBOL_GPL(it) extern int exported_##it
#define MODULE_LICENSE(it) extern int module_license
#define MODULE_AUTHOR(it) extern int module_author
#define MODULE_DESCRIPTION(it) extern int module_description
#define MODULE_ALIAS(it) extern int module_alias
#define MODULE_INFO(one, other) extern int module_info
#define MODULE_PARM_DESC(it, text) extern int module_parm_##it
#define MODULE_DEVICE_TABLE(kind, it) extern int module_table_##kind
#define THIS_MODULE NULL
#define module_param(it, type, mode) extern int module_param_##it
#define module_param_array(it, type, count, mode) extern int module_param_##it
#define subsys_initcall(f) module_init(f)
#define module_init(f) int stub_init(void); int stub_init(void) { return f(); }
#define module_exit(f) void stub_exit(void); void stub_exit(void) { f(); }
int stub_init(void);
void stub_exit(void);

/* messages */
#define pr_info(...) fprintf(stderr, __VA_ARGS__)
#define pr_err(...) fprintf(stderr, __VA_ARGS__)
#define pr_debug(...) ((void)0)
#define dev_err(dev, ...) ((void)(dev), fprintf(stderr, __VA_ARGS__))
#define dev_err_once(dev, ...) dev_err(dev, __VA_ARGS__)
#define dev_err_probe(dev, result, ...) (dev_err(dev, __VA_ARGS__), (int)(result))
#define dev_crit(dev, ...) ((void)(dev))
#define dev_warn(dev, ...) ((void)(dev))
#define dev_info(dev, ...) ((void)(dev))
#define dev_dbg(dev, ...) ((void)(dev))
#define printk(...) fprintf(stderr, __VA_ARGS__)
#define KERN_WARNING
#define KERN_ERR
#define panic(...) (fprintf(stderr, __VA_ARGS__), abort())
#define BUG_ON(it) do { if (it) abort(); } while (0)
#define WARN_ON(it)                                                                     \
    ({                                                                                  \
        int warns_ = !!(it);                                                            \
        if (warns_) fprintf(stderr, "WARN_ON(%s) at %s:%d\n", #it, __FILE__, __LINE__); \
        warns_;                                                                         \
    })
#define WARN_ON_ONCE(it) WARN_ON(it)

/* numbers, bits, atomics */
#define READ_ONCE(it) __atomic_load_n(&(it), __ATOMIC_RELAXED)
#define WRITE_ONCE(it, value) __atomic_store_n(&(it), (value), __ATOMIC_RELAXED)
#define U16_MAX UINT16_MAX
#define BIT(n) (1UL << (n))
#define BIT_ULL(n) (1ULL << (n))
#define BIT_MASK(n) (1UL << ((n) % 64))
#define BIT_WORD(n) ((n) / 64)
#define ARRAY_SIZE(it) (sizeof(it) / sizeof *(it))
#define BITS_PER_TYPE(type) (sizeof(type) * 8)
#define DIV_ROUND_UP(a, b) (((a) + (b) - 1) / (b))
#define DIV_ROUND_DOWN_ULL(a, b) ((unsigned long long)(a) / (b))
#define min(a, b) ((a) < (b) ? (a) : (b))
#define max(a, b) ((a) > (b) ? (a) : (b))
#define min_t(type, a, b) ((type)(a) < (type)(b) ? (type)(a) : (type)(b))
#define USEC_PER_MSEC 1000L
#define smp_mb__before_atomic() __atomic_thread_fence(__ATOMIC_SEQ_CST)
typedef struct { int counter; } atomic_t;
static inline void atomic_inc(atomic_t *it) { __atomic_add_fetch(&it->counter, 1, __ATOMIC_SEQ_CST); }
static inline void atomic_dec(atomic_t *it) { __atomic_sub_fetch(&it->counter, 1, __ATOMIC_SEQ_CST); }
static inline int atomic_read(const atomic_t *it) { return __atomic_load_n(&it->counter, __ATOMIC_RELAXED); }
static inline void atomic_set(atomic_t *it, int value) { __atomic_store_n(&it->counter, value, __ATOMIC_SEQ_CST); }
static inline int atomic_cmpxchg(atomic_t *it, int old, int value)
{ return __atomic_compare_exchange_n(&it->counter, &old, value, false, __ATOMIC_SEQ_CST, __ATOMIC_SEQ_CST), old; }
static inline bool test_bit(int n, const volatile unsigned long *bits)
{ return __atomic_load_n(bits, __ATOMIC_RELAXED) >> n & 1; }
static inline void clear_bit(int n, volatile unsigned long *bits)
{ __atomic_and_fetch(bits, ~(1UL << n), __ATOMIC_SEQ_CST); }
static inline void set_bit(int n, volatile unsigned long *bits)
{ __atomic_or_fetch(bits, 1UL << n, __ATOMIC_SEQ_CST); }
static inline bool test_and_clear_bit(int n, volatile unsigned long *bits)
{ return __atomic_fetch_and(bits, ~(1UL << n), __ATOMIC_SEQ_CST) >> n & 1; }
static inline bool test_and_set_bit(int n, volatile unsigned long *bits)
{ return __atomic_fetch_or(bits, 1UL << n, __ATOMIC_SEQ_CST) >> n & 1; }
static inline void __set_bit(int n, unsigned long *bits) { bits[n / 64] |= 1UL << n % 64; }

/* what is a pointer or an error */
#define ENOTSUPP 524
#define EPROBE_DEFER 517
#define ERR_PTR(error) ((void *)(long)(error))
#define PTR_ERR(it) ((long)(it))
#define IS_ERR(it) ((unsigned long)(it) > -4096UL)
#define IS_ERR_OR_NULL(it) (!(it) || IS_ERR(it))
#define PTR_ERR_OR_ZERO(it) (IS_ERR(it) ? (int)PTR_ERR(it) : 0)

/* devices */
struct kobject { int none; };
struct device { struct device *parent; void *data, *of_node; struct kobject kobj; struct stub_end *ends; };
struct attribute { const char *name; unsigned short mode; };
typedef unsigned short umode_t;
struct notifier_block { int (*notifier_call)(struct notifier_block *it, unsigned long event, void *data); };
#define NOTIFY_DONE 0
#define kobj_to_dev(it) container_of(it, struct device, kobj)
static inline void *dev_get_drvdata(const struct device *dev) { return dev->data; }
static inline void dev_set_drvdata(struct device *dev, void *data) { dev->data = data; }

/* tasks, modules, clocks */
struct module { int references; };
struct task_struct { int pid; };
static inline struct task_struct *stub_current(void)
{
    static __thread struct task_struct own;

    return &own;
}
#define current stub_current()
#define task_pid_nr(task) ((task)->pid)
typedef s64 ktime_t;
static inline ktime_t ktime_get(void) { return (ktime_t)jiffies * 1000000; }
#define ktime_sub(a, b) ((a) - (b))
#define ktime_to_ns(it) (it)
#define ktime_us_delta(a, b) (((a) - (b)) / 1000)

#endif
