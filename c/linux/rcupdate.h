/*
 * Read-copy update, small and slow: readers share a lock, and a grace period takes it alone. It is here for
 * queue_rcu_work(). You may replace this file by one of your own with struct rcu_head, call_rcu() and rcu_barrier(), as
 * of liburcu.
 */
#ifndef _LINUX_RCUPDATE_H
#define _LINUX_RCUPDATE_H
#define CMWQ_LINUX_RCU /* cmwq_linux.c has the functions */

struct rcu_head { struct rcu_head *next; void (*func)(struct rcu_head *head); };

void cmwq_linux_rcu_read_lock(void);
void cmwq_linux_rcu_read_unlock(void);
void cmwq_linux_synchronize_rcu(void);
void cmwq_linux_call_rcu(struct rcu_head *head, void (*func)(struct rcu_head *head));
void cmwq_linux_rcu_barrier(void);

#define rcu_read_lock() cmwq_linux_rcu_read_lock()
#define rcu_read_unlock() cmwq_linux_rcu_read_unlock()
#define synchronize_rcu() cmwq_linux_synchronize_rcu()
#define call_rcu(head, func) cmwq_linux_call_rcu(head, func)
#define rcu_barrier() cmwq_linux_rcu_barrier()
#define rcu_dereference(p) __atomic_load_n(&(p), __ATOMIC_ACQUIRE)
#define rcu_access_pointer(p) __atomic_load_n(&(p), __ATOMIC_RELAXED)
#define rcu_assign_pointer(p, v) __atomic_store_n(&(p), (v), __ATOMIC_RELEASE)
#define RCU_INIT_POINTER(p, v) __atomic_store_n(&(p), (v), __ATOMIC_RELAXED)

#endif
