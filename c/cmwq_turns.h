/*
 * Schedules by a seed: cc -include cmwq_turns.h .. cmwq_turns.c (docs/LINUX.md). The threads of a program that is built
 * so take turns: one at a time goes on, and at each lock, wait and sleep a random one is next. Time is virtual, and the
 * same by each clock. It passes when nobody can go on without it. So a seed, which is in CMWQ_TURNS_SEED, has one
 * schedule.
 *
 * All files of the program must be built so. What spins without any of these calls never ends, and what blocks in
 * another call holds up all threads.
 */
#ifndef CMWQ_TURNS_H
#define CMWQ_TURNS_H
#ifndef _GNU_SOURCE
#define _GNU_SOURCE 1
#endif
#include <pthread.h>
#include <sched.h>
#include <semaphore.h>
#include <sys/time.h>
#include <time.h>
#include <unistd.h>

/* @until: NULL: for ever; @name: of what is waited for, as the program has it */
int cmwq_turns_forget(void *it, size_t size);
int cmwq_turns_lock(void *lock, const struct timespec *until), cmwq_turns_trylock(void *lock);
int cmwq_turns_rdlock(void *lock, const struct timespec *until), cmwq_turns_tryrdlock(void *lock);
int cmwq_turns_wrlock(void *lock, const struct timespec *until), cmwq_turns_trywrlock(void *lock);
int cmwq_turns_unlock(void *lock), cmwq_turns_rwunlock(void *lock);
int cmwq_turns_wait(void *cond, void *lock, const struct timespec *until, const char *name);
int cmwq_turns_signal(void *cond), cmwq_turns_broadcast(void *cond);
int cmwq_turns_sem_init(sem_t *sem, unsigned value), cmwq_turns_sem_post(sem_t *sem);
int cmwq_turns_sem_wait(sem_t *sem, const struct timespec *until, const char *name), cmwq_turns_sem_trywait(sem_t *sem);
int cmwq_turns_sem_value(sem_t *sem, int *value);
int cmwq_turns_barrier_init(void *barrier, unsigned count), cmwq_turns_barrier_wait(void *barrier, const char *name);
int cmwq_turns_once(pthread_once_t *once, void (*body)(void));
int cmwq_turns_create(pthread_t *thread, void *(*body)(void *), void *data);
int cmwq_turns_join(pthread_t thread, void **result);
void cmwq_turns_exit(void *result) __attribute__((noreturn));
int cmwq_turns_yield(void), cmwq_turns_sleep(const struct timespec *time);
int cmwq_turns_clock(struct timespec *now);

#define pthread_mutex_init(lock, attr) ((void)(attr), cmwq_turns_forget(lock, sizeof(pthread_mutex_t)))
#define pthread_mutex_destroy(lock) cmwq_turns_forget(lock, 0)
#define pthread_mutex_lock(lock) cmwq_turns_lock(lock, NULL)
#define pthread_mutex_timedlock(lock, until) cmwq_turns_lock(lock, until)
#define pthread_mutex_clocklock(lock, clock, until) cmwq_turns_lock(lock, until)
#define pthread_mutex_trylock(lock) cmwq_turns_trylock(lock)
#define pthread_mutex_unlock(lock) cmwq_turns_unlock(lock)
#define pthread_rwlock_init(lock, attr) ((void)(attr), cmwq_turns_forget(lock, sizeof(pthread_rwlock_t)))
#define pthread_rwlock_destroy(lock) cmwq_turns_forget(lock, 0)
#define pthread_rwlock_rdlock(lock) cmwq_turns_rdlock(lock, NULL)
#define pthread_rwlock_timedrdlock(lock, until) cmwq_turns_rdlock(lock, until)
#define pthread_rwlock_clockrdlock(lock, clock, until) cmwq_turns_rdlock(lock, until)
#define pthread_rwlock_tryrdlock(lock) cmwq_turns_tryrdlock(lock)
#define pthread_rwlock_wrlock(lock) cmwq_turns_wrlock(lock, NULL)
#define pthread_rwlock_timedwrlock(lock, until) cmwq_turns_wrlock(lock, until)
#define pthread_rwlock_clockwrlock(lock, clock, until) cmwq_turns_wrlock(lock, until)
#define pthread_rwlock_trywrlock(lock) cmwq_turns_trywrlock(lock)
#define pthread_rwlock_unlock(lock) cmwq_turns_rwunlock(lock)
#define pthread_cond_init(cond, attr) ((void)(attr), cmwq_turns_forget(cond, sizeof(pthread_cond_t)))
#define pthread_cond_destroy(cond) cmwq_turns_forget(cond, 0)
#define pthread_cond_wait(cond, lock) cmwq_turns_wait(cond, lock, NULL, #cond)
#define pthread_cond_timedwait(cond, lock, until) cmwq_turns_wait(cond, lock, until, #cond)
#define pthread_cond_clockwait(cond, lock, clock, until) cmwq_turns_wait(cond, lock, until, #cond)
#define pthread_cond_signal(cond) cmwq_turns_signal(cond)
#define pthread_cond_broadcast(cond) cmwq_turns_broadcast(cond)
#define sem_init(sem, shared, value) ((void)(shared), cmwq_turns_sem_init(sem, value))
#define sem_destroy(sem) cmwq_turns_forget(sem, 0)
#define sem_wait(sem) cmwq_turns_sem_wait(sem, NULL, #sem)
#define sem_timedwait(sem, until) cmwq_turns_sem_wait(sem, until, #sem)
#define sem_clockwait(sem, clock, until) cmwq_turns_sem_wait(sem, until, #sem)
#define sem_trywait(sem) cmwq_turns_sem_trywait(sem)
#define sem_post(sem) cmwq_turns_sem_post(sem)
#define sem_getvalue(sem, value) cmwq_turns_sem_value(sem, value)
#define pthread_barrier_init(barrier, attr, count) ((void)(attr), cmwq_turns_barrier_init(barrier, count))
#define pthread_barrier_destroy(barrier) cmwq_turns_forget(barrier, 0)
#define pthread_barrier_wait(barrier) cmwq_turns_barrier_wait(barrier, #barrier)
#define pthread_once(once, body) cmwq_turns_once(once, body)
#define pthread_create(thread, attr, body, data) ((void)(attr), cmwq_turns_create(thread, body, data))
#define pthread_join(thread, result) cmwq_turns_join(thread, result)
#define pthread_exit(result) cmwq_turns_exit(result)
#define sched_yield() cmwq_turns_yield()
#define usleep(us) cmwq_turns_sleep(&(struct timespec){(us) / 1000000, (us) % 1000000 * 1000})
#define clock_gettime(clock, now) ((void)(clock), cmwq_turns_clock(now))

/* These are no macros, as members of structs may have such names, and arguments may be literals of structs. */
extern int nanosleep(const struct timespec *time, struct timespec *left) __asm__("cmwq_turns_nanosleep");
extern int clock_nanosleep(clockid_t clock, int flags, const struct timespec *time, struct timespec *left)
    __asm__("cmwq_turns_clock_nanosleep");
extern unsigned sleep(unsigned seconds) __asm__("cmwq_turns_seconds");
extern time_t time(time_t *now) __asm__("cmwq_turns_time");
extern int gettimeofday(struct timeval *restrict now, void *restrict zone) __asm__("cmwq_turns_day");

#endif
