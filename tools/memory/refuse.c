/* Refuses an allocation of the program into which it is loaded (LD_PRELOAD), which then runs anew for each order. Used
 * by tools/memory/refuse.
 *
 * Before the program begins, it reads orders from the file descriptor REFUSE_ORDERS, a socket: which allocation is
 * refused, counted from 1, and whether all that follow are (struct order). For each it makes a copy of the process, in
 * which the program runs from its beginning, with REFUSE_INPUT as its input, and with REFUSE_OUTPUT and REFUSE_ERRORS,
 * which are emptied, for what it writes. It answers with how that ended, how many allocations were refused, and how
 * many were made before the input was read for the first time (struct answer). A copy that runs for more than
 * REFUSE_SECONDS ends by SIGALRM.
 *
 * A thread is counted as an allocation too, since its stack is one: where it is refused, pthread_create returns
 * EAGAIN. */
#define _GNU_SOURCE
#include <dlfcn.h>
#include <errno.h>
#include <pthread.h>
#include <stdatomic.h>
#include <stdint.h>
#include <stdlib.h>
#include <sys/mman.h>
#include <sys/syscall.h>
#include <sys/wait.h>
#include <unistd.h>

extern void *__libc_malloc(size_t);
extern void *__libc_calloc(size_t, size_t);
extern void *__libc_realloc(void *, size_t);
extern void *__libc_memalign(size_t, size_t);

typedef int create(pthread_t *, const pthread_attr_t *, void *(*)(void *), void *);

struct order {
  int64_t at;
  int64_t rest;
};

struct answer {
  int64_t status;
  int64_t refused;
  int64_t before;
};

/* what the process that took the order reads too; before is less than 0 where the input was not read */
static struct {
  atomic_long refused;
  atomic_long before;
} *shared;

static atomic_long made;
static long refused_at;
static long refuses_rest;
static create *next_create;

static int number_in(const char *name) {
  const char *text = getenv(name);
  if (text == NULL)
    _exit(99);
  return atoi(text);
}

static void empty(int file, int as) {
  if (ftruncate(file, 0) != 0 || lseek(file, 0, SEEK_SET) != 0 || dup2(file, as) != as)
    _exit(99);
}

/* Takes orders, and returns in each copy. What the loader allocates before is not counted: nothing is refused while
 * refused_at is 0. */
__attribute__((constructor)) static void begin(void) {
  next_create = (create *)dlsym(RTLD_NEXT, "pthread_create");
  shared = mmap(NULL, sizeof *shared, PROT_READ | PROT_WRITE, MAP_SHARED | MAP_ANONYMOUS, -1, 0);
  int orders = number_in("REFUSE_ORDERS"), input = number_in("REFUSE_INPUT");
  int output = number_in("REFUSE_OUTPUT"), errors = number_in("REFUSE_ERRORS");
  int seconds = number_in("REFUSE_SECONDS");
  struct order order;
  if (shared == MAP_FAILED)
    _exit(99);
  while (read(orders, &order, sizeof order) == sizeof order) {
    atomic_store(&shared->refused, 0);
    atomic_store(&shared->before, -1);
    pid_t copy = fork();
    if (copy < 0)
      _exit(99);
    if (copy == 0) {
      if (lseek(input, 0, SEEK_SET) != 0 || dup2(input, 0) != 0)
        _exit(99);
      empty(output, 1);
      empty(errors, 2);
      close(orders);
      alarm(seconds);
      refuses_rest = order.rest;
      refused_at = order.at;
      return;
    }
    int status;
    if (waitpid(copy, &status, 0) != copy)
      _exit(99);
    struct answer answer = {WIFEXITED(status) ? WEXITSTATUS(status) : -WTERMSIG(status), shared->refused,
                            shared->before};
    if (write(orders, &answer, sizeof answer) != sizeof answer)
      _exit(99);
  }
  _exit(0);
}

static int is_refused(void) {
  if (refused_at == 0)
    return 0;
  long number = atomic_fetch_add(&made, 1) + 1;
  if (number != refused_at && !(refuses_rest && number > refused_at))
    return 0;
  atomic_fetch_add(&shared->refused, 1);
  return 1;
}

static void *none(void) {
  errno = ENOMEM;
  return NULL;
}

void *malloc(size_t size) { return is_refused() ? none() : __libc_malloc(size); }

void *calloc(size_t count, size_t size) { return is_refused() ? none() : __libc_calloc(count, size); }

void *realloc(void *old, size_t size) { return is_refused() ? none() : __libc_realloc(old, size); }

void *memalign(size_t align, size_t size) { return is_refused() ? none() : __libc_memalign(align, size); }

void *aligned_alloc(size_t align, size_t size) { return memalign(align, size); }

int posix_memalign(void **to, size_t align, size_t size) {
  if (is_refused())
    return ENOMEM;
  void *made_here = __libc_memalign(align, size);
  if (made_here == NULL)
    return ENOMEM;
  *to = made_here;
  return 0;
}

int pthread_create(pthread_t *thread, const pthread_attr_t *how, void *(*start)(void *), void *given) {
  return is_refused() ? EAGAIN : next_create(thread, how, start, given);
}

ssize_t read(int file, void *to, size_t size) {
  long none_yet = -1;
  if (file == 0 && refused_at != 0)
    atomic_compare_exchange_strong(&shared->before, &none_yet, atomic_load(&made));
  return syscall(SYS_read, file, to, size);
}
