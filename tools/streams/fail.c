/* Passes on one byte for each read of standard input, and for each write to standard output or standard error, of the
 * program into which it is loaded (LD_PRELOAD). FAIL_0, FAIL_1 and FAIL_2, of these three, are each `AT TIMES ERROR`:
 * TIMES calls fail by that error, of which the first has the number AT, counted from 1. Used by tools/streams/run. */
#define _GNU_SOURCE
#include <dlfcn.h>
#include <errno.h>
#include <stdio.h>
#include <stdlib.h>
#include <unistd.h>

enum { STREAMS = 3 };

static struct {
  long made, at, times;
  int error;
} streams[STREAMS];

static ssize_t (*next_read)(int, void *, size_t);
static ssize_t (*next_write)(int, const void *, size_t);

__attribute__((constructor)) static void begin(void) {
  next_read = (ssize_t (*)(int, void *, size_t))dlsym(RTLD_NEXT, "read");
  next_write = (ssize_t (*)(int, const void *, size_t))dlsym(RTLD_NEXT, "write");
  for (int stream = 0; stream < STREAMS; stream++) {
    char name[] = "FAIL_0";
    name[5] += (char)stream;
    const char *given = getenv(name);
    if (given != NULL && sscanf(given, "%ld %ld %d", &streams[stream].at, &streams[stream].times,
                                &streams[stream].error) != 3)
      _exit(99);
  }
}

/* Whether the next call of a stream fails; errno is its error then. */
static int fails(int stream) {
  long number = ++streams[stream].made;
  if (number < streams[stream].at || number >= streams[stream].at + streams[stream].times)
    return 0;
  errno = streams[stream].error;
  return 1;
}

ssize_t read(int file, void *to, size_t size) {
  if (file != STDIN_FILENO)
    return next_read(file, to, size);
  return fails(file) ? -1 : next_read(file, to, size > 1 ? 1 : size);
}

ssize_t write(int file, const void *from, size_t size) {
  if (file != STDOUT_FILENO && file != STDERR_FILENO)
    return next_write(file, from, size);
  return fails(file) ? -1 : next_write(file, from, size > 1 ? 1 : size);
}
