/* A library for LD_PRELOAD that disturbs the calls of a program: fail-each-call and try-schedules build it.

     FAIL=NAME:N:ERRNO:HOW   the Nth call of NAME (read, write, open, pthread_create) fails with this number of the system's;
                             0 in its place: it takes or gives one byte alone. HOW is once, or on: each from then on.
     COUNT=FILE              how many calls there were of each, a line for each call of one of them
     DELAY=SEED:MOST         of these, of joins and of what a thread begins with, one in four comes up to MOST microseconds
                             later, and one in four behind whoever else may run
*/
#define _GNU_SOURCE
#include <dlfcn.h>
#include <errno.h>
#include <fcntl.h>
#include <pthread.h>
#include <sched.h>
#include <stdarg.h>
#include <stdatomic.h>
#include <stdio.h>
#include <stdlib.h>
#include <string.h>
#include <time.h>
#include <unistd.h>

enum { READ, WRITE, OPEN, THREAD, KINDS };
static const char *const names[KINDS] = {"read", "write", "open", "pthread_create"};
static _Atomic long calls[KINDS];
static int failing = -1, number, from_then_on, told = -1;
static long nth;
static _Atomic unsigned long drawn;
static long most;

__attribute__((constructor)) static void begin(void) {
  const char *fail = getenv("FAIL"), *count = getenv("COUNT"), *delay = getenv("DELAY");
  char name[32], how[8];
  if (fail && sscanf(fail, "%31[^:]:%ld:%d:%7s", name, &nth, &number, how) == 4) {
    for (int kind = 0; kind < KINDS; kind++)
      if (!strcmp(name, names[kind])) failing = kind;
    from_then_on = !strcmp(how, "on");
  }
  if (delay) {
    unsigned long seed = 0;
    if (sscanf(delay, "%lu:%ld", &seed, &most) != 2) most = 0;
    drawn = seed * 2862933555777941757UL + 3037000493UL;
  }
  if (count) told = open(count, O_WRONLY | O_CREAT | O_APPEND, 0600);
}

static void disturb(void) {
  if (!most) return;
  unsigned long now = drawn = drawn * 6364136223846793005UL + 1442695040888963407UL;
  if ((now >> 60) < 4) {
    sched_yield();
  } else if ((now >> 60) < 8) {
    struct timespec time = {0, (long)((now >> 33) % (unsigned long)most) * 1000};
    nanosleep(&time, NULL);
  }
}

/* Whether this call is the one that fails. */
static int fails(int kind) {
  long now = ++calls[kind];
  if (told >= 0) dprintf(told, "%s\n", names[kind]);
  disturb();
  return kind == failing && (now == nth || (from_then_on && now > nth));
}

static void *real(const char *name) {
  void *it = dlsym(RTLD_NEXT, name);
  if (!it) _exit(99);
  return it;
}

ssize_t read(int file, void *bytes, size_t room) {
  static ssize_t (*is)(int, void *, size_t);
  if (!is) is = (ssize_t(*)(int, void *, size_t))real("read");
  if (!fails(READ)) return is(file, bytes, room);
  if (!number) return is(file, bytes, room ? 1 : 0);
  errno = number;
  return -1;
}

ssize_t write(int file, const void *bytes, size_t length) {
  static ssize_t (*is)(int, const void *, size_t);
  if (!is) is = (ssize_t(*)(int, const void *, size_t))real("write");
  if (file == told) return is(file, bytes, length);
  /* what is said on standard error is not what is tried */
  if (file == 2 || !fails(WRITE)) return is(file, bytes, length);
  if (!number) return is(file, bytes, length ? 1 : 0);
  errno = number;
  return -1;
}

static int opened(const char *name, const char *path, int flags, int mode) {
  int (*is)(const char *, int, ...) = (int (*)(const char *, int, ...))real(name);
  if (!fails(OPEN) || !number) return is(path, flags, mode);
  errno = number;
  return -1;
}

int open(const char *path, int flags, ...) {
  va_list rest;
  va_start(rest, flags);
  int mode = va_arg(rest, int);
  va_end(rest);
  return opened("open", path, flags, mode);
}

int open64(const char *path, int flags, ...) {
  va_list rest;
  va_start(rest, flags);
  int mode = va_arg(rest, int);
  va_end(rest);
  return opened("open64", path, flags, mode);
}

int pthread_create(pthread_t *thread, const pthread_attr_t *kind, void *(*work)(void *), void *with) {
  static int (*is)(pthread_t *, const pthread_attr_t *, void *(*)(void *), void *);
  if (!is) is = (int (*)(pthread_t *, const pthread_attr_t *, void *(*)(void *), void *))real("pthread_create");
  if (fails(THREAD) && number) return number;
  return is(thread, kind, work, with);
}

int pthread_join(pthread_t thread, void **left) {
  static int (*is)(pthread_t, void **);
  if (!is) is = (int (*)(pthread_t, void **))real("pthread_join");
  disturb();
  return is(thread, left);
}

pthread_t pthread_self(void) {
  static pthread_t (*is)(void);
  if (!is) is = (pthread_t(*)(void))real("pthread_self");
  disturb();
  return is();
}
