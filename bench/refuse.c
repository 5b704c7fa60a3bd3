// Stands before the C library (LD_PRELOAD) and refuses what its environment says, counted from 1 over all threads.
//   REFUSE_GROWTH=K   the K-th growth of memory (malloc or realloc) finds none
//   REFUSE_CALL=K     the K-th call of open, statx, lseek, read and write fails with EIO
//   SHORT_CALL=K      that call moves one byte, where it is a read or a write of more
//   SHORT_EACH=1      each read and each write moves one byte
//   REFUSE_THREAD=K   the K-th thread is not made
//   COUNT_TO=FILE     at the end FILE gets the number of growths, of calls, of reads and writes of more than one byte, and of threads
#define _GNU_SOURCE
#include <dlfcn.h>
#include <errno.h>
#include <fcntl.h>
#include <pthread.h>
#include <stdarg.h>
#include <stdio.h>
#include <stdlib.h>
#include <sys/stat.h>
#include <sys/syscall.h>
#include <unistd.h>

static void *(*next_malloc)(size_t);
static void *(*next_realloc)(void *, size_t);
static int (*next_pthread_create)(pthread_t *, const pthread_attr_t *, void *(*)(void *), void *);
static unsigned long growths, calls, moves, threads;
static unsigned long refused_growth, refused_call, short_call, refused_thread;
static int short_each, counting;
// What is asked for while the C library is being searched comes from here, and is never given back.
static char first_room[65536];
static size_t first_used;

static unsigned long number_of(const char *name) {
  const char *text = getenv(name);
  return text ? strtoul(text, 0, 10) : 0;
}

__attribute__((constructor)) static void begin(void) {
  if (!next_malloc) next_malloc = dlsym(RTLD_NEXT, "malloc");
  if (!next_realloc) next_realloc = dlsym(RTLD_NEXT, "realloc");
  if (!next_pthread_create) next_pthread_create = dlsym(RTLD_NEXT, "pthread_create");
  refused_growth = number_of("REFUSE_GROWTH");
  refused_thread = number_of("REFUSE_THREAD");
  refused_call = number_of("REFUSE_CALL");
  short_call = number_of("SHORT_CALL");
  short_each = number_of("SHORT_EACH") != 0;
  counting = 1;
}

// The program ends by _exit, so the counts are written there.
void _exit(int status) {
  const char *file = getenv("COUNT_TO");
  char text[96];
  if (file) {
    int length = snprintf(text, sizeof text, "%lu %lu %lu %lu\n", growths, calls, moves, threads);
    int descriptor = syscall(SYS_open, file, O_WRONLY | O_CREAT | O_TRUNC, 0644);
    if (descriptor >= 0) {
      if (syscall(SYS_write, descriptor, text, length) < 0) {}
      syscall(SYS_close, descriptor);
    }
  }
  for (;;) syscall(SYS_exit_group, status);
}

static int growth_is_refused(void) {
  return counting && __sync_add_and_fetch(&growths, 1) == refused_growth;
}

void *malloc(size_t size) {
  if (!next_malloc) {
    void *room = first_room + first_used;
    first_used += (size + 15) & ~15ul;
    return first_used <= sizeof first_room ? room : 0;
  }
  return growth_is_refused() ? 0 : next_malloc(size);
}

void *realloc(void *old, size_t size) {
  return !next_realloc || growth_is_refused() ? 0 : next_realloc(old, size);
}

// Whether this call fails.
static int call_is_refused(unsigned long number) { return counting && number == refused_call; }

static unsigned long next_call(void) { return counting ? __sync_add_and_fetch(&calls, 1) : 0; }

static size_t moved(unsigned long number, size_t size) {
  if (counting && size > 1) __sync_add_and_fetch(&moves, 1);
  return size > 1 && (short_each || (counting && number == short_call)) ? 1 : size;
}

int open(const char *path, int flags, ...) {
  va_list rest;
  va_start(rest, flags);
  int mode = va_arg(rest, int);
  va_end(rest);
  if (call_is_refused(next_call())) { errno = EIO; return -1; }
  return syscall(SYS_open, path, flags, mode);
}

int statx(int folder, const char *restrict path, int flags, unsigned mask, struct statx *restrict into) {
  if (call_is_refused(next_call())) { errno = EIO; return -1; }
  return syscall(SYS_statx, folder, path, flags, mask, into);
}

off_t lseek(int descriptor, off_t offset, int whence) {
  if (call_is_refused(next_call())) { errno = EIO; return -1; }
  return syscall(SYS_lseek, descriptor, offset, whence);
}

ssize_t read(int descriptor, void *into, size_t size) {
  unsigned long number = next_call();
  if (call_is_refused(number)) { errno = EIO; return -1; }
  return syscall(SYS_read, descriptor, into, moved(number, size));
}

ssize_t write(int descriptor, const void *bytes, size_t size) {
  unsigned long number = next_call();
  if (call_is_refused(number)) { errno = EIO; return -1; }
  return syscall(SYS_write, descriptor, bytes, moved(number, size));
}

ssize_t __write(int descriptor, const void *bytes, size_t size) { return write(descriptor, bytes, size); }

int pthread_create(pthread_t *thread, const pthread_attr_t *attributes, void *(*work)(void *), void *given) {
  if (__sync_add_and_fetch(&threads, 1) == refused_thread) return EAGAIN;
  return next_pthread_create(thread, attributes, work, given);
}
