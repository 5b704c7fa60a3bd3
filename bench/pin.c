// Gives the threads of a program processors in turn: PROCESSORS has their numbers, as 0,1,2,3. The program's first thread gets the first
// of them, and where no other thread runs, the next one that is made gets the second. Preloaded by phase.sh.
#define _GNU_SOURCE
#include <dlfcn.h>
#include <pthread.h>
#include <sched.h>
#include <stdatomic.h>
#include <stdio.h>
#include <stdlib.h>

enum { MOST = 64 };

typedef int create(pthread_t *, const pthread_attr_t *, void *(*)(void *), void *);
typedef int join(pthread_t, void **);

static int processors[MOST];
static unsigned count;
static atomic_uint threads = 1;
static create *create_thread;
static join *join_thread;

static cpu_set_t only(int processor) {
  cpu_set_t set;
  CPU_ZERO(&set);
  CPU_SET(processor, &set);
  return set;
}

__attribute__((constructor)) static void begin(void) {
  create_thread = (create *)dlsym(RTLD_NEXT, "pthread_create");
  join_thread = (join *)dlsym(RTLD_NEXT, "pthread_join");
  char *words = getenv("PROCESSORS");
  while (words && *words && count < MOST) {
    processors[count++] = (int)strtol(words, &words, 10);
    if (*words == ',') words++;
  }
  cpu_set_t first = only(processors[0]);
  if (count == 0 || sched_setaffinity(0, sizeof first, &first) != 0) {
    fputs("pin: PROCESSORS names no processor\n", stderr);
    exit(2);
  }
}

int pthread_create(pthread_t *thread, const pthread_attr_t *attributes, void *(*work)(void *), void *given) {
  pthread_attr_t own;
  if (attributes == NULL) pthread_attr_init(&own);
  else own = *attributes;
  cpu_set_t one = only(processors[atomic_fetch_add(&threads, 1) % count]);
  pthread_attr_setaffinity_np(&own, sizeof one, &one);
  int ended = create_thread(thread, &own, work, given);
  if (ended != 0) atomic_fetch_sub(&threads, 1);
  return ended;
}

int pthread_join(pthread_t thread, void **result) {
  int ended = join_thread(thread, result);
  atomic_fetch_sub(&threads, 1);
  return ended;
}
