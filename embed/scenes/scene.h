/* What the scenes share: each row names what is tried, and compares. The last line counts; the status is 1 if a row differs. */
#ifndef SCENE_H
#define SCENE_H
#include "tower.h"
#include <stdio.h>
#include <time.h>

static int rows, faults;

static void is(const char *name, long long seen, long long wanted) {
  __atomic_add_fetch(&rows, 1, __ATOMIC_SEQ_CST);
  if (seen == wanted) return;
  __atomic_add_fetch(&faults, 1, __ATOMIC_SEQ_CST);
  printf("NOT SO: %s: %lld, and wanted is %lld\n", name, seen, wanted);
}

static inline int ended(void) {
  printf("%d rows, %d wrong\n", rows, faults);
  return faults != 0;
}

static inline double seconds(clockid_t clock) {
  struct timespec t;
  clock_gettime(clock, &t);
  return t.tv_sec + t.tv_nsec / 1e9;
}

#endif
