/* No call takes memory after the tower is open: each allocation is counted. And towers are opened under less and less room for addresses: each that does not
   open says why, and keeps nothing. */
#include "scene.h"
#include <stdlib.h>
#include <string.h>
#include <sys/resource.h>

static _Atomic long allocations;
void *__libc_malloc(size_t), *__libc_calloc(size_t, size_t), *__libc_realloc(void *, size_t), *__libc_memalign(size_t, size_t);
void *malloc(size_t bytes) {
  allocations++;
  return __libc_malloc(bytes);
}
void *calloc(size_t count, size_t bytes) {
  allocations++;
  return __libc_calloc(count, bytes);
}
void *realloc(void *old, size_t bytes) {
  allocations++;
  return __libc_realloc(old, bytes);
}
void *aligned_alloc(size_t align, size_t bytes) {
  allocations++;
  return __libc_memalign(align, bytes);
}

static long at_start, at_end;

/* The bodies run between the opening and the end: the first call of all comes after each thread was started. */
static void sends(tower_caller *c, void *arg) {
  (void)arg;
  at_start = allocations;
  for (uint64_t k = 0; k < 1000; k++) is("send", k % 2 ? tower_send(c, 0, &k, 1) : tower_send_bytes(c, 0, &k, 8), TOWER_OK);
  is("close", tower_close(c, 0), TOWER_OK);
}

static void receives(tower_caller *c, void *arg) {
  uint64_t words[8];
  size_t count, many = 0;
  (void)arg;
  while (!tower_recv(c, 0, words, &count)) many++;
  is("received", many, 1000);
  is("send", tower_send(c, 1, words, 1), TOWER_OK);
  at_end = allocations;
}

static void counted(void) {
  tower_rest rest[2];
  tower_body *const bodies[] = {sends, receives};
  is("run", tower_run((uint8_t[]){4, 32}, 2, 2, bodies, 0, rest), TOWER_OK);
  is("opening takes memory", at_start > 0, 1);
  is("calls take none", at_end, at_start);
  is("rest", rest[1].count, 1);
}

/* Leaving and shutting take none either. */
static void to_the_end(void) {
  tower *t;
  tower_caller *c;
  tower_rest rest[TOWER_BUFFERS];
  uint8_t capacities[TOWER_BUFFERS];
  const uint64_t most = TOWER_CAPACITY, all = most * TOWER_BUFFERS;
  memset(capacities, TOWER_CAPACITY, sizeof capacities);
  is("open", tower_open(&t, capacities, TOWER_BUFFERS, TOWER_CALLERS), TOWER_OK);
  long before = allocations;
  is("take", tower_take(t, &c), TOWER_OK);
  for (uint64_t k = 0; k < all; k++) is("send", tower_send(c, k / most, (uint64_t[]){k, k, k, k, k, k, k, k}, 8), TOWER_OK);
  is("leave", tower_leave(c), TOWER_OK);
  is("shut", tower_shut(t, rest), TOWER_OK);
  is("none of that takes memory", allocations, before);
  for (uint64_t k = 0; k < all; k++)
    is("rest", rest[k / most].messages[k % most].words[7] + 100 * rest[k / most].messages[k % most].count, k + 800);
}

static long addresses(void) {
  long pages = 0;
  FILE *file = fopen("/proc/self/statm", "r");
  if (!file) return 0;
  if (fscanf(file, "%ld", &pages) != 1) pages = 0;
  fclose(file);
  return pages * 4096;
}

static void limited(void) {
  int seen[128] = {0};
  uint8_t capacities[TOWER_BUFFERS];
  struct rlimit was, now;
  memset(capacities, TOWER_CAPACITY, sizeof capacities);
  getrlimit(RLIMIT_AS, &was);
  long first = addresses();
  for (long room = 0; room < 60l << 20; room += 480l << 10) {
    tower *t = 0;
    now = was;
    now.rlim_cur = first + room;
    setrlimit(RLIMIT_AS, &now);
    int status = tower_open(&t, capacities, TOWER_BUFFERS, TOWER_CALLERS);
    setrlimit(RLIMIT_AS, &was);
    seen[status & 127]++;
    if (!status) is("shut", tower_shut(t, 0), TOWER_OK);
  }
  is("each opens, or has no memory or no thread", seen[TOWER_OK] + seen[TOWER_NO_MEMORY] + seen[TOWER_NO_THREAD], 128);
  is("some of each kind", seen[TOWER_OK] > 0 && seen[TOWER_NO_MEMORY] > 0 && seen[TOWER_NO_THREAD] > 0, 1);
  is("less than 4 MB are kept", addresses() - first < 4l << 20, 1);
}

int main(void) {
  counted();
  to_the_end();
  limited();
  return ended();
}
