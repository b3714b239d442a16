/* How much of a caller's stack is used: sixteen callers make calls of each kind, and wait in them; then the kernel says how much of each stack was touched.

   stacks KILOBYTES: a row fails if one took more, of the 2048 that there are. */
#include "scene.h"
#include <stdatomic.h>
#include <stdlib.h>
#include <string.h>

enum { CALLERS = 16, EACH = 20, STACK_KILOBYTES = 2048 };
static atomic_int done;
static int stacks;
static long most;

/* Reads /proc/self/smaps: the mappings of a stack's size, and the largest part of one that is in memory. */
static void look(void) {
  char line[512];
  long size = 0, used;
  FILE *file = fopen("/proc/self/smaps", "r");
  while (file && fgets(line, sizeof line, file)) {
    if (sscanf(line, "Size: %ld kB", &size) == 1 || sscanf(line, "Rss: %ld kB", &used) != 1 || size != STACK_KILOBYTES) continue;
    stacks++;
    most = used > most ? used : most;
  }
  if (file) fclose(file);
}

/* Sends to the next caller's buffer and receives from its own, with wrong calls in between. The last one looks, while all callers are there. */
static void calls(tower_caller *c, void *arg) {
  size_t own = (uintptr_t)arg, count;
  uint64_t words[8] = {own};
  for (int k = 0; k < EACH; k++) {
    is("send", tower_send(c, (own + 1) % CALLERS, words, 8), TOWER_OK);
    is("recv", tower_recv(c, own, words, &count), TOWER_OK);
    is("a wrong call", tower_send(c, 99, words, 1), TOWER_BAD_BUFFER);
  }
  if (++done == CALLERS) look();
  is("close", tower_close(c, own), TOWER_OK);
  is("recv", tower_recv(c, own, words, &count), TOWER_CLOSED);
}

int main(int words, char **word) {
  if (words < 2) return 2;
  tower_body *bodies[CALLERS];
  void *args[CALLERS];
  uint8_t capacities[CALLERS];
  memset(capacities, 1, sizeof capacities);
  for (uintptr_t k = 0; k < CALLERS; k++) bodies[k] = calls, args[k] = (void *)k;
  is("run", tower_run(capacities, CALLERS, CALLERS, bodies, args, 0), TOWER_OK);
  is("a stack for each caller", stacks >= CALLERS, 1);
  is("the most that one took is at most so much", most <= atol(word[1]), 1);
  printf("a caller's stack: at most %ld of %d KiB are used\n", most, STACK_KILOBYTES);
  return ended();
}
