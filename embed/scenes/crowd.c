/* Sixteen callers at one buffer finish: eight send, eight receive. Then towers for sixteen callers are opened.

   crowd MESSAGES CAPACITY MILLISECONDS: a row fails if the median opening takes more processor time. */
#include "scene.h"
#include <stdatomic.h>
#include <stdlib.h>
#include <string.h>

enum { SIDE = 8, OPENINGS = 21 };
static uint64_t each;
static atomic_ullong sum, received;
static atomic_int done;

static void sends(tower_caller *c, void *arg) {
  (void)arg;
  for (uint64_t k = 1; k <= each; k++) is("send", tower_send(c, 0, &k, 1), TOWER_OK);
  if (++done == SIDE) is("close", tower_close(c, 0), TOWER_OK);
}

static void receives(tower_caller *c, void *arg) {
  uint64_t words[8];
  size_t count;
  (void)arg;
  for (; !tower_recv(c, 0, words, &count); received++) sum += words[0];
}

static int later(const void *a, const void *b) { return *(const double *)a > *(const double *)b ? 1 : -1; }

static double opening(void) {
  double took[OPENINGS];
  uint8_t capacities[TOWER_BUFFERS];
  memset(capacities, TOWER_CAPACITY, sizeof capacities);
  for (int k = 0; k < OPENINGS; k++) {
    tower *t;
    double began = seconds(CLOCK_THREAD_CPUTIME_ID);
    is("open", tower_open(&t, capacities, TOWER_BUFFERS, TOWER_CALLERS), TOWER_OK);
    took[k] = 1000 * (seconds(CLOCK_THREAD_CPUTIME_ID) - began);
    is("shut", tower_shut(t, 0), TOWER_OK);
  }
  qsort(took, OPENINGS, sizeof *took, later);
  return took[OPENINGS / 2];
}

int main(int words, char **word) {
  tower_body *bodies[2 * SIDE];
  if (words < 4) return 2;
  each = atoi(word[1]) / SIDE;
  for (int k = 0; k < SIDE; k++) bodies[k] = sends, bodies[SIDE + k] = receives;
  double began = seconds(CLOCK_MONOTONIC);
  is("run", tower_run((uint8_t[]){atoi(word[2])}, 1, 2 * SIDE, bodies, 0, 0), TOWER_OK);
  double took = seconds(CLOCK_MONOTONIC) - began, opens = opening();
  is("received", received, SIDE * each);
  is("sum", sum, SIDE * (each * (each + 1) / 2));
  is("the median opening takes at most so long", opens <= atof(word[3]), 1);
  printf("sixteen callers: %.0f messages a second; opening for sixteen: %.1f ms of processor time\n", SIDE * each / took, opens);
  return ended();
}
