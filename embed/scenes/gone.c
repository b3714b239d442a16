/* Not allowed: a call after the tower was shut. valgrind reports it. */
#include "tower.h"

int main(void) {
  tower *t;
  tower_caller *c;
  tower_open(&t, (uint8_t[]){1}, 1, 1);
  tower_take(t, &c);
  tower_leave(c);
  tower_shut(t, 0);
  return tower_send(c, 0, (uint64_t[]){1}, 1) != TOWER_GONE;
}
