/* Over trial.c with -DENDS=1: the program ends before it opens. It is a status, and the process goes on. */
#include "scene.h"

int main(void) {
  tower *t;
  is("open", tower_open(&t, (uint8_t[]){1}, 1, 1), TOWER_NO_PROCESSOR);
  is("the handle is null then", t == 0, 1);
  return ended();
}
