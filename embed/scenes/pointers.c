/* A producer gives records away by their addresses; the consumer reads and frees them. What was written before the send is there after the receive. */
#include "scene.h"
#include <stdlib.h>
#include <string.h>

#ifndef EACH
#define EACH 2000
#endif
struct record {
  uint64_t number;
  char text[200];
};

static void produce(tower_caller *c, void *arg) {
  (void)arg;
  for (uint64_t i = 0; i < EACH; i++) {
    struct record *r = malloc(sizeof *r);
    r->number = i;
    memset(r->text, (int)i, sizeof r->text);
    uint64_t word = (uintptr_t)r;
    is("send", tower_send(c, 0, &word, 1), TOWER_OK);
  }
  tower_close(c, 0);
}

static void consume(tower_caller *c, void *arg) {
  uint64_t words[8], *sum = arg;
  size_t count;
  while (!tower_recv(c, 0, words, &count)) {
    struct record *r = (struct record *)(uintptr_t)words[0];
    is("text", r->text[199], (char)r->number);
    *sum += r->number;
    free(r);
  }
}

int main(void) {
  uint64_t sum = 0;
  tower_body *const bodies[] = {produce, consume};
  is("run", tower_run((uint8_t[]){8}, 1, 2, bodies, (void *[]){0, &sum}, 0), TOWER_OK);
  is("sum", sum, (uint64_t)EACH * (EACH - 1) / 2);
  return ended();
}
