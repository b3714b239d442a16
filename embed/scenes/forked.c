/* A child of the process has no tower of its parent's, and may open its own. The parent's goes on. */
#include "scene.h"
#include <sys/wait.h>
#include <unistd.h>

static void in_child(tower *t, tower_caller *c) {
  uint64_t words[8] = {1};
  size_t count;
  tower_caller *other;
  is("send", tower_send(c, 0, words, 1), TOWER_FORKED);
  is("recv", tower_recv(c, 0, words, &count), TOWER_FORKED);
  is("send_bytes", tower_send_bytes(c, 0, words, 1), TOWER_FORKED);
  is("recv_bytes", tower_recv_bytes(c, 0, words, &count), TOWER_FORKED);
  is("close", tower_close(c, 0), TOWER_FORKED);
  is("leave", tower_leave(c), TOWER_FORKED);
  is("take", tower_take(t, &other), TOWER_FORKED);
  is("left", tower_left(t, 0, &count), TOWER_FORKED);
  is("shut", tower_shut(t, 0), TOWER_FORKED);
  is("open", tower_open(&t, (uint8_t[]){1}, 1, 1), TOWER_OK);
  is("take", tower_take(t, &other), TOWER_OK);
  is("send", tower_send(other, 0, words, 1), TOWER_OK);
  is("recv", tower_recv(other, 0, words, &count), TOWER_OK);
  is("leave", tower_leave(other), TOWER_OK);
  is("shut", tower_shut(t, 0), TOWER_OK);
}

int main(void) {
  tower *t;
  tower_caller *c;
  tower_rest rest[1];
  int status = 1;
  is("open", tower_open(&t, (uint8_t[]){2}, 1, 2), TOWER_OK);
  is("take", tower_take(t, &c), TOWER_OK);
  is("send", tower_send(c, 0, (uint64_t[]){5}, 1), TOWER_OK);
  pid_t child = fork();
  if (!child) {
    in_child(t, c);
    _exit(ended());
  }
  is("the child ends", waitpid(child, &status, 0) == child && status == 0, 1);
  is("send", tower_send(c, 0, (uint64_t[]){6}, 1), TOWER_OK);
  is("leave", tower_leave(c), TOWER_OK);
  is("shut", tower_shut(t, rest), TOWER_OK);
  is("rest", rest[0].count * 10 + rest[0].messages[1].words[0], 26);
  return ended();
}
