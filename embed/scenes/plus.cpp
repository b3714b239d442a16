// From C++: objects, exceptions inside of a body, and a type for messages. A body is noexcept from C++17 on.
#include "scene.h"
#include <memory>
#include <stdexcept>
#include <string>

#if __cplusplus >= 201703L
#define BODY noexcept
#else
#define BODY
#endif

static void sends(tower_caller *c, void *) BODY {
  for (int k = 0; k < 100; k++) {
    std::string text(1 + k % TOWER_BYTES, 'a' + k % 26);
    is("send", tower_send_bytes(c, 0, text.data(), text.size()), TOWER_OK);
  }
  tower_close(c, 0);
}

static void receives(tower_caller *c, void *seen) BODY {
  std::unique_ptr<char[]> room(new char[TOWER_BYTES_ROOM]);
  std::size_t count;
  try {
    for (;;) {
      if (tower_recv_bytes(c, 0, room.get(), &count) != TOWER_OK) throw std::runtime_error("closed");
      *static_cast<std::string *>(seen) += std::string(room.get(), count).substr(0, 1);
    }
  } catch (const std::runtime_error &) {
  }
}

int main() {
  std::string seen;
  const std::uint8_t capacities[] = {4};
  tower_body *const bodies[] = {sends, receives};
  void *const args[] = {nullptr, &seen};
  is("run", tower_run(capacities, 1, 2, bodies, args, nullptr), TOWER_OK);
  is("received", seen.size(), 100);
  is("in order", seen.substr(0, 4) == "abcd", 1);
  return ended();
}
