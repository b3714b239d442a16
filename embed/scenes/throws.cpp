// C++17 does not compile this: the body is not noexcept.
#include "tower.h"

static void throws(tower_caller *, void *) { throw 1; }

int main() {
  tower_body *const bodies[] = {throws};
  return tower_run(nullptr, 0, 1, bodies, nullptr, nullptr);
}
