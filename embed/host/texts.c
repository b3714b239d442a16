/* What a status means, in a sentence; the version. */
#include "../tower.h"

const char *tower_text(int status) {
  switch (status) {
    case TOWER_OK: return "done";
    case TOWER_NO_MEMORY: return "out of memory";
    case TOWER_NO_THREAD: return "no room for a caller's stack, or a thread could not be started";
    case TOWER_CLOSED: return "the buffer is closed";
    case TOWER_BAD_BUFFER: return "no buffer has this number: the first is 0";
    case TOWER_NO_WORDS: return "a message has at least one word or byte";
    case TOWER_TOO_LONG: return "a message has at most 8 words or 63 bytes";
    case TOWER_BAD_CALLERS: return "a tower has 1 to 16 callers";
    case TOWER_BAD_BUFFERS: return "a tower has at most 16 buffers";
    case TOWER_BAD_CAPACITY: return "a buffer holds 1 to 32 messages";
    case TOWER_BUSY: return "the caller is in a call: it makes one call at a time";
    case TOWER_GONE: return "the caller has left";
    case TOWER_NO_CALLER: return "all callers of the tower are taken";
    case TOWER_NOT_LEFT: return "a caller that was taken has not left";
    case TOWER_NULL: return "a null pointer";
    case TOWER_NO_PROCESSOR: return "this processor lacks an instruction that the program was compiled for";
    case TOWER_FORKED: return "this process is a child of the one that opened the tower";
    case TOWER_NOT_BYTES: return "the message was sent as words";
    default: return "unknown status";
  }
}

const char *tower_version(void) { return TOWER_VERSION; }
