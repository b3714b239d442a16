/* The verified thread tower for C and C++: bounded FIFO buffers between threads.

   A tower has at most 16 buffers, each for 1 to 32 messages of 1 to 8 words, and 1 to 16 callers. A caller makes one call at a time, in any thread. Each
   call returns TOWER_OK, or the reason why nothing was done. `errno` stays as it is. Memory is taken by tower_open and tower_run only.

   Not allowed, and not detected here:
   - a tower or a caller after tower_shut has returned TOWER_OK: valgrind reports the access to freed memory;
   - a call in a signal handler, since the handler may interrupt a call that holds a lock: the program then blocks forever, or gets TOWER_BUSY;
   - longjmp, or asynchronous cancellation (PTHREAD_CANCEL_ASYNCHRONOUS), out of a call, or longjmp out of a body of tower_run;
   - an exception out of a body of tower_run: C++17 rejects a body that is not `noexcept`, and earlier C++ ends in std::terminate.
   A signal that interrupts a call does not end the call. A call is no cancellation point. */
#ifndef TOWER_H
#define TOWER_H
#include <stddef.h>
#include <stdint.h>

#define TOWER_VERSION "0.5.0"

#if defined __cplusplus && __cplusplus >= 201703L
#define TOWER_NOTHROW noexcept
#else
#define TOWER_NOTHROW
#endif

#ifdef __cplusplus
extern "C" {
#endif

enum {
  TOWER_OK = 0,
  TOWER_NO_MEMORY = 1,     /* the allocator failed, or there is no room for the first stack */
  TOWER_NO_THREAD = 5,     /* there is no room for a caller's stack, or tower_run could not start a thread */
  TOWER_CLOSED = 16,       /* the buffer is closed and, for a receive, empty. The call counts in the order of all calls, and no message was moved */
  TOWER_BAD_BUFFER = 65,   /* there is no buffer of this number */
  TOWER_NO_WORDS = 66,     /* a message has at least one word, or one byte */
  TOWER_TOO_LONG = 67,     /* a message has at most TOWER_WORDS words, or TOWER_BYTES bytes */
  TOWER_BAD_CALLERS = 68,  /* there are 1 to TOWER_CALLERS callers */
  TOWER_BAD_BUFFERS = 69,  /* there are at most TOWER_BUFFERS buffers */
  TOWER_BAD_CAPACITY = 70, /* each capacity is 1 to TOWER_CAPACITY */
  TOWER_BUSY = 80,         /* the caller is in a call of another thread, or of the thread that a signal handler interrupted */
  TOWER_GONE = 81,         /* the caller has left */
  TOWER_NO_CALLER = 82,    /* all callers are taken */
  TOWER_NOT_LEFT = 83,     /* tower_shut: a caller that was taken has not left */
  TOWER_NULL = 84,         /* a null pointer where a value is read or written */
  TOWER_NO_PROCESSOR = 85, /* this processor lacks an instruction that the program was compiled for */
  TOWER_FORKED = 86,       /* this process is a child of the one that opened the tower */
  TOWER_NOT_BYTES = 87     /* tower_recv_bytes: the message was sent as words. All its bytes are written, 8 for each word */
};

enum {
  TOWER_WORDS = 8,      /* words of a message, at most */
  TOWER_BYTES = 63,     /* bytes of a message, at most */
  TOWER_BYTES_ROOM = 64, /* bytes that tower_recv_bytes may write */
  TOWER_BUFFERS = 16,
  TOWER_CALLERS = 16,
  TOWER_CAPACITY = 32 /* messages in a buffer, at most */
};

typedef struct tower tower;
typedef struct tower_caller tower_caller;
typedef struct {
  size_t count;
  uint64_t words[TOWER_WORDS];
} tower_message;
/* What is left in one buffer, front first. */
typedef struct {
  size_t count;
  tower_message messages[TOWER_CAPACITY];
} tower_rest;

/* Opens a tower with buffers of these capacities. If it fails, *opened is null. */
int tower_open(tower **opened, const uint8_t *capacities, size_t buffers, size_t callers) TOWER_NOTHROW;

/* Takes a caller that no thread has taken. If it fails, *taken is null. */
int tower_take(tower *t, tower_caller **taken) TOWER_NOTHROW;

/* Sends a message, once the buffer has room and it is this caller's turn. Blocks until then, or until the buffer is closed. */
int tower_send(tower_caller *c, size_t buffer, const uint64_t *words, size_t count) TOWER_NOTHROW;

/* Receives the oldest message, once there is one and it is this caller's turn. Writes *count and at most TOWER_WORDS words. Blocks until then, or until
   the buffer is closed and empty. */
int tower_recv(tower_caller *c, size_t buffer, uint64_t *words, size_t *count) TOWER_NOTHROW;

/* The same, for 1 to TOWER_BYTES bytes. `bytes` of tower_recv_bytes has room for TOWER_BYTES_ROOM. */
int tower_send_bytes(tower_caller *c, size_t buffer, const void *bytes, size_t count) TOWER_NOTHROW;
int tower_recv_bytes(tower_caller *c, size_t buffer, void *bytes, size_t *count) TOWER_NOTHROW;

/* Closes a buffer: each later send returns TOWER_CLOSED, and so does each later receive once the buffer is empty. */
int tower_close(tower_caller *c, size_t buffer) TOWER_NOTHROW;

/* The caller makes no more calls. Its handle returns TOWER_GONE until the tower is shut. */
int tower_leave(tower_caller *c) TOWER_NOTHROW;

/* How many messages are in a buffer: exact while no call on it is running, else an estimate. */
int tower_left(const tower *t, size_t buffer, size_t *count) TOWER_NOTHROW;

/* Shuts the tower once each caller that was taken has left, and writes what is left in each buffer to `rest`, which may be null. The tower and its callers
   are freed then. */
int tower_shut(tower *t, tower_rest *rest) TOWER_NOTHROW;

/* Opens a tower, calls bodies[k](caller, args[k]) in its own new thread for each k, joins all threads, and shuts the tower. `args` and `rest` may be
   null. A body may end its thread by pthread_exit. */
typedef void tower_body(tower_caller *c, void *arg) TOWER_NOTHROW;
int tower_run(const uint8_t *capacities, size_t buffers, size_t callers, tower_body *const *bodies, void *const *args, tower_rest *rest) TOWER_NOTHROW;

/* A sentence about a status, which lives forever; of an unknown status, "unknown status". */
const char *tower_text(int status) TOWER_NOTHROW;

/* The version of the library, as TOWER_VERSION. */
const char *tower_version(void) TOWER_NOTHROW;

#ifdef __cplusplus
}
#endif
#endif
