/* What the files of the host share. The host stands beneath the proved program in the place of an operating system and a C library: one run, from
   the boot to the halt. Nothing proves it. Each function that the program calls keeps what the kit's libc/src and os/src say of the C function of its
   name, which the proofs take as given. An argument that is C's int has type long here and is cut, since the program leaves its upper half open.
   Interrupts are on in threads, but for the host's functions where these hold a lock; in a processor's own loop they are on in its halt.
   Each access of what is _Atomic is one step, and all of these have one order. */
typedef unsigned long size;
typedef unsigned char byte;

enum { PAGE = 4096, LARGE_PAGE = 1 << 21, STACK_BYTES = 1 << 20, GUARD_BYTES = 1 << 16, MOST_PROCESSORS = 64, MOST_THREADS = 64 };
enum { WRONG_FILE = 9, TRY_AGAIN = 11, INVALID = 22, NO_SEEK = 29, NO_CALL = 38 }; /* error numbers of C */

/* How a run ends that the program does not end: statuses that it has not. */
enum status { NO_ROOM = 119, LONG_WORDS, NO_PROCESSOR, ALL_WAIT, ABORTED = 124, TRAPPED };

/* How far a thread is. In between two of its turns it is READY, or WAITS for a wake. */
enum state { RESTS, READY, WAITS, ENDS, ENDED };

/* Why a processor is in its loop: an interrupt was to end its halt, or ended a slice of time, or what ran gave it back. */
enum reason { WOKEN, TICKED, GAVE_BACK };

/* What a page may be used for. */
enum kind { NO_PAGE, CODE, CONSTANT, DATA, DEVICE };

#include "machine.h" /* of the processor's own: its instructions, its registers, its tables, the bits of its page entries */

struct thread {
  struct frame frame; /* its registers, while it does not run */
  _Atomic int state;
  struct processor *_Atomic at;   /* the one that runs it, from its first turn to its last */
  size wakes;                     /* how many had come when it began to wait */
  void *(*start)(void *), *value; /* what it runs; what that is given, and then what it returned */
  int error_number, is_detached;
};

/* A processor: what it runs, its tables, and the stack of its own loop, up to its end. */
struct __attribute__((aligned(PAGE))) processor {
  byte *stack_end; /* machine.h and start.S read this and the next two */
  struct processor *self;
  struct tables tables;          /* and where a trap keeps registers: in the record of the thread that runs, or in `halted` */
  struct thread *runs, *last;    /* or 0 in its own loop; and the one that ran last */
  unsigned number, threads, yields; /* the machine's name for it; threads that it has; how many of them yielded one after the other */
  _Atomic int is_halted;         /* or has not begun */
  struct frame halted;
  byte stack[6144] __attribute__((aligned(16)));
};

/* start.S and link.ld */
extern byte image_start[], text_end[], constants_end[], image_end[];
_Noreturn void resume(const struct frame *it);

/* memory.c */
struct region { size start, end; };
struct tried { size ok; byte *p; }; /* whether there is room, and where */
extern struct region input; /* of standard input, what is still to be read */
extern size directories[4 * 512], stacks;
extern unsigned stack_count;
void *memcpy(void *to, const void *from, size bytes), *memmove(void *to, const void *from, size bytes);
int begins_with(const char *text, const char *wanted), is_same(const char *text, const char *wanted), is_guard(size address);
void lock(int *it), unlock(int *it), has_memory(size start, size end);
void set_page(size at, enum kind kind), set_pages(void), set_memory(void), begin_heap(void);

/* streams.c: a serial line is a register for bytes, and one of two bits: it takes a byte, it has one; `flip` are bits that say so by 0 */
struct line { size at; byte status, flip, takes, has; };
extern struct line lines[3]; /* by the descriptor: what is typed, standard output, standard error */
extern int is_listening, is_shell, is_echoed;
struct line line_16550(size at);
void say(long fd, const char *text), say_number(const char *what, size number, unsigned base), has_words(const char *text), set_words(const char *text);
void take_first_word(void), take_typed(void), show(long fd, byte one);
byte ask_key(void);
int key(void);
long read(long fd, byte *buffer, size room), write(long fd, const byte *bytes, size count);
_Noreturn void ends(const char *why, enum status status), _exit(long status);
_Noreturn void tell_trap(const char *what, size number, size error, const struct frame *it, size address);

/* threads.c */
extern struct processor processors[MOST_PROCESSORS];
extern unsigned processor_count;
extern _Atomic size wakes; /* that have come, of all words and ends */
void *run_program(void *none);
int wake_all(void), give_back(enum state state), pthread_create(size *thread, const size *attributes, void *(*start)(void *), void *value);
int pthread_join(size thread, void **value);
long fails(int error), call_system(long number, unsigned *word, long operation, long value);
void has_processor(unsigned number), waits(size had_come), pthread_exit(void *value);
_Noreturn void work(enum reason why), begin_program(void), other_processor(struct processor *it);

void *shell(void *none); /* shell.c */

/* the machine's own */
void set_tables(struct processor *it), forget_pages(void);
void end_halts(void), set_timer(size nanoseconds), call_others(void), microsecond(void), listen(void);
void power_off(int status); /* returns where nothing ends the machine */
