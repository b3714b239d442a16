/* QEMU's `virt` of RISC-V, with SBI: harts in supervisor mode. */

/* What a trap keeps: registers, as start.S numbers them. tp is a hart's own. */
struct __attribute__((aligned(16))) frame { size registers[29], floats[32], control, at, flags, stack; };
#include "by_tree/tree.h"

#define MEMORY_START ((size)0x80200000)
#define FIRST_FRAME .flags = 0x2120 /* in supervisor mode, with interrupts and floats */

/* Bits of a page entry: it is there, and may be read, written, run; it was used, and written. */
enum { ENTRY_SHIFT = 2, TABLE = 1, LARGE = 0 };
static const size page_bits[] = {[CODE] = 0xCB, [CONSTANT] = 0xC3, [DATA] = 0xC7, [DEVICE] = 0xC7};

static inline void interrupts_off(void) { __asm__ volatile("csrci sstatus, 2" : : : "memory"); }
static inline void interrupts_on(void) { __asm__ volatile("csrsi sstatus, 2" : : : "memory"); }
static inline void idle(void) { __asm__ volatile("wfi" : : : "memory"); }
/* A halt that an interrupt of its own ends at once: where QEMU runs harts by turns, it passes the turn on, and a hint to wait does not. */
static inline void pause(void) { __asm__ volatile("csrsi sip, 2; wfi" : : : "memory"); }
/* A trap, by which a thread gives its hart back. */
static inline void leave(void) { __asm__ volatile(".option push; .option norvc; ebreak; .option pop" : : : "memory"); }
