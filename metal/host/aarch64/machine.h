/* QEMU's `virt` of Arm, 64 bits, with PSCI and a GICv3: processors in EL1. Threads have a stack pointer of their own there, SP_EL0. */

/* What a trap keeps: registers, and float registers of two words. */
struct __attribute__((aligned(16))) frame { size registers[31], stack, at, flags, float_status, float_control, floats[64]; };
#include "by_tree/tree.h"

#define MEMORY_START ((size)0x40000000)
#define FIRST_FRAME .flags = 0x344 /* in EL1 on SP_EL0, with interrupts of the first kind alone */

/* Bits of a page entry: it is there, a page or a table; it was used; it is shared, or of devices; it is not written; it is not run. */
enum { ENTRY_SHIFT = 0, TABLE = 3, LARGE = 2, THERE = 3 | 1 << 10, SHARED = 3 << 8, OF_DEVICES = 1 << 2, NOT_WRITTEN = 1 << 7 };
#define NOT_RUN ((size)3 << 53)
static const size page_bits[] = {[CODE] = THERE | SHARED | NOT_WRITTEN, [CONSTANT] = THERE | SHARED | NOT_WRITTEN | NOT_RUN,
                                 [DATA] = THERE | SHARED | NOT_RUN, [DEVICE] = THERE | OF_DEVICES | NOT_RUN};

static inline void interrupts_off(void) { __asm__ volatile("msr daifset, #2" : : : "memory"); }
static inline void interrupts_on(void) { __asm__ volatile("msr daifclr, #2" : : : "memory"); }
static inline void idle(void) { __asm__ volatile("dsb sy; wfi" : : : "memory"); }
static inline void pause(void) { __asm__ volatile("yield" : : : "memory"); }
static inline void leave(void) { __asm__ volatile("svc #0" : : : "memory"); } /* a trap, by which a thread gives its processor back */

/* Its name by itself. */
static inline size own_name(void) { return __builtin_arm_rsr64("mpidr_el1") & 0xFFFFFF; }
