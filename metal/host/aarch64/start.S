/* From Linux' boot protocol to C, on the first processor and on each other; and traps. Nothing proves this file. tpidr_el1 holds the record of the processor
   that runs. */
        .set PROCESSOR_BYTES, 8192      /* as host.h has it */
        .set FRAME_BYTES, 800           /* as machine.h has it */
        .set FLOATS, 288

        .section .boot, "ax"
        .global start, others_start
start:  b       1f                      /* the header of Linux' boot protocol */
        .long   0
        .quad   0x200000                /* from a start of 2 MiB */
        .quad   image_size
        .quad   0xA, 0, 0, 0
        .long   0x644D5241, 0
1:      ldr     x9, =processors + PROCESSOR_BYTES
        mov     sp, x9
        bl      first_processor         /* x0: the device tree */

others_start:                           /* x0: its record */
        ldr     x9, [x0]
        mov     sp, x9
        bl      other_processor

/* each ACT: does this with each register, and with each float register. */
        .macro  each act
        .irp    it, 0, 1, 2, 3, 4, 5, 6, 7, 8, 9, 10, 11, 12, 13, 14, 15, 16, 17, 18, 19, 20, 21, 22, 23, 24, 25, 26, 27, 28, 29, 30
        \act    x\it, [sp, #8*\it]
        .endr
        .irp    it, 0, 1, 2, 3, 4, 5, 6, 7, 8, 9, 10, 11, 12, 13, 14, 15, 16, 17, 18, 19, 20, 21, 22, 23, 24, 25, 26, 27, 28, 29, 30, 31
        \act    q\it, [sp, #FLOATS + 16*\it]
        .endr
        .endm

        .text
        .global vectors, resume
        .balign 2048
vectors:
        .rept   16
        .balign 128
        b       trap
        .endr

/* A trap begins behind the record that keeps registers. They are kept there, and C is told on the processor's own stack, from its end. */
trap:   sub     sp, sp, #FRAME_BYTES
        each    str
        .set    n, 31
        .irp    it, sp_el0, elr_el1, spsr_el1, fpsr, fpcr
        mrs     x0, \it
        str     x0, [sp, #8*n]
        .set    n, n + 1
        .endr
        mov     x0, sp
        mrs     x9, tpidr_el1
        ldr     x9, [x9]
        mov     sp, x9
        bl      trapped

/* resume(record): goes on with what was kept. */
resume: mov     sp, x0
        .set    n, 31
        .irp    it, sp_el0, elr_el1, spsr_el1, fpsr, fpcr
        ldr     x0, [sp, #8*n]
        msr     \it, x0
        .set    n, n + 1
        .endr
        each    ldr
        add     sp, sp, #FRAME_BYTES
        eret
