/* From what SBI leaves to C, on the first hart and on each other; and traps. Nothing proves this file.
   tp holds the record of the hart that runs: no code of the program or of the host's C changes it. */
        .set FRAME_END, 16              /* of a record, as host.h has it */
        .set NUMBER, 40
        .set PROCESSOR_BYTES, 8192
        .set FRAME_BYTES, 528           /* as machine.h has it: 29 registers, 32 floats, and four more */

        .section .boot, "ax"
        .global start
start:                                  /* a0: this hart; a1: the device tree, for the first one */
        la      tp, processors
        li      t1, PROCESSOR_BYTES
        lw      t0, processor_count
        bnez    t0, 1f
        add     sp, tp, t1
        call    first_processor
1:      lw      t0, NUMBER(tp)          /* another hart looks for its record */
        beq     t0, a0, 2f
        add     tp, tp, t1
        j       1b
2:      ld      sp, (tp)
        mv      a0, tp
        call    other_processor

/* each WORD, FLOAT: does this with each register but tp and sp. */
        .macro  each word, float
        .set    n, 0
        .irp    it, ra, gp, t0, t1, t2, t3, t4, t5, t6, s0, s1, s2, s3, s4, s5, s6, s7, s8, s9, s10, s11, a0, a1, a2, a3, a4, a5, a6, a7
        \word   \it, 8*n(sp)
        .set    n, n + 1
        .endr
        .irp    it, 0, 1, 2, 3, 4, 5, 6, 7, 8, 9, 10, 11, 12, 13, 14, 15, 16, 17, 18, 19, 20, 21, 22, 23, 24, 25, 26, 27, 28, 29, 30, 31
        \float  f\it, 8*n(sp)
        .set    n, n + 1
        .endr
        .endm

/* A trap keeps registers in a record, and tells C on the hart's own stack, from its end. */
        .text
        .global trap, resume
        .balign 4
trap:   csrw    sscratch, sp
        ld      sp, FRAME_END(tp)
        addi    sp, sp, -FRAME_BYTES
        each    sd, fsd
        .irp    it, fcsr, sepc, sstatus, sscratch
        csrr    t0, \it
        sd      t0, 8*n(sp)
        .set    n, n + 1
        .endr
        mv      a0, sp
        csrr    a1, scause
        csrr    a2, stval
        ld      sp, (tp)
        call    trapped

/* resume(record): goes on with what was kept. */
resume: mv      sp, a0
        .set    n, 61
        .irp    it, fcsr, sepc, sstatus, sscratch
        ld      t0, 8*n(sp)
        csrw    \it, t0
        .set    n, n + 1
        .endr
        each    ld, fld
        csrr    sp, sscratch
        sret
