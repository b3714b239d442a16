# tower_switch(void **left, void *to): saves the registers that a callee keeps on this stack, stores the stack pointer in *left, and continues on the
# stack `to`, which was left in the same way. It is for x86-64 with System V's calling convention, without shadow stacks.
        .text
        .globl  tower_switch
        .type   tower_switch, @function
tower_switch:
        pushq   %rbp
        pushq   %rbx
        pushq   %r12
        pushq   %r13
        pushq   %r14
        pushq   %r15
        movq    %rsp, (%rdi)
        movq    %rsi, %rsp
        popq    %r15
        popq    %r14
        popq    %r13
        popq    %r12
        popq    %rbx
        popq    %rbp
        ret
        .size   tower_switch, .-tower_switch
        .section .note.GNU-stack,"",@progbits
