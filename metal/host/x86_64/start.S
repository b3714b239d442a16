/* From what a boot loader leaves to C, on the first processor and on each other: a header for loaders, page tables, long mode, SSE; and traps. Nothing proves
   this file. */
        .set OTHERS_PAGE, 0x8000        /* as machine.h has it */
        .set PROCESSOR_BYTES, 8192      /* as host.h has it */
        .set MAGIC, 0x1BADB002          /* Multiboot 1; the addresses behind its flags are for loaders of ELF64 files */
        .set FLAGS, 0x00010007          /* modules on pages; tell of memory; a screen; the addresses count */
        .set FEATURES, 0x20100000       /* long mode, and pages that are not run */

/* Page tables, long mode and SSE; the jump into 64-bit code is left. */
        .macro  to_long_mode
        movl    $pml4, %eax
        movl    %eax, %cr3
        movl    $0x620, %eax            /* PAE, and SSE with its exceptions */
        movl    %eax, %cr4
        movl    $0xC0000080, %ecx       /* EFER: long mode, and pages that are not run; no instruction syscall */
        movl    $0x900, %eax
        xorl    %edx, %edx
        wrmsr
        movl    $0x80010033, %eax       /* paging, write protection, the FPU, protection */
        movl    %eax, %cr0
        .endm

        .section .boot, "awx"
        .code32
        .balign 8
header: .long MAGIC, FLAGS, -(MAGIC + FLAGS)
        .long header, image_start, image_end, image_end, start
        .long 0, 0, 0, 0                /* a screen of dots, of any size, if there is one */
        .global start
start:  cld
        movl    %eax, %edi              /* the loader's magic number */
        movl    %ebx, %esi              /* where it left what it tells */
        movl    $0x80000001, %eax
        cpuid
        andl    $FEATURES, %edx
        cmpl    $FEATURES, %edx
        jne     is_too_old
        lgdtl   gdt_here
        to_long_mode
        ljmpl   $0x08, $first64

/* It says so on the first serial line and on the screen, and ends with NO_PROCESSOR. */
is_too_old:
        movl    $too_old, %esi
        movl    $0xB8000, %edi
        movb    $0x0F, %ah
        movw    $0x3F8, %dx
1:      lodsb
        outb    %al, %dx
        stosw
        cmpb    $0, (%esi)
        jne     1b
        movb    $122, %al
        outb    %al, $0xF4
2:      hlt
        jmp     2b
too_old:
        .asciz "host: a processor without long mode, or without pages that are not run"

        .code64
first64:
        movl    $processors + PROCESSOR_BYTES, %esp
        movl    %esi, %esi              /* its upper half is new here */
        call    first_processor

/* Where another processor begins, in real mode: loader.c copies this to the page that is named to the processor. */
        .code16
        .global others_start, others_end
others_start:
        lgdtl   OTHERS_PAGE + (gdt_here - others_start)
        to_long_mode
        ljmpl   $0x08, $other64
gdt_here:
        .word   15
        .long   first_gdt
others_end:
first_gdt:
        .quad   0, 0x00AF9B000000FFFF   /* none, 64-bit code */

        .code64
other64:
        movl    $PROCESSOR_BYTES, %edi
        lock xaddq %rdi, next_up        /* each takes a record of its own */
        leaq    PROCESSOR_BYTES(%rdi), %rsp
        call    other_processor

/* Each trap begins behind the record that keeps registers. They are kept there, and C is told on the processor's own stack, from its end. */
        .text
        .global traps, resume
        .balign 16
traps:  .set    n, 0
        .rept   48
        .balign 16
        .if     n != 8 && (n < 10 || n > 14) && n != 17 && n != 21 && n != 29 && n != 30
        pushq   $0                      /* the processor pushes no error number */
        .endif
        pushq   $n
        jmp     trap
        .set    n, n + 1
        .endr
trap:   .irp    it, rax, rbx, rcx, rdx, rsi, rdi, rbp, r8, r9, r10, r11, r12, r13, r14, r15
        pushq   %\it
        .endr
        subq    $512, %rsp
        fxsave64 (%rsp)
        cld
        movq    %rsp, %rdi
        movq    %gs:0, %rsp
        call    trapped

/* resume(record): goes on with what was kept. */
resume: movq    %rdi, %rsp
        fxrstor64 (%rsp)
        addq    $512, %rsp
        .irp    it, r15, r14, r13, r12, r11, r10, r9, r8, rbp, rdi, rsi, rdx, rcx, rbx, rax
        popq    %\it
        .endr
        addq    $16, %rsp               /* the trap's number and its error number */
        iretq

/* The upper page tables; memory.c has the lower ones. Each is there, and its pages may be written. */
        .data
        .balign 4096
pml4:   .quad   pdpt + 3
        .balign 4096
pdpt:   .quad   directories + 3, directories + 0x1003, directories + 0x2003, directories + 0x3003
