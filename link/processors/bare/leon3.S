/* A LEON3 (SPARC V8, 8 register windows): its table of traps, of which the two of windows are handled, and its start. */
    .macro trap to
    ba \to
    nop
    nop
    nop
    .endm

    .section .start, "ax"
    .globl start
    .align 4096
table:
    trap start
    .rept 4
    trap stop
    .endr
    trap overflow
    trap underflow
    .rept 249
    trap stop
    .endr

start:
    set table, %g1
    wr %g1, 0, %tbr
    wr %g0, 2, %wim
    wr %g0, 0xFC0, %psr /* window 0, supervisor, no interrupts, traps off */
    nop
    nop
    nop
    wr %g0, 0xFE0, %psr /* traps on */
    nop
    nop
    nop
    set stack_top - 96, %sp
    mov 0, %fp
    call bare_start
    nop

stop: /* a trap while traps are off ends QEMU's LEON3 */
    wr %g0, 0xFC0, %psr
    nop
    nop
    nop
    ta 0
    ba stop
    nop

overflow: /* the oldest window goes to its stack */
    mov %wim, %l3
    mov %g1, %l7
    srl %l3, 1, %g1
    sll %l3, 7, %l4
    or %l4, %g1, %g1
    save
    wr %g1, 0, %wim
    nop
    nop
    nop
    std %l0, [%sp]
    std %l2, [%sp + 8]
    std %l4, [%sp + 16]
    std %l6, [%sp + 24]
    std %i0, [%sp + 32]
    std %i2, [%sp + 40]
    std %i4, [%sp + 48]
    std %i6, [%sp + 56]
    restore
    mov %l7, %g1
    jmp %l1
    rett %l2

underflow: /* the window of the caller comes from its stack */
    mov %wim, %l3
    sll %l3, 1, %l4
    srl %l3, 7, %l5
    or %l5, %l4, %l5
    wr %l5, 0, %wim
    nop
    nop
    nop
    restore
    restore
    ldd [%sp], %l0
    ldd [%sp + 8], %l2
    ldd [%sp + 16], %l4
    ldd [%sp + 24], %l6
    ldd [%sp + 32], %i0
    ldd [%sp + 40], %i2
    ldd [%sp + 48], %i4
    ldd [%sp + 56], %i6
    save
    save
    jmp %l1
    rett %l2
