/* A RISC-V in machine mode: the first core goes on, the others wait. */
    .section .start, "ax"
    .option arch, +zicsr
    .globl start
start:
    csrr a0, mhartid
    bnez a0, wait
    la sp, stack_top
    call bare_start
wait:
    wfi
    j wait
