# Worked sites: the halves of 10008004, a jump to 00400010, and the word 10000004.
        .set noreorder
        .text
        .globl __start
__start:
        lui $8,%hi(far)
        addiu $8,$8,%lo(far)
        jal step
        nop
        .globl step
step:   jr $31
        nop
        .data
        .globl near
near:   .word near+4
        .bss
        .space 0x7ff4
        .globl far
far:    .space 4
