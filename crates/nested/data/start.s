        .set noreorder
        .text
        .globl __start
__start:
        addiu $29,$29,-32
        jal main
        nop
        addu $4,$2,$0
        addiu $2,$0,1
        syscall
        .globl syscall3
syscall3:
        addu $2,$4,$0
        addu $4,$5,$0
        addu $5,$6,$0
        addu $6,$7,$0
        syscall
        jr $31
        nop
