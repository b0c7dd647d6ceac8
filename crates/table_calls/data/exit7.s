# It leaves with status 7.
        .set noreorder
        .text
        .globl __start
__start:
        addiu $2,$0,1
        addiu $4,$0,7
        syscall
