# What another object may define, and need.
        .set noreorder
        .text
        .globl leave
leave:  syscall
        .globl helper
helper: j step
        nop
        .globl limit
        limit = 0x12345678
        .data
        .word limit, step, helper
