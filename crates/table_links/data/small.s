# A guest with each kind of section, symbol and relocation: it exits with 7.
        .set noreorder
        .text
        .globl __start
__start:
        lui $9,%hi(missing)
        addiu $9,$9,%lo(missing)
        lui $8,%hi(table)
        lw $8,%lo(table)($8)
        jalr $8
        nop
        jal leave
        addiu $2,$0,1
        .weak leave
leave:  syscall
        .weak missing
        .section .rodata
        .globl addresses
addresses:
        .word step, counter, missing
        .data
table:  .word step+4
        .bss
counter: .space 6
        .text
        .globl step
step:   addiu $4,$0,1
        jr $31
        addiu $4,$0,7
