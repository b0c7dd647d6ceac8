# Calls two functions in turn through a register, whose addresses lie in a table.
# Registers: $8 calls left, $9 the table, $10 the place in it, $11 the function, $16 the sum.
            lui $8,0x7fff
            lui $9,%hi(table)
            addiu $9,$9,%lo(table)
            lui $11,%hi(add)
            addiu $11,$11,%lo(add)
            sw $11,0($9)
            lui $11,%hi(turn)
            addiu $11,$11,%lo(turn)
            sw $11,4($9)
            addiu $10,$0,0
next:
            addu $11,$9,$10
            lw $11,0($11)
            xori $10,$10,4
            jalr $31,$11
            addiu $8,$8,-1
            bne $8,$0,next
            sll $0,$0,0
            addiu $2,$0,1
            addiu $4,$0,0
            syscall 0
add:
            addiu $16,$16,3
            jr $31
            addu $16,$16,$8
turn:
            srl $12,$16,3
            jr $31
            xor $16,$16,$12
            .data
table:
            .space 8
