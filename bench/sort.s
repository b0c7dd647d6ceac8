# Fills 256 words with a row of pseudo-random numbers and sorts them by insertion, again and again.
# Registers: $8 rounds left, $9 the words, $10 where they end, $11 where, $12 the number, $13 and $14 for comparing, $15 the place.
            lui $8,0x7fff
            addiu $12,$0,1
            lui $9,%hi(words)
            addiu $9,$9,%lo(words)
            addiu $10,$9,1024
round:
            addu $11,$9,$0
fill:
            sll $13,$12,13
            xor $12,$12,$13
            srl $13,$12,17
            xor $12,$12,$13
            sll $13,$12,5
            xor $12,$12,$13
            sw $12,0($11)
            addiu $11,$11,4
            bne $11,$10,fill
            sll $0,$0,0
            addiu $11,$9,4
outer:
            lw $16,0($11)
            addu $15,$11,$0
inner:
            beq $15,$9,put
            sll $0,$0,0
            lw $13,-4($15)
            sltu $14,$16,$13
            beq $14,$0,put
            sll $0,$0,0
            sw $13,0($15)
            beq $0,$0,inner
            addiu $15,$15,-4
put:
            sw $16,0($15)
            addiu $11,$11,4
            bne $11,$10,outer
            sll $0,$0,0
            addiu $8,$8,-1
            bne $8,$0,round
            sll $0,$0,0
            addiu $2,$0,1
            addiu $4,$0,0
            syscall 0
            .data
words:
            .space 1024
