# Adds 16,384 words of data into a sum that is turned left by one bit at each, again and again.
# Registers: $8 rounds left, $9 where, $10 where it ends, $11 the sum, $12 the word, $13 and $14 parts of the sum.
            lui $8,0x7fff
            addiu $11,$0,1
round:
            lui $9,%hi(words)
            addiu $9,$9,%lo(words)
            lui $10,%hi(behind)
            addiu $10,$10,%lo(behind)
next:
            lw $12,0($9)
            sll $13,$11,1
            srl $14,$11,31
            or $11,$13,$14
            addu $11,$11,$12
            addiu $9,$9,4
            bne $9,$10,next
            sw $11,-4($9)
            addiu $8,$8,-1
            bne $8,$0,round
            sll $0,$0,0
            addiu $2,$0,1
            addiu $4,$0,0
            syscall 0
            .data
words:
            .space 65536
behind:
            .word 0
