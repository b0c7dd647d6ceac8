# Copies 65,536 bytes of data one by one, again and again.
# Registers: $8 rounds left, $9 from, $10 to, $11 where $9 ends, $12 the byte.
            lui $8,0x7fff
round:
            lui $9,%hi(from)
            addiu $9,$9,%lo(from)
            lui $10,%hi(to)
            addiu $10,$10,%lo(to)
            lui $11,%hi(to)
            addiu $11,$11,%lo(to)
next:
            lbu $12,0($9)
            addiu $9,$9,1
            sb $12,0($10)
            bne $9,$11,next
            addiu $10,$10,1
            addiu $8,$8,-1
            bne $8,$0,round
            sll $0,$0,0
            addiu $2,$0,1
            addiu $4,$0,0
            syscall 0
            .data
from:
            .space 65536
to:
            .space 65536
