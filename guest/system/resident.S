# What a resident program has for its host: Java calls its functions, and they call functions of Java. docs/HOST.md has the calls 64 to 68.
        .set    noreorder
        .text

        .equ    stubs, 256              # of each kind
        .equ    stub_bytes, 8
        .equ    frame, 48               # of a stub: what the O32 convention lets a function keep

# nested_resident(table) tells the host where the stubs stand, and then that the program is ready. It returns where the host calls no functions.
        .globl  nested_resident
        .ent    nested_resident
nested_resident:
        move    $8, $4
        lui     $4, %hi(word_stubs)
        addiu   $4, $4, %lo(word_stubs)
        lui     $5, %hi(wide_stubs)
        addiu   $5, $5, %lo(wide_stubs)
        addiu   $6, $0, stubs
        addiu   $7, $0, stub_bytes
        addiu   $2, $0, 68
        syscall
        move    $4, $8
        lui     $5, %hi(back)
        addiu   $5, $5, %lo(back)
        move    $6, $29
        move    $7, $28
        addiu   $2, $0, 64
        syscall
        jr      $31
        nop
        .end    nested_resident

# Where a function that the host has called returns to. By the stack pointer the host knows which of its calls this is, since longjmp may have
# left some.
back:
        move    $4, $2
        move    $5, $3
        move    $6, $29
        addiu   $2, $0, 65
        syscall
        break

# The stubs: the address of each is a function of Java for C. Those of the first row give one word, those of the second a pair.
word_stubs:
        .set    number, 0
        .rept   stubs
        b       call_for_word
        addiu   $2, $0, number
        .set    number, number + 1
        .endr
wide_stubs:
        .rept   stubs
        b       call_for_pair
        addiu   $2, $0, number
        .set    number, number + 1
        .endr

# call_java makes call 66 for the function of the number in $2. All arguments stand in memory then, one behind the other, and so does what the
# caller wants kept: the host may leave the run here and go on at go_on, for which it has to set the stack pointer alone.
        .macro  call_java
        sw      $4, 0($29)
        sw      $5, 4($29)
        sw      $6, 8($29)
        sw      $7, 12($29)
        move    $4, $2
        move    $5, $29
        addiu   $29, $29, -frame
        sw      $16, 0($29)
        sw      $17, 4($29)
        sw      $18, 8($29)
        sw      $19, 12($29)
        sw      $20, 16($29)
        sw      $21, 20($29)
        sw      $22, 24($29)
        sw      $23, 28($29)
        sw      $30, 32($29)
        sw      $28, 36($29)
        sw      $31, 40($29)
        move    $6, $29
        lui     $7, %hi(go_on)
        addiu   $7, $7, %lo(go_on)
        addiu   $2, $0, 66
        syscall
        .endm

# The host has answered in place, and no register but $2 is another one.
call_for_word:
        call_java
        jr      $31
        addiu   $29, $29, frame

call_for_pair:
        call_java
        move    $8, $2
        addiu   $2, $0, 67
        syscall
        move    $3, $2
        move    $2, $8
        jr      $31
        addiu   $29, $29, frame

# The host has left the run, and has put the answer where the first two arguments were.
go_on:
        lw      $16, 0($29)
        lw      $17, 4($29)
        lw      $18, 8($29)
        lw      $19, 12($29)
        lw      $20, 16($29)
        lw      $21, 20($29)
        lw      $22, 24($29)
        lw      $23, 28($29)
        lw      $30, 32($29)
        lw      $28, 36($29)
        lw      $31, 40($29)
        addiu   $29, $29, frame
        lw      $2, 0($29)
        jr      $31
        lw      $3, 4($29)
