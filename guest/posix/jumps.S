# Jumps that keep the mask of signals, or have another name: they go on in setjmp and longjmp, which return to the caller.
        .text
        .globl  sigsetjmp
        .ent    sigsetjmp
sigsetjmp:                              # the registers stand first, so setjmp takes the same address
        addiu   $29, $29, -32
        sw      $31, 28($29)
        sw      $4, 24($29)
        jal     nested_keep_mask
        lw      $4, 24($29)
        lw      $31, 28($29)
        addiu   $29, $29, 32
        j       setjmp
        .end    sigsetjmp

        .globl  _setjmp
        .ent    _setjmp
_setjmp:
        j       setjmp
        .end    _setjmp

        .globl  _longjmp
        .ent    _longjmp
_longjmp:
        j       longjmp
        .end    _longjmp
