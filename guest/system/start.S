# The first instructions of a guest. The loader leaves argc in $4, argv in $5, the stack in $29 and 0 elsewhere (docs/GUEST.md).
        .set    noreorder
        .text
        .globl  __start
        .ent    __start
__start:
        lui     $28, %hi(_gp)           # for code that was compiled with small data
        addiu   $28, $28, %lo(_gp)
        addiu   $29, $29, -32           # the room that a function of the O32 convention expects of its caller
        jal     nested_start
        move    $31, $0                 # nobody called: an unwinder ends here
        .end    __start
