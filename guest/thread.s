# A thread's variables: where the compiler asks the processor for their place, the program looks into a word that it has set when it began.
        .macro  rdhwr register, number
        lui     \register, %hi(__nested_thread)
        lw      \register, %lo(__nested_thread)(\register)
        .endm
