/*
 * Arithmetic of IEEE 754 in software, for a processor that multiplies words of 32 bits to 64, divides them, and has no instruction that counts zeros.
 * These files take the place of the compiler's own routines (soft-fp of libgcc) of the same names, with the same results: rounded to nearest, ties to
 * even, and no number is as MIPS has it. An operation takes half to two thirds of the instructions.
 */
#ifndef FLOATS_WORDS_H
#define FLOATS_WORDS_H

typedef unsigned int word;
typedef unsigned long long words;

#define SIGN 0x80000000u

/* how often a byte's value can be halved until it is 0, of libgcc */
extern const unsigned char __clz_tab[256];

/* the zeros above the highest bit that is set, of a word that is not 0 */
static inline int zeros_above(word bits)
{
    if (bits >> 16)
        return bits >> 24 ? 8 - __clz_tab[bits >> 24] : 16 - __clz_tab[bits >> 16];
    return bits >> 8 ? 24 - __clz_tab[bits >> 8] : 32 - __clz_tab[bits];
}

static inline words both(word high, word low)
{
    return (words)high << 32 | low;
}

static inline word high_of(words bits)
{
    return (word)(bits >> 32);
}

#endif
