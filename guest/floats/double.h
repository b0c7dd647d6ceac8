/*
 * Doubles: a sign, 11 bits of exponent, 52 of fraction. Their words are called `high`, which has the sign, and `low`. Where a number is taken apart, `high`
 * and `low` are its fraction with the hidden bit, and `rest` has the bits behind: the highest one is half of the last bit, the others tell whether
 * there is more.
 */
#ifndef FLOATS_DOUBLE_H
#define FLOATS_DOUBLE_H

#include "words.h"

#define HIDDEN 0x100000u                /* the bit before the fraction, of a number that is not subnormal */
#define FRACTION 0xfffffu
#define LAST_EXPONENT 0x7ff             /* of infinities, and of what is no number */
#define INFINITE 0x7ff00000u
#define BIAS 1023

static inline int exponent_of(word high)
{
    return (int)(high << 1 >> 21);
}

/*
 * The hidden bit adds 1 to the exponent, which is 1 or more; in a subnormal number it is not there. Where rounding makes the exponent too great, it becomes
 * that of an infinity, with its fraction.
 */
static inline words rounded(word sign, int exponent, word high, word low, word rest)
{
    high += sign + ((word)(exponent - 1) << 20);
    if (rest >= SIGN) {
        low++;
        high += low == 0;
        low &= -2 | (word)(rest != SIGN);
    }
    return both(high, low);
}

/* The same for any exponent. */
words __nested_fitted(word sign, int exponent, word high, word low, word rest);

/* What an operation gives of which an operand is no number, or that has no result. */
words __nested_no_number(words a, words b);

/* Gives a subnormal number that is not 0 a hidden bit, and the exponent for it. */
static inline int normalise(word *high, word *low)
{
    int by = 0;
    while (*high < HIDDEN) {
        *high = *high << 1 | *low >> 31;
        *low <<= 1;
        by++;
    }
    return 1 - by;
}

static inline int is_no_number(words a)
{
    return (high_of(a) & ~SIGN) + ((word)a != 0) > INFINITE;
}

#endif
