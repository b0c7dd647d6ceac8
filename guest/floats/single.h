/* Singles: a sign, 8 bits of exponent, 23 of fraction. Where a number is taken apart, its fraction has the hidden bit, and bits behind it. */
#ifndef FLOATS_SINGLE_H
#define FLOATS_SINGLE_H

#include "words.h"

#define HIDDEN 0x800000u                /* the bit before the fraction, of a number that is not subnormal */
#define FRACTION 0x7fffffu
#define LAST_EXPONENT 0xff              /* of infinities, and of what is no number */
#define INFINITE 0x7f800000u
#define BIAS 127

static inline int exponent_of(word bits)
{
    return (int)(bits << 1 >> 24);
}

static inline int is_no_number(word bits)
{
    return (bits & ~SIGN) > INFINITE;
}

/*
 * Rounds and packs a number whose fraction has 6 bits behind it, of which the last one tells whether there is more. The hidden bit adds 1 to the exponent,
 * which is 1 or more; in a subnormal number it is not there. Where rounding makes the exponent too great, it becomes that of an infinity.
 */
static inline word rounded(word sign, int exponent, word fraction)
{
    return sign + ((word)(exponent - 1) << 23) + ((fraction + 31 + (fraction >> 6 & 1)) >> 6);
}

/* The same for any exponent. */
word __nested_fitted_single(word sign, int exponent, word fraction);

/* Gives a subnormal number that is not 0 a hidden bit, and the exponent for it. */
static inline int normalise(word *fraction)
{
    int by = zeros_above(*fraction) - 8;
    *fraction <<= by;
    return 1 - by;
}

/* What an operation gives of which an operand is no number, or that has no result. */
word __nested_no_number_single(word a, word b);

#endif
