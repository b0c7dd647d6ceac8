/* Doubles from integers and to singles. */
#include "double.h"

words __floatsidf(int number);
words __floatunsidf(word number);
words __floatdidf(long long number);
words __floatundidf(words number);
word __truncdfsf2(words a);
words __extendsfdf2(word a);

/* A number that is not 0, whose highest bit is bit 31 once it is moved to the left by `by`. */
static inline words of_word(word sign, word number, int by)
{
    number <<= by;
    return both(sign + ((word)(BIAS + 30 - by) << 20) + (number >> 11), number << 21);
}

words __floatsidf(int number)
{
    word sign = (word)number & SIGN, magnitude = number < 0 ? -(word)number : (word)number;
    return number == 0 ? 0 : of_word(sign, magnitude, zeros_above(magnitude));
}

words __floatunsidf(word number)
{
    return number == 0 ? 0 : of_word(0, number, zeros_above(number));
}

/* One of 64 bits. */
static inline words of_words(word sign, words number)
{
    word high = high_of(number), low = (word)number;
    int by;
    if (high == 0)
        return low == 0 ? 0 : of_word(sign, low, zeros_above(low));
    by = zeros_above(high);
    number <<= by;
    high = high_of(number);
    low = (word)number;
    return rounded(sign, BIAS + 63 - by, high >> 11, low >> 11 | high << 21, low << 21);
}

words __floatdidf(long long number)
{
    return number < 0 ? of_words(SIGN, -(words)number) : of_words(0, (words)number);
}

words __floatundidf(words number)
{
    return of_words(0, number);
}

/* A single has 8 bits of exponent, of bias 127, and 23 of fraction. */
#define SINGLE_INFINITE 0x7f800000u

/* A subnormal single, or 0. */
static __attribute__((noinline)) word small_single(word sign, int exponent, word high, word low)
{
    int by = 1 - exponent;
    word fraction = ((high & FRACTION) | HIDDEN) << 9 | low >> 23, rest = low << 9 != 0;
    if (by > 25)
        return sign;
    rest |= fraction << (32 - by) != 0;
    fraction = fraction >> by | rest;
    return sign + ((fraction + 31 + (fraction >> 6 & 1)) >> 6);
}

/* An infinity, or what is no number, as far as a single holds its fraction. */
static __attribute__((noinline)) word great_single(word sign, word high, word low)
{
    word fraction = (high << 3 & 0x7fffff) | low >> 29;
    if (!is_no_number(both(high, low)))
        return sign | SINGLE_INFINITE;
    return fraction == 0 || fraction >= 0x400000 ? 0x7fbfffff : sign | SINGLE_INFINITE | fraction;
}

word __truncdfsf2(words a)
{
    word high = high_of(a), low = (word)a, sign = high & SIGN, bits, rest;
    int exponent = exponent_of(high) - BIAS + 127;
    if (exponent >= 0xff)
        return great_single(sign, high, low);
    if (exponent <= 0)
        return small_single(sign, exponent, high, low);
    bits = sign + ((word)exponent << 23) + ((high & FRACTION) << 3 | low >> 29);
    rest = low << 3;
    if (rest >= SIGN)
        bits += rest > SIGN || (bits & 1) != 0;
    return bits;
}
