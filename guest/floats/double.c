/* Doubles: what the operations share. */
#include "double.h"

#define SIGNALLING 0x80000u             /* the first bit of the fraction, as MIPS has it before its release of 2008 */
#define NO_NUMBER both(0x7ff7ffff, 0xffffffff)

static int is_signalling(words a)
{
    return is_no_number(a) && (high_of(a) & SIGNALLING) != 0;
}

words __nested_no_number(words a, words b)
{
    if (is_signalling(a) || is_signalling(b))
        return NO_NUMBER;
    if (is_no_number(a))
        return a;
    return is_no_number(b) ? b : NO_NUMBER;
}

words __nested_fitted(word sign, int exponent, word high, word low, word rest)
{
    if (exponent >= LAST_EXPONENT)
        return both(sign | INFINITE, 0);
    if (exponent < -53)
        return both(sign, 0);
    for (; exponent < 1; exponent++) {
        rest = rest >> 1 | (rest & 1) | low << 31;
        low = low >> 1 | high << 31;
        high >>= 1;
    }
    return rounded(sign, exponent, high, low, rest);
}
