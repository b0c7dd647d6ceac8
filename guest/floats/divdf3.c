/* Doubles: quotients. */
#include "double.h"

words __divdf3(words a, words b);

static inline word upper_product(word a, word b)
{
    return high_of((words)a * b);
}

/* Less than 2^63 / (divisor + 1), by at most 2^-27 of it, where the divisor's highest bit is set. */
static inline word reciprocal(word divisor)
{
    word half = 0xffffffff / ((divisor >> 16) + 1);
    words error = ~((words)divisor * half);             /* of 2^48, but for one */
    word part = (high_of(error) << 13 | (word)error >> 19) & 0xffff;
    return (half << 15) + (half * part >> 14) - 2;
}

/*
 * Of two fractions a and b with their hidden bits. They are moved to the left so that a < b < 2^59 and the quotient a * 2^54 / b has 54 bits. It is found
 * in two parts, of 32 and of 22 bits. The first one is too small by less than 32, so that what remains of a is less than 32 b, and its 64 bits suffice; the
 * second part makes up for that, and is itself too small by less than 4.
 */
static inline words quotient(word sign, int exponent, word ah, word al, word bh, word bl)
{
    word inverse = reciprocal(bh << 11 | bl >> 21), top, first, second;
    words remainder, divisor = both(bh, bl) << 6, result;
    if (ah > bh || (ah == bh && al >= bl)) {
        top = ah << 10 | al >> 22;
        remainder = (words)(al << 5) << 32;
    } else {
        exponent--;
        top = ah << 11 | al >> 21;
        remainder = (words)(al << 6) << 32;
    }
    first = upper_product(top, inverse) << 1;
    remainder -= (words)first * (word)divisor + ((words)(first * high_of(divisor)) << 32);
    second = upper_product(high_of(remainder), inverse) >> 4;
    remainder = (remainder << 22) - ((words)second * (word)divisor + ((words)(second * high_of(divisor)) << 32));
    result = ((words)first << 22) + second;
    while (remainder >= divisor) {
        remainder -= divisor;
        result++;
    }
    ah = (word)(result >> 33);
    al = (word)(result >> 1);
    first = (word)result << 31 | (remainder != 0);
    if ((word)(exponent - 1) >= LAST_EXPONENT - 1)
        return __nested_fitted(sign, exponent, ah, al, first);
    return rounded(sign, exponent, ah, al, first);
}

/* Of two of which one is 0, subnormal, infinite or no number. */
static __attribute__((noinline)) words quotient_of_others(words a, words b)
{
    word sign = (high_of(a) ^ high_of(b)) & SIGN, ah = high_of(a) & FRACTION, al = (word)a, bh = high_of(b) & FRACTION, bl = (word)b;
    int first = exponent_of(high_of(a)), second = exponent_of(high_of(b));
    int is_first_zero = a << 1 == 0, is_second_zero = b << 1 == 0;
    if (is_no_number(a) || is_no_number(b) || (first == LAST_EXPONENT && second == LAST_EXPONENT) || (is_first_zero && is_second_zero))
        return __nested_no_number(a, b);
    if (first == LAST_EXPONENT || is_second_zero)
        return both(sign | INFINITE, 0);
    if (second == LAST_EXPONENT || is_first_zero)
        return both(sign, 0);
    if (first == 0)
        first = normalise(&ah, &al);
    if (second == 0)
        second = normalise(&bh, &bl);
    return quotient(sign, first - second + BIAS, ah | HIDDEN, al, bh | HIDDEN, bl);
}

words __divdf3(words a, words b)
{
    word ah = high_of(a), bh = high_of(b);
    int first = exponent_of(ah), second = exponent_of(bh);
    if ((word)(first - 1) >= LAST_EXPONENT - 1 || (word)(second - 1) >= LAST_EXPONENT - 1)
        return quotient_of_others(a, b);
    return quotient((ah ^ bh) & SIGN, first - second + BIAS, (ah & FRACTION) | HIDDEN, (word)a, (bh & FRACTION) | HIDDEN, (word)b);
}
