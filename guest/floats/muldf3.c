/* Doubles: products. */
#include "double.h"

words __muldf3(words a, words b);

/* Of two fractions: the first one is moved to the left by 11 bits, so that the product's upper two words are its fraction, or half of it. */
static inline words product(word sign, int exponent, word ah, word al, word bh, word bl)
{
    word high, low, rest;
    words lowest, middle, other, highest;
    ah = ah << 11 | al >> 21;
    al <<= 11;
    lowest = (words)al * bl;
    middle = (words)ah * bl;
    other = (words)al * bh;
    highest = (words)ah * bh;
    middle += high_of(lowest);
    other += (word)middle;
    highest += (words)high_of(middle) + high_of(other);
    high = high_of(highest);
    low = (word)highest;
    rest = (word)other | ((word)lowest != 0);
    if (high & HIDDEN)
        exponent++;
    else {
        high = high << 1 | low >> 31;
        low = low << 1 | rest >> 31;
        rest <<= 1;
    }
    if ((word)(exponent - 1) >= LAST_EXPONENT - 1)
        return __nested_fitted(sign, exponent, high, low, rest);
    return rounded(sign, exponent, high, low, rest);
}

/* Of two of which one is 0, subnormal, infinite or no number. */
static __attribute__((noinline)) words product_of_others(words a, words b)
{
    word sign = (high_of(a) ^ high_of(b)) & SIGN, ah = high_of(a) & FRACTION, al = (word)a, bh = high_of(b) & FRACTION, bl = (word)b;
    int first = exponent_of(high_of(a)), second = exponent_of(high_of(b));
    int is_first_zero = a << 1 == 0, is_second_zero = b << 1 == 0;
    if (first == LAST_EXPONENT || second == LAST_EXPONENT)
        return is_no_number(a) || is_no_number(b) || is_first_zero || is_second_zero ? __nested_no_number(a, b) : both(sign | INFINITE, 0);
    if (is_first_zero || is_second_zero)
        return both(sign, 0);
    if (first == 0)
        first = normalise(&ah, &al);
    if (second == 0)
        second = normalise(&bh, &bl);
    return product(sign, first + second - BIAS, ah | HIDDEN, al, bh | HIDDEN, bl);
}

words __muldf3(words a, words b)
{
    word ah = high_of(a), bh = high_of(b);
    int first = exponent_of(ah), second = exponent_of(bh);
    if ((word)(first - 1) >= LAST_EXPONENT - 1 || (word)(second - 1) >= LAST_EXPONENT - 1)
        return product_of_others(a, b);
    return product((ah ^ bh) & SIGN, first + second - BIAS, ah | HIDDEN, (word)a, (bh & FRACTION) | HIDDEN, (word)b);
}
