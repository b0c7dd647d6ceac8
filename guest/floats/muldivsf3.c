/* Singles: products and quotients. */
#include "single.h"

word __mulsf3(word a, word b);
word __divsf3(word a, word b);

static inline int is_plain(int exponent)
{
    return (word)(exponent - 1) < LAST_EXPONENT - 1;
}

/* Of two fractions with their hidden bits. The product has 47 or 48 bits, and its upper word 30 of them or 31. */
static inline word product(word sign, int exponent, word a, word b)
{
    words all = (words)(a << 8) * (b << 7);
    word fraction = high_of(all) | ((word)all != 0);
    if (fraction >= HIDDEN << 7) {
        fraction = fraction >> 1 | (fraction & 1);
        exponent++;
    }
    if (!is_plain(exponent))
        return __nested_fitted_single(sign, exponent, fraction);
    return rounded(sign, exponent, fraction);
}

/* Of two fractions with their hidden bits: eight bits at a time, so that what remains goes into a word with eight more. */
static inline word quotient(word sign, int exponent, word a, word b)
{
    word fraction;
    if (a < b) {
        a <<= 1;
        exponent--;
    }
    a = (a - b) << 8;
    fraction = a / b << 16;
    a = a % b << 8;
    fraction += a / b << 8;
    a = a % b << 8;
    fraction += a / b;
    fraction = HIDDEN << 6 | fraction << 5 | (a % b != 0);
    if (!is_plain(exponent))
        return __nested_fitted_single(sign, exponent, fraction);
    return rounded(sign, exponent, fraction);
}

/* Of two of which one is 0, subnormal, infinite or no number. */
static __attribute__((noinline)) word product_of_others(word a, word b)
{
    word sign = (a ^ b) & SIGN, first = a & FRACTION, second = b & FRACTION;
    int exponent = exponent_of(a), other = exponent_of(b);
    if (exponent == LAST_EXPONENT || other == LAST_EXPONENT)
        return is_no_number(a) || is_no_number(b) || a << 1 == 0 || b << 1 == 0 ? __nested_no_number_single(a, b) : sign | INFINITE;
    if (a << 1 == 0 || b << 1 == 0)
        return sign;
    if (exponent == 0)
        exponent = normalise(&first);
    if (other == 0)
        other = normalise(&second);
    return product(sign, exponent + other - BIAS, first | HIDDEN, second | HIDDEN);
}

static __attribute__((noinline)) word quotient_of_others(word a, word b)
{
    word sign = (a ^ b) & SIGN, first = a & FRACTION, second = b & FRACTION;
    int exponent = exponent_of(a), other = exponent_of(b);
    if (is_no_number(a) || is_no_number(b) || (exponent == LAST_EXPONENT && other == LAST_EXPONENT) || (a << 1 == 0 && b << 1 == 0))
        return __nested_no_number_single(a, b);
    if (exponent == LAST_EXPONENT || b << 1 == 0)
        return sign | INFINITE;
    if (other == LAST_EXPONENT || a << 1 == 0)
        return sign;
    if (exponent == 0)
        exponent = normalise(&first);
    if (other == 0)
        other = normalise(&second);
    return quotient(sign, exponent - other + BIAS, first | HIDDEN, second | HIDDEN);
}

word __mulsf3(word a, word b)
{
    int first = exponent_of(a), second = exponent_of(b);
    if (!is_plain(first) || !is_plain(second))
        return product_of_others(a, b);
    return product((a ^ b) & SIGN, first + second - BIAS, (a & FRACTION) | HIDDEN, (b & FRACTION) | HIDDEN);
}

word __divsf3(word a, word b)
{
    int first = exponent_of(a), second = exponent_of(b);
    if (!is_plain(first) || !is_plain(second))
        return quotient_of_others(a, b);
    return quotient((a ^ b) & SIGN, first - second + BIAS, (a & FRACTION) | HIDDEN, (b & FRACTION) | HIDDEN);
}
