/* Singles: sums and differences. */
#include "single.h"

word __addsf3(word a, word b);
word __subsf3(word a, word b);

/* Of two of which one is infinite or no number. */
static __attribute__((noinline)) word sum_of_infinite(word a, word b)
{
    int first = exponent_of(a) == LAST_EXPONENT, second = exponent_of(b) == LAST_EXPONENT;
    if (is_no_number(a) || is_no_number(b) || (first && second && a != b))
        return __nested_no_number_single(a, b);
    return first ? a : b;
}

static inline word with_hidden(word bits)
{
    return (bits << 8 | SIGN) >> 2;
}

/* The sum of two of one sign, or the difference of two of different signs, of which the first one is not the lesser one. */
static inline word combined(word a, word b, int is_difference)
{
    word sign = a & SIGN, first, second;
    int exponent = exponent_of(a), less = exponent_of(b), by;
    if (exponent == LAST_EXPONENT)
        return sum_of_infinite(a, b);
    if (less != 0)
        second = with_hidden(b);
    else {
        second = b & FRACTION;
        if (exponent == 0 || second == 0)
            return !is_difference ? a + second : a << 1 == second << 1 ? 0 : a - second;
        second <<= 6;
        less = 1;
    }
    by = exponent - less;
    if (by >= 32)
        return a;
    first = with_hidden(a);
    if (by != 0)
        second = second >> by | (second << (32 - by) != 0);
    if (!is_difference) {
        first += second;
        if (first >= HIDDEN << 7) {
            if (++exponent == LAST_EXPONENT)
                return sign | INFINITE;
            first = first >> 1 | (first & 1);
        }
        return rounded(sign, exponent, first);
    }
    first -= second;
    if (first >= HIDDEN << 6)
        return rounded(sign, exponent, first);
    if (first == 0)
        return 0;
    by = zeros_above(first) - 2;
    if (by >= exponent)
        by = exponent - 1;
    return rounded(sign, exponent - by, first << by);
}

word __addsf3(word a, word b)
{
    if ((int)(a ^ b) < 0) {
        if (a << 1 >= b << 1)
            return combined(a, b, 1);
        return combined(b, a, 1);
    }
    return a >= b ? combined(a, b, 0) : combined(b, a, 0);
}

word __subsf3(word a, word b)
{
    return __addsf3(a, b ^ SIGN);
}
