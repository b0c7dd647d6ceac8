/* Singles: what the operations share. */
#include "single.h"

#define SIGNALLING 0x400000u            /* the first bit of the fraction, as MIPS has it before its release of 2008 */
#define NO_NUMBER 0x7fbfffffu

static int is_signalling(word a)
{
    return is_no_number(a) && (a & SIGNALLING) != 0;
}

word __nested_no_number_single(word a, word b)
{
    if (is_signalling(a) || is_signalling(b))
        return NO_NUMBER;
    if (is_no_number(a))
        return a;
    return is_no_number(b) ? b : NO_NUMBER;
}

word __nested_fitted_single(word sign, int exponent, word fraction)
{
    int by = 1 - exponent;
    if (exponent >= LAST_EXPONENT)
        return sign | INFINITE;
    if (by <= 0)
        return rounded(sign, exponent, fraction);
    if (by >= 31)
        return sign;
    return rounded(sign, 1, fraction >> by | (fraction << (32 - by) != 0));
}
