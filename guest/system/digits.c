/* Numbers as texts. */
#include "call.h"

const char *nested_digits(unsigned number, char into[DIGITS_BYTES])
{
    char *first = into + DIGITS_BYTES - 1;
    *first = 0;
    do
        *--first = (char)('0' + number % 10);
    while ((number /= 10) > 0);
    return first;
}
