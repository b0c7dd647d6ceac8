/* Doubles: sums and differences. */
#include "double.h"

#define swap(a, b) do { word other = a; a = b; b = other; } while (0)

words __adddf3(words a, words b);
words __subdf3(words a, words b);

/* Of two of which one is infinite or no number. */
static __attribute__((noinline)) words sum_of_infinite(words a, words b)
{
    int first = exponent_of(high_of(a)) == LAST_EXPONENT, second = exponent_of(high_of(b)) == LAST_EXPONENT;
    if (is_no_number(a) || is_no_number(b) || (first && second && a != b))
        return __nested_no_number(a, b);
    return first ? a : b;
}

/* Moves a fraction to the right by 1 to 63 bits. */
#define move_right(high, low, rest, by) do {                                                    \
        if (by < 32) {                                                                          \
            rest = low << (32 - by);                                                            \
            low = low >> by | high << (32 - by);                                                \
            high >>= by;                                                                        \
        } else {                                                                                \
            rest = low >> (by & 31) | high << 1 << (~by & 31);                                  \
            rest |= low << 1 << (~by & 31) != 0;                                                \
            low = high >> (by & 31);                                                            \
            high = 0;                                                                           \
        }                                                                                       \
    } while (0)

static inline word with_hidden(word high)
{
    return (high << 11 | SIGN) >> 11;
}

/* Of two of one sign. */
static inline words sum(word ah, word al, word bh, word bl)
{
    word sign, rest = 0;
    int exponent, less, by;
    if (bh > ah) {
        swap(ah, bh);
        swap(al, bl);
    }
    exponent = exponent_of(ah);
    less = exponent_of(bh);
    if (exponent == LAST_EXPONENT)
        return sum_of_infinite(both(ah, al), both(bh, bl));
    if (less != 0)
        bh = with_hidden(bh);
    else {
        bh &= FRACTION;
        if ((bh | bl) == 0 || exponent == 0)
            return both(ah, al) + both(bh, bl);
        less = 1;
    }
    by = exponent - less;
    if (by >= 64)
        return both(ah, al);
    sign = ah & SIGN;
    ah = with_hidden(ah);
    if (by != 0)
        move_right(bh, bl, rest, by);
    al += bl;
    ah += bh + (al < bl);
    if (ah >= HIDDEN << 1) {
        if (++exponent == LAST_EXPONENT)
            return both(sign | INFINITE, 0);
        rest = rest >> 1 | (rest & 1) | al << 31;
        al = al >> 1 | ah << 31;
        ah >>= 1;
    }
    return rounded(sign, exponent, ah, al, rest);
}

/* Moves a fraction to the left until the hidden bit is set, or the number is subnormal. */
static inline words normalised(word sign, int exponent, word high, word low, word rest)
{
    int by = high != 0 ? zeros_above(high) - 11 : low != 0 ? zeros_above(low) + 21 : 53;
    if (by >= exponent)
        by = exponent - 1;
    exponent -= by;
    if (by >= 32) {
        high = low << (by & 31) | rest >> 1 >> (~by & 31);
        low = rest << (by & 31);
        rest = 0;
    } else if (by != 0) {
        high = high << by | low >> (32 - by);
        low = low << by | rest >> (32 - by);
        rest <<= by;
    }
    return rounded(sign, exponent, high, low, rest);
}

/* Of two of different signs. */
static inline words difference(word ah, word al, word bh, word bl)
{
    word rest = 0, borrow = 0, sign, low;
    int exponent, less, by;
    if (ah << 1 < bh << 1 || (ah << 1 == bh << 1 && al < bl)) {
        swap(ah, bh);
        swap(al, bl);
    }
    exponent = exponent_of(ah);
    less = exponent_of(bh);
    if (exponent == LAST_EXPONENT)
        return sum_of_infinite(both(ah, al), both(bh, bl));
    if (less != 0)
        bh = with_hidden(bh);
    else {
        bh &= FRACTION;
        if (exponent == 0 || (bh | bl) == 0)
            return ah << 1 == bh << 1 && al == bl ? 0 : both(ah, al) - both(bh, bl);
        less = 1;
    }
    by = exponent - less;
    if (by >= 64)
        return both(ah, al);
    sign = ah & SIGN;
    ah = with_hidden(ah);
    if (by != 0) {
        move_right(bh, bl, rest, by);
        borrow = rest != 0;
        rest = -rest;
    }
    low = al - bl - borrow;
    ah -= bh + (al < bl || (al == bl && borrow));
    if (ah >= HIDDEN)
        return rounded(sign, exponent, ah, low, rest);
    if ((ah | low | rest) == 0)
        return 0;
    return normalised(sign, exponent, ah, low, rest);
}

words __adddf3(words a, words b)
{
    if ((int)(high_of(a) ^ high_of(b)) < 0)
        return difference(high_of(a), (word)a, high_of(b), (word)b);
    return sum(high_of(a), (word)a, high_of(b), (word)b);
}

words __subdf3(words a, words b)
{
    return __adddf3(a, b ^ both(SIGN, 0));
}
