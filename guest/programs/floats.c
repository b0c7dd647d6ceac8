/*
 * Arithmetic of doubles and singles on random cases: floats N prints for each operation a checksum over the bits of its results, of N cases together.
 * Special cases are frequent: zeros, subnormal numbers, infinities, what is no number, ties, and operands whose sum nearly vanishes. The bits of what is
 * no number are the machine's own and are not looked at.
 */
#include <stdint.h>
#include <stdio.h>
#include <stdlib.h>
#include <string.h>

static uint64_t state = 88172645463325252u;

static uint64_t next(void)
{
    state ^= state << 13;
    state ^= state >> 7;
    return state ^= state << 17;
}

static double as_double(uint64_t bits)
{
    double number;
    memcpy(&number, &bits, sizeof number);
    return number;
}

static float as_single(uint32_t bits)
{
    float number;
    memcpy(&number, &bits, sizeof number);
    return number;
}

static uint64_t bits_of(double number)
{
    uint64_t bits;
    memcpy(&bits, &number, sizeof bits);
    return number == number ? bits : 1;
}

static uint64_t bits_of_single(float number)
{
    uint32_t bits;
    memcpy(&bits, &number, sizeof bits);
    return number == number ? bits : 1;
}

/* The bits of a double, of which many are special or near to the one before. */
static uint64_t double_bits(void)
{
    static uint64_t last;
    uint64_t chance = next(), bits = next();
    switch (chance % 12) {
    case 0: bits &= 0x8000000000000003u; break;
    case 1: bits &= 0x800fffffffffffffu; break;
    case 2: bits = (bits & 0x8000000000000001u) | 0x7ff0000000000000u; break;
    case 3: bits = 0x3ff0000000000000u + bits % 9 - 4; break;
    case 4: bits = last ^ (bits & 0x8000000000000007u); break;
    case 5: bits = last + ((bits % 128 - 64) << 52) + (chance >> 32) % 3 - 1; break;
    case 6: bits = (bits & 0xfff0000000000000u) | (((uint64_t)1 << (chance >> 8) % 53) - 1); break;
    case 7: bits = (bits & 0x800fffffffffffffu) | (1023 - 40 + (chance >> 8) % 80) << 52; break;
    default: break;
    }
    return last = bits;
}

static uint32_t single_bits(void)
{
    static uint32_t last;
    uint32_t chance = (uint32_t)(next() >> 32), bits = (uint32_t)next();
    switch (chance % 10) {
    case 0: bits &= 0x80000003u; break;
    case 1: bits &= 0x807fffffu; break;
    case 2: bits = (bits & 0x80000001u) | 0x7f800000u; break;
    case 3: bits = 0x3f800000u + bits % 9 - 4; break;
    case 4: bits = last ^ (bits & 0x80000007u); break;
    case 5: bits = last + ((bits % 64 - 32) << 23) + (chance >> 16) % 3 - 1; break;
    default: break;
    }
    return last = bits;
}

static const char *const names[] = {
    "a + b", "a - b", "a * b", "a / b", "a < b", "a <= b", "a == b", "single +", "single -", "single *", "single /", "single <", "to single",
    "to double", "from int", "from unsigned", "from long long", "from unsigned long long", "single from long long", "to int", "to long long", "to unsigned"
};

enum { OPERATIONS = sizeof names / sizeof *names };

/* A double that is a number of 32 or 63 bits, so that C says what an integer it becomes. */
static double of_bits(double number, int bits)
{
    double most = bits == 32 ? 2147483647.0 : 9.2e18;
    return number > -most && number < most ? number : 0.5;
}

static uint64_t result_of_singles(int operation, float a, float b)
{
    switch (operation) {
    case 7: return bits_of_single(a + b);
    case 8: return bits_of_single(a - b);
    case 9: return bits_of_single(a * b);
    case 10: return bits_of_single(a / b);
    case 11: return a < b;
    default: return bits_of(a);
    }
}

static uint64_t result_of_doubles(int operation, double a, double b)
{
    switch (operation) {
    case 0: return bits_of(a + b);
    case 1: return bits_of(a - b);
    case 2: return bits_of(a * b);
    case 3: return bits_of(a / b);
    case 4: return a < b;
    case 5: return a <= b;
    case 6: return a == b;
    case 12: return bits_of_single((float)a);
    case 19: return (uint64_t)(int)of_bits(a, 32);
    case 20: return (uint64_t)(long long)of_bits(a, 63);
    default: return (unsigned)of_bits(a < 0 ? -a : a, 32);
    }
}

static uint64_t result_of_integer(int operation, uint64_t bits)
{
    switch (operation) {
    case 14: return bits_of((int)bits);
    case 15: return bits_of((unsigned)bits);
    case 16: return bits_of((double)(long long)bits);
    case 17: return bits_of((double)bits);
    default: return bits_of_single((float)(long long)bits);
    }
}

static uint64_t result_of(int operation)
{
    if (operation >= 14 && operation <= 18) {
        uint64_t bits = next();
        return result_of_integer(operation, bits >> next() % 64);
    }
    if (operation == 13 || (operation >= 7 && operation <= 11)) {
        float a = as_single(single_bits());
        return result_of_singles(operation, a, as_single(single_bits()));
    }
    double a = as_double(double_bits());
    return result_of_doubles(operation, a, as_double(double_bits()));
}

int main(int count, char **words)
{
    long cases = count > 1 ? atol(words[1]) : 1000000;
    uint64_t sums[OPERATIONS] = {0};
    for (long i = 0; i < cases; i++) {
        int operation = (int)(i % OPERATIONS);
        sums[operation] = (sums[operation] ^ result_of(operation)) * 0x100000001b3u;
        sums[operation] ^= sums[operation] >> 29;
    }
    for (int operation = 0; operation < OPERATIONS; operation++)
        printf("%s: %08lx%08lx\n", names[operation], (unsigned long)(sums[operation] >> 32), (unsigned long)(sums[operation] & 0xffffffff));
    return 0;
}
