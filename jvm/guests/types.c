/* Functions of many types, which Java calls by an interface. */
#include "heap.h"

#include <nested/resident.h>

/* hands the table to the host, and is ready (guest/system/resident.S) */
void nested_resident(const struct nested_function *table);

static signed char negated_byte(signed char x) {
    return -x;
}

static short negated_short(short x) {
    return -x;
}

static unsigned short next_char(unsigned short x) {
    return x + 1;
}

static int negated_int(int x) {
    return -x;
}

static long long negated_long(long long x) {
    return -x;
}

static _Bool negated_boolean(_Bool x) {
    return !x;
}

/* there is no arithmetic of floating point here, which would need a library */
static float same_float(float x) {
    return x;
}

static double same_double(double x) {
    return x;
}

/* one that counts nothing, but tells the place of each argument */
static long long mixed(signed char a, long long b, short c, double d, int e, float f, long long g) {
    union {
        double real;
        long long bits;
    } real = {d};
    union {
        float real;
        int bits;
    } small = {f};
    return a ^ b ^ c ^ real.bits ^ e ^ small.bits ^ g;
}

/* ---- texts and arrays */

static int length(const char *text) {
    int n = 0;
    if (!text) return -1;
    while (text[n]) n++;
    return n;
}

static const char *greeting(int which) {
    static const char latin[] = {'g', 'r', (char)0xFC, 0xDF, 'e', 0};
    return which == 0 ? 0 : which == 1 ? "gr\303\274\303\237e" : latin;
}

static void reverse(unsigned char *bytes, int n) {
    for (int i = 0; i < n / 2; i++) {
        unsigned char byte = bytes[i];
        bytes[i] = bytes[n - 1 - i];
        bytes[n - 1 - i] = byte;
    }
}

static unsigned sum(const unsigned char *bytes, int n) {
    unsigned sum = 0;
    while (n--) sum += *bytes++;
    return sum;
}

static void count_up(unsigned char *bytes, int n) {
    for (int i = 0; i < n; i++) bytes[i] = i;
}

static int next_shorts(short *of, int n) {
    for (int i = 0; i < n; i++) of[i]++;
    return n;
}

static int next_ints(int *of, int n) {
    for (int i = 0; i < n; i++) of[i]++;
    return n;
}

static int next_longs(long long *of, int n) {
    for (int i = 0; i < n; i++) of[i]++;
    return n;
}

static void turn_doubles(double *of, int n) {
    for (int i = 0; i < n / 2; i++) {
        double kept = of[i];
        of[i] = of[n - 1 - i];
        of[n - 1 - i] = kept;
    }
}

/* ---- structures and functions */

struct sample {
    signed char kind;
    short level;
    int count;
    struct sample *next;
    char name[5];
    double weight;
    _Bool is_good;
    long long total;
    float part;
};

static int size_of_sample(void) {
    return sizeof(struct sample);
}

static struct sample *advance(struct sample *of) {
    of->kind++;
    of->level++;
    of->count++;
    of->name[0]++;
    of->is_good = !of->is_good;
    of->total++;
    return of->next;
}

static int each(struct sample *first, int (*f)(struct sample *, const char *)) {
    int n = 0;
    for (; first; first = first->next) n += f(first, first->name);
    return n;
}

typedef int adder(int, int);

static int add(int a, int b) {
    return a + b;
}

static adder *adder_of(void) {
    return add;
}

static adder *kept;

static void keep(adder *f) {
    kept = f;
}

static int call_kept(int a, int b) {
    return kept(a, b);
}

/* all arguments of an open list in one number; the letters tell their types */
static long long all(const char *kinds, ...) {
    __builtin_va_list list;
    long long all = 0;
    __builtin_va_start(list, kinds);
    for (; *kinds; kinds++) {
        union {
            double real;
            long long bits;
        } real;
        switch (*kinds) {
            case 'i': all ^= __builtin_va_arg(list, int); break;
            case 'l': all ^= __builtin_va_arg(list, long long); break;
            case 'd': real.real = __builtin_va_arg(list, double); all ^= real.bits; break;
            default: all ^= length(__builtin_va_arg(list, const char *));
        }
    }
    __builtin_va_end(list);
    return all;
}

static const struct nested_function table[] = {
    NESTED_FUNCTION(negated_byte), NESTED_FUNCTION(negated_short), NESTED_FUNCTION(next_char), NESTED_FUNCTION(negated_int),
    NESTED_FUNCTION(negated_long), NESTED_FUNCTION(negated_boolean), NESTED_FUNCTION(same_float), NESTED_FUNCTION(same_double),
    NESTED_FUNCTION(mixed), NESTED_FUNCTION(length), NESTED_FUNCTION(greeting), NESTED_FUNCTION(reverse), NESTED_FUNCTION(sum),
    NESTED_FUNCTION(count_up), NESTED_FUNCTION(next_shorts), NESTED_FUNCTION(next_ints), NESTED_FUNCTION(next_longs),
    NESTED_FUNCTION(turn_doubles), NESTED_FUNCTION(size_of_sample), NESTED_FUNCTION(advance), NESTED_FUNCTION(each), NESTED_FUNCTION(add),
    NESTED_FUNCTION(adder_of), NESTED_FUNCTION(keep), NESTED_FUNCTION(call_kept), NESTED_FUNCTION(all), NESTED_FUNCTION(malloc), NESTED_FUNCTION(free),
    NESTED_END,
};

int main(void) {
    nested_resident(table);
    return 1; /* no host that calls functions */
}
