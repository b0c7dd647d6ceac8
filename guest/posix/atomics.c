/*
 * What the compiler calls for atomics that MIPS II has no instructions for: those of 8 bytes, and those of other sizes. There is one thread, and no
 * signal comes between, so a plain load and store will do. The names are the compiler's own, so they are given behind others.
 */
#include <stdbool.h>
#include <stddef.h>
#include <stdint.h>
#include <string.h>

#pragma GCC diagnostic ignored "-Wunused-parameter"

/* ---- of any size: TYPE __atomic_NAME(size, ..) */

bool is_lock_free(size_t bytes, const volatile void *place) __asm__("__atomic_is_lock_free");
bool is_lock_free(size_t bytes, const volatile void *place)
{
    return bytes == 1 || bytes == 2 || bytes == 4 || bytes == 8;
}

void load(size_t bytes, const void *place, void *into, int order) __asm__("__atomic_load");
void load(size_t bytes, const void *place, void *into, int order)
{
    memcpy(into, place, bytes);
}

void store(size_t bytes, void *place, const void *from, int order) __asm__("__atomic_store");
void store(size_t bytes, void *place, const void *from, int order)
{
    memcpy(place, from, bytes);
}

void exchange(size_t bytes, void *place, const void *from, void *into, int order) __asm__("__atomic_exchange");
void exchange(size_t bytes, void *place, const void *from, void *into, int order)
{
    memcpy(into, place, bytes);
    memcpy(place, from, bytes);
}

bool compare_exchange(size_t bytes, void *place, void *expected, const void *desired, int succeeds, int fails) __asm__("__atomic_compare_exchange");
bool compare_exchange(size_t bytes, void *place, void *expected, const void *desired, int succeeds, int fails)
{
    bool is_equal = memcmp(place, expected, bytes) == 0;
    if (is_equal)
        memcpy(place, desired, bytes);
    else
        memcpy(expected, place, bytes);
    return is_equal;
}

/* ---- of 8 bytes */

uint64_t load_8(const volatile uint64_t *place, int order) __asm__("__atomic_load_8");
uint64_t load_8(const volatile uint64_t *place, int order)
{
    return *place;
}

void store_8(volatile uint64_t *place, uint64_t value, int order) __asm__("__atomic_store_8");
void store_8(volatile uint64_t *place, uint64_t value, int order)
{
    *place = value;
}

uint64_t exchange_8(volatile uint64_t *place, uint64_t value, int order) __asm__("__atomic_exchange_8");
uint64_t exchange_8(volatile uint64_t *place, uint64_t value, int order)
{
    uint64_t before = *place;
    *place = value;
    return before;
}

bool compare_exchange_8(volatile uint64_t *place, uint64_t *expected, uint64_t desired, bool is_weak, int succeeds, int fails)
    __asm__("__atomic_compare_exchange_8");
bool compare_exchange_8(volatile uint64_t *place, uint64_t *expected, uint64_t desired, bool is_weak, int succeeds, int fails)
{
    uint64_t before = *place;
    bool is_equal = before == *expected;
    if (is_equal)
        *place = desired;
    else
        *expected = before;
    return is_equal;
}

uint64_t swap_value_8(volatile uint64_t *place, uint64_t expected, uint64_t desired) __asm__("__sync_val_compare_and_swap_8");
uint64_t swap_value_8(volatile uint64_t *place, uint64_t expected, uint64_t desired)
{
    uint64_t before = *place;
    if (before == expected)
        *place = desired;
    return before;
}

bool swap_8(volatile uint64_t *place, uint64_t expected, uint64_t desired) __asm__("__sync_bool_compare_and_swap_8");
bool swap_8(volatile uint64_t *place, uint64_t expected, uint64_t desired)
{
    return swap_value_8(place, expected, desired) == expected;
}

uint64_t set_8(volatile uint64_t *place, uint64_t value) __asm__("__sync_lock_test_and_set_8");
uint64_t set_8(volatile uint64_t *place, uint64_t value)
{
    return exchange_8(place, value, 0);
}

void release_8(volatile uint64_t *place) __asm__("__sync_lock_release_8");
void release_8(volatile uint64_t *place)
{
    *place = 0;
}

/* The four functions of an operation: of __atomic and __sync, what was there before and what is there then. */
#define OPERATION(name, result)                                                                                 \
    uint64_t fetch_##name(volatile uint64_t *, uint64_t, int) __asm__("__atomic_fetch_" #name "_8");            \
    uint64_t name##_fetch(volatile uint64_t *, uint64_t, int) __asm__("__atomic_" #name "_fetch_8");            \
    uint64_t sync_fetch_##name(volatile uint64_t *, uint64_t) __asm__("__sync_fetch_and_" #name "_8");          \
    uint64_t sync_##name##_fetch(volatile uint64_t *, uint64_t) __asm__("__sync_" #name "_and_fetch_8");        \
    uint64_t fetch_##name(volatile uint64_t *place, uint64_t operand, int order)                                \
    {                                                                                                           \
        uint64_t before = *place;                                                                               \
        *place = result;                                                                                        \
        return before;                                                                                          \
    }                                                                                                           \
    uint64_t name##_fetch(volatile uint64_t *place, uint64_t operand, int order)                                \
    {                                                                                                           \
        uint64_t before = *place;                                                                               \
        return *place = result;                                                                                 \
    }                                                                                                           \
    uint64_t sync_fetch_##name(volatile uint64_t *place, uint64_t operand) { return fetch_##name(place, operand, 0); } \
    uint64_t sync_##name##_fetch(volatile uint64_t *place, uint64_t operand) { return name##_fetch(place, operand, 0); }

OPERATION(add, before + operand)
OPERATION(sub, before - operand)
OPERATION(and, before & operand)
OPERATION(or, before | operand)
OPERATION(xor, before ^ operand)
OPERATION(nand, ~(before & operand))
