/* Characters of Unicode. */
#ifndef NESTED_UCHAR_H
#define NESTED_UCHAR_H

#include <stddef.h>
#include <stdint.h>
#include <wchar.h>

#ifdef __cplusplus
extern "C" {
#else
typedef uint_least16_t char16_t;
typedef uint_least32_t char32_t;
#endif

size_t mbrtoc16(char16_t *into, const char *text, size_t bytes, mbstate_t *state);
size_t c16rtomb(char *into, char16_t character, mbstate_t *state);
size_t mbrtoc32(char32_t *into, const char *text, size_t bytes, mbstate_t *state);
size_t c32rtomb(char *into, char32_t character, mbstate_t *state);

#ifdef __cplusplus
}
#endif

#endif
