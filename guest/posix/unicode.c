/* Characters of Unicode, over wchar_t, which has 32 bits and holds them. */
#include "call.h"

#include <errno.h>
#include <string.h>
#include <uchar.h>

size_t mbrtoc32(char32_t *into, const char *text, size_t bytes, mbstate_t *state)
{
    static mbstate_t own;
    wchar_t character;
    size_t result;
    if (text == 0)
        return mbrtoc32(0, "", 1, state);
    result = mbrtowc(&character, text, bytes, state != 0 ? state : &own);
    if (result <= bytes && into != 0)
        *into = (char32_t)character;
    return result;
}

size_t c32rtomb(char *into, char32_t character, mbstate_t *state)
{
    static mbstate_t own;
    return wcrtomb(into, (wchar_t)character, state != 0 ? state : &own);
}

/* The second half of a character is kept where no multibyte character is under way: its mark is a count that none has. */
#define HALF -1

static int is_half(const mbstate_t *state)
{
    return state->__count == HALF;
}

static void keep_half(mbstate_t *state, unsigned half)
{
    state->__count = HALF;
    state->__value.__wch = half;
}

static unsigned take_half(mbstate_t *state)
{
    unsigned half = state->__value.__wch;
    memset(state, 0, sizeof *state);
    return half;
}

size_t mbrtoc16(char16_t *into, const char *text, size_t bytes, mbstate_t *state)
{
    static mbstate_t own;
    char32_t character;
    size_t result;
    if (state == 0)
        state = &own;
    if (is_half(state)) {
        unsigned half = take_half(state);
        if (into != 0)
            *into = (char16_t)half;
        return (size_t)-3;
    }
    result = mbrtoc32(&character, text, bytes, state);
    if (text == 0 || result > bytes)
        return result;
    if (character > 0xffff) {
        keep_half(state, 0xdc00 | (character & 0x3ff));
        character = 0xd800 | (character - 0x10000) >> 10;
    }
    if (into != 0)
        *into = (char16_t)character;
    return result;
}

size_t c16rtomb(char *into, char16_t character, mbstate_t *state)
{
    static mbstate_t own;
    if (state == 0)
        state = &own;
    if (into != 0 && is_half(state)) {
        unsigned first = take_half(state);
        if ((character & 0xfc00) != 0xdc00) {
            errno = EILSEQ;
            return (size_t)-1;
        }
        return c32rtomb(into, 0x10000 + ((first & 0x3ff) << 10 | (character & 0x3ff)), state);
    }
    if (into != 0 && (character & 0xfc00) == 0xd800) {
        keep_half(state, character);
        return 0;
    }
    return c32rtomb(into, character, state);
}
