/*
 * Packs input to output; unpack.c is its inverse. It is LZSS: J. A. Storer and T. G. Szymanski, "Data compression via textual substitution", Journal of
 * the ACM 29 (1982). A text that stood within the last 4,096 bytes is written as how far back it begins and how long it is.
 *
 * The form, with flags by the eight as in H. Okumura's LZSS.C (1989): a byte of flags, and behind it what they say, from the lowest up. For 1 it is a
 * byte as it is; for 0 it is two bytes, with how far back less 1 in the first and the upper half of the second, and the length less 3 in the lower half.
 */
#include "bytes.h"

enum { BACK = 4096, LEAST = 3, MOST = 18, ROOM = 8192, KEYS = 4096, TRIES = 64 };

/* The bytes of input in the last places. They are numbered so that place 0 lies too far back for all of them. */
static unsigned char room[ROOM];
static unsigned at = BACK + 1, end = BACK + 1;

/* For each key of three bytes the last place where they stand, and for each place the one before it with the same key. */
static unsigned last[KEYS], before[BACK];

static unsigned byte_of(unsigned place)
{
    return room[place % ROOM];
}

static unsigned key_of(unsigned place)
{
    return (byte_of(place) << 8 ^ byte_of(place + 1) << 4 ^ byte_of(place + 2)) % KEYS;
}

/* Takes input ahead, as far as a text may reach. */
static void take(void)
{
    int byte;
    while (end - at < MOST && (byte = get()) >= 0)
        room[end++ % ROOM] = (unsigned char)byte;
}

/* Goes on behind a byte, which may be found from now on. */
static void pass(void)
{
    unsigned key = key_of(at);
    before[at % BACK] = last[key];
    last[key] = at++;
    take();
}

/* How many bytes from a place on are those that come. */
static unsigned length_of(unsigned place)
{
    unsigned length = 0;
    while (length < end - at && byte_of(place + length) == byte_of(at + length))
        length++;
    return length;
}

/* How long the longest text is that comes and stood before, among the last ones with its key; and how far back. */
static unsigned find(unsigned *distance)
{
    unsigned longest = 0, back = 0, place = last[key_of(at)];
    for (int tries = 0; tries < TRIES && at - place > back && at - place <= BACK; tries++) {
        unsigned length = length_of(place);
        back = at - place;
        if (length > longest) {
            longest = length;
            *distance = back;
        }
        place = before[place % BACK];
    }
    return longest;
}

/* A byte of flags and what they say. */
static void put_eight(void)
{
    unsigned char said[2 * 8];
    int flags = 0, size = 0;
    for (int i = 0; i < 8 && at != end; i++) {
        unsigned distance, length = find(&distance);
        if (length < LEAST) {
            flags |= 1 << i;
            said[size++] = (unsigned char)byte_of(at);
            length = 1;
        } else {
            said[size++] = (unsigned char)(distance - 1);
            said[size++] = (unsigned char)((distance - 1) >> 8 << 4 | (length - LEAST));
        }
        while (length-- > 0)
            pass();
    }
    put(flags);
    for (int i = 0; i < size; i++)
        put(said[i]);
}

int main(void)
{
    take();
    while (at != end)
        put_eight();
    flush();
    return failed;
}
