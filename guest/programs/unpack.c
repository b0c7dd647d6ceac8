/* Unpacks to output what pack.c has packed, in the form that stands there. What cannot be of that form ends it with status 1. */
#include "bytes.h"

enum { BACK = 4096, LEAST = 3 };

/* The last bytes of output, how many places they are on, and how many of them there are. */
static unsigned char room[BACK];
static unsigned at, known;

static void tell(unsigned byte)
{
    put((int)byte);
    room[at++ % BACK] = (unsigned char)byte;
    if (known < BACK)
        known++;
}

/* Tells again the text that two bytes name. */
static void repeat(int first, int second)
{
    unsigned distance = ((unsigned)second >> 4 << 8 | (unsigned)first) + 1;
    if (second < 0 || distance > known) {
        failed = 1;
        return;
    }
    for (int length = (second & 15) + LEAST; length > 0; length--)
        tell(room[(at - distance) % BACK]);
}

int main(void)
{
    int flags, byte;
    while (!failed && (flags = get()) >= 0)
        for (int i = 0; i < 8 && !failed && (byte = get()) >= 0; i++)
            if (flags >> i & 1)
                tell((unsigned)byte);
            else
                repeat(byte, get());
    flush();
    return failed;
}
