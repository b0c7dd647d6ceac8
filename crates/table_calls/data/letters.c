int syscall3(int number, int a, int b, int c);

static unsigned length(const char *text) {
    unsigned n = 0;
    while (text[n]) n++;
    return n;
}

static void put(const char *text) {
    syscall3(5, 1, (int)text, (int)length(text));
}

static void put_number(unsigned n) {
    char digits[12];
    int at = 12;
    digits[--at] = 0;
    do {
        digits[--at] = (char)('0' + n % 10);
        n /= 10;
    } while (n);
    put(&digits[at]);
}

static void put_pair(const char *name, unsigned n) {
    put(name);
    put(" ");
    put_number(n);
    put("\n");
}

static int counts[26];

/* How often each letter stands in a text; LL and SC, where the machine has them. */
static void count(const char *text) {
    for (; *text; text++)
        if (*text >= 'a' && *text <= 'z') __sync_fetch_and_add(&counts[*text - 'a'], 1);
}

/* The bytes of a word and its halves, as they stand in memory. */
static union {
    unsigned word;
    unsigned short halves[2];
    unsigned char bytes[4];
} laid;

int main(int argc, char **argv) {
    unsigned all = 0, different = 0;
    for (int i = 1; i < argc; i++) count(argv[i]);
    for (int i = 0; i < 26; i++) {
        char name[2] = {(char)('a' + i), 0};
        if (counts[i] == 0) continue;
        put_pair(name, (unsigned)counts[i]);
        all += (unsigned)counts[i];
        different++;
    }
    if (different) put_pair("each", all / different);
    laid.word = 0x11223344;
    put_pair("first byte", laid.bytes[0]);
    put_pair("last byte", laid.bytes[3]);
    put_pair("first half", laid.halves[0]);
    laid.halves[1] = 0xabcd;
    put_pair("word", laid.word);
    return different ? (int)(all % different) : 0;
}
