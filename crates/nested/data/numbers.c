int syscall3(int number, int a, int b, int c);

static unsigned length(const char *text) {
    unsigned n = 0;
    while (text[n]) n++;
    return n;
}

static void put(const char *text) {
    syscall3(5, 1, (int)text, (int)length(text));
}

static void put_number(unsigned n) {
    char digits[12];
    int at = 12;
    digits[--at] = 0;
    do {
        digits[--at] = (char)('0' + n % 10);
        n /= 10;
    } while (n);
    put(&digits[at]);
}

static unsigned table[64];

static void sort(unsigned *numbers, int n) {
    for (int i = 1; i < n; i++) {
        unsigned moved = numbers[i];
        int j = i;
        while (j > 0 && numbers[j - 1] > moved) {
            numbers[j] = numbers[j - 1];
            j--;
        }
        numbers[j] = moved;
    }
}

int main(int argc, char **argv) {
    unsigned state = 1, sum = 0;
    for (int i = 0; i < 64; i++) {
        state = state * 1664525u + 1013904223u;
        table[i] = state >> 16;
    }
    sort(table, 64);
    for (int i = 0; i < 64; i += 9) {
        put_number(table[i]);
        put(i + 9 < 64 ? " " : "\n");
        sum += table[i];
    }
    for (int i = 0; i < argc; i++) {
        put(argv[i]);
        put("\n");
    }
    return (int)(sum % 100);
}
