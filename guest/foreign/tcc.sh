source=tcc

build() {
    ./configure --cross-prefix="$tools" --cpu=x86_64 --extra-cflags=-O2 --config-static
    make -j "$JOBS" tcc
}

try() {
    take tcc tcc
    printf '%s\n' '#define TIMES(x, y) ((x) * (y))' 'static int f(int n) { return n < 2 ? n : f(n - 1) + f(n - 2); }' 'int main(void) { double x = 2.5; return (int)TIMES(f(12), x); }' >source.c
    sizes=(--heap 4096) with=(source.c)
    same tcc -E source.c
    # it writes objects, which are little-endian here, in the order of its own bytes
    if [ "$order" = little ]; then
        keep=(source.o)
        same tcc -c source.c -o source.o
    fi
}
