source=bc

build() {
    NESTED_RUN=yes by_configure
    make -j "$JOBS" MAKEINFO=true
}

try() {
    take bc bc/bc
    printf '%s\n' '2^200' 'scale=40' '4*a(1)' 'e(1)' 'sqrt(2)' 'define f(n) { if (n < 2) return n; return f(n-1)+f(n-2); }' 'f(17)' 'obase=16' '123456789' >input
    same bc -l
}
