source=grep

build() {
    by_configure --disable-nls --disable-perl-regexp
    make -j "$JOBS" SUBDIRS='lib src'
}

try() {
    take grep src/grep
    cp text input
    same grep -nE '^#|(cl|p)ass(es)?\b.*[0-9]{3}'
    same grep -ciw nested
    same grep -o '[a-z]*ough' -
    same grep 'no such words'
    with=("$root/README.md" "$root/docs/LIBC.md")
    same grep -F -c guest README.md LIBC.md
}
