source=sed

build() {
    by_configure --disable-nls --disable-acl --without-selinux
    make -j "$JOBS" SUBDIRS=.
}

try() {
    take sed sed/sed
    cp text input
    same sed -nE 's/^(#+) (.*)/\2 (\1)/p; /proved/=; $p'
    same sed -e '/^|/!d' -e 'y/abc/ABC/; s/[^|]*|\([^|]*\)|.*/<\1>/'
    with=("$root/README.md") keep=(README.md)
    same sed -i 's/nested/NESTED/g' README.md
}
