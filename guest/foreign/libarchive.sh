source=libarchive

build() {
    by_configure --disable-shared --disable-acl --disable-xattr --without-bz2lib --without-lzma --without-zstd --without-lz4 --without-xml2 --without-expat --without-openssl --without-iconv --without-libb2 --without-nettle
    make -j "$JOBS" bsdtar bsdcat
}

try() {
    take bsdtar bsdtar
    cp "$root/README.md" "$root/docs/LIBC.md" .
    with=(README.md LIBC.md) keep=(both.tar.gz) sizes=(--heap 2048)
    touch -d @0 README.md LIBC.md
    (tar czf both.tar.gz --owner=0 --group=0 README.md LIBC.md)
    with=(both.tar.gz) keep=()
    same bsdtar -tf both.tar.gz
    keep=(README.md LIBC.md)
    same bsdtar -xf both.tar.gz
}
