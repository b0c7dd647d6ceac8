source=xz-utils

build() {
    by_configure --disable-shared --disable-nls --disable-threads --disable-doc
    make -j "$JOBS"
}

try() {
    take xz src/xz/xz
    sizes=(--heap 12288)
    packs xz -3c -- -dc
}
