source=brotli

build() {
    by_cmake
}

try() {
    take brotli build/brotli
    sizes=(--heap 12288)
    packs brotli -q 9 -c -- -dc
}
