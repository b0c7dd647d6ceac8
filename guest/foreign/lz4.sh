source=lz4

build() {
    by_make lz4
}

try() {
    take lz4 lz4
    sizes=(--heap 8192)
    packs lz4 -qc -- -dqc
}
