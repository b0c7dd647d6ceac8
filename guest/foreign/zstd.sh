source=libzstd

build() {
    by_make -C programs zstd-release HAVE_THREAD=0 HAVE_ZLIB=0 HAVE_LZMA=0 HAVE_LZ4=0 CPPFLAGS=-DPLATFORM_POSIX_VERSION=200112L
}

try() {
    take zstd programs/zstd
    sizes=(--heap 8192)
    packs zstd -qc -7 -- -dqc
}
