source=gzip

build() {
    by_configure --disable-nls
    make -j "$JOBS"
}

try() {
    take gzip gzip
    cp text input
    sizes=(--heap 512)
    same gzip -9nc
    cp wanted input
    same gzip -dc
    cp "$root/README.md" .
    with=(README.md) keep=(README.md.gz)
    same gzip -n README.md
}
