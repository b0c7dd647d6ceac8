source=bzip2

build() {
    by_make bzip2
}

try() {
    take bzip2 bzip2
    sizes=(--heap 2048) with=(text) keep=(text.bz2)
    same bzip2 -k text
    cp scratch/text.bz2 .
    with=(text.bz2) keep=(text)
    same bzip2 -dk text.bz2
}
