source=zlib

build() {
    is_native || export CHOST="$("$kit/bin/nested-gcc" -dumpmachine)"
    env "${made[@]}" ./configure --static --prefix="$prefix"
    by_make minigzip
    make install
}

try() {
    take minigzip minigzip
    sizes=(--heap 512)
    cp text input
    same minigzip
    cp wanted input
    same minigzip -d
}
