source=libpng1.6
needs=zlib

build() {
    by_configure --disable-shared
    make -j "$JOBS" pngtest pngfix
}

try() {
    take pngtest pngtest
    with=(sources/libpng1.6/pngtest.png) keep=(pngout.png) sizes=(--heap 1024)
    same pngtest pngtest.png
    take pngfix pngfix
    keep=(fixed.png)
    same pngfix --strip=color --out=fixed.png pngtest.png
}
