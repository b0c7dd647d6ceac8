source=libwebp

build() {
    by_configure --disable-shared --disable-threading --disable-png --disable-jpeg --disable-tiff --disable-gif --disable-gl --disable-sdl --disable-wic
    make -j "$JOBS"
}

try() {
    take dwebp examples/dwebp
    take cwebp examples/cwebp
    with=(sources/libwebp/examples/test.webp) keep=(picture.ppm) sizes=(--heap 8192)
    same dwebp test.webp -ppm -o picture.ppm -quiet
    cp scratch/picture.ppm .
    with=(picture.ppm) keep=(picture.webp)
    same cwebp -quiet -q 60 -m 2 picture.ppm -o picture.webp
}
