source=libjpeg-turbo

build() {
    by_cmake -DWITH_SIMD=OFF -DENABLE_SHARED=OFF -DWITH_TURBOJPEG=OFF
}

try() {
    take cjpeg build/cjpeg-static
    take djpeg build/djpeg-static
    take jpegtran build/jpegtran-static
    cp sources/libjpeg-turbo/testimages/testorig.ppm input
    sizes=(--heap 1024)
    same cjpeg -quality 80 -progressive
    cp wanted picture.jpg
    cp picture.jpg input
    same djpeg -ppm
    same djpeg -dct float -gif
    same jpegtran -rotate 90 -optimize
}
