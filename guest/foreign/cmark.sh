source=cmark

build() {
    by_cmake -DCMARK_TESTS=OFF -DCMARK_SHARED=OFF
}

try() {
    take cmark build/src/cmark
    sizes=(--heap 512)
    cp "$root/README.md" input
    same cmark
}
