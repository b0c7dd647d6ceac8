source=snappy
language=C++

build() {
    by_cmake -DSNAPPY_BUILD_TESTS=OFF -DSNAPPY_BUILD_BENCHMARKS=OFF
    "${tools}g++" -O2 -I.. -I. -o packing "$here/programs/packing.cc" libsnappy.a
}

try() {
    take packing build/packing
    sizes=(--heap 1024)
    packs packing -- -d
}
