source=fmtlib
language=C++

build() {
    by_cmake -DFMT_TEST=OFF -DFMT_DOC=OFF
    "${tools}g++" -O2 -I../include -o formats "$here/programs/formats.cc" libfmt.a
}

try() {
    take formats build/formats
    sizes=(--heap 512)
    same formats one two
}
