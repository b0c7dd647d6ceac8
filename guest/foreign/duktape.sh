source=duktape

build() {
    by_make -f Makefile.cmdline
}

try() {
    take duk duk
    sizes=(--heap 1024) with=("$here/programs/script.js")
    same duk script.js
}
