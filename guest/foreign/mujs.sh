source=mujs

build() {
    by_make build/release/mujs HAVE_READLINE=no
}

try() {
    take mujs build/release/mujs
    sizes=(--heap 1024) with=("$here/programs/script.js")
    same mujs script.js
}
