source=sqlite3

build() {
    by_configure --disable-shared --disable-threadsafe --disable-load-extension --disable-readline --disable-tcl
    by_make sqlite3
}

try() {
    take sqlite3 sqlite3
    cp "$here/programs/script.sql" input
    sizes=(--heap 1536) keep=(base)
    same sqlite3 base
}
