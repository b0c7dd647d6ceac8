source=m4

build() {
    by_configure --disable-nls
    make -j "$JOBS" SUBDIRS='. lib src'
}

try() {
    take m4 src/m4
    cat >input <<'TEXT'
define(`fact', `ifelse($1, 0, 1, `eval($1 * fact(decr($1)))')')dnl
fact(10) include(`part.m4')
define(`each', `ifelse($#, 1, [$1], `[$1] each(shift($@))')')each(a, b, c)
patsubst(`a guest in a house', `[aeiou]', `<\&>') translit(`nested', `a-z', `A-Z') format(`%05d %x', 42, 255)
divert(1)later
divert(0)sooner len(`four') index(`abcdef', `cd') substr(`abcdef', 2, 3)
TEXT
    echo 'part NAME' >part.m4
    with=(part.m4)
    same m4 -DNAME=value
}
