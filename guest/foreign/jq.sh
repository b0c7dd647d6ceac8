source=jq

build() {
    autoreconf -fi
    by_configure --disable-shared --enable-all-static --disable-maintainer-mode --without-oniguruma --disable-docs
    make -j "$JOBS"
}

try() {
    take jq jq
    echo '{"name":"guest","items":[{"n":1,"v":2.5},{"n":2,"v":-1e10},{"n":3,"v":null}],"text":"a\u00e9\ud83d\ude00"}' >input
    sizes=(--heap 1024)
    same jq .
    same jq -c '[.items[] | select(.v != null) | {key: "k\(.n)", value: (.v * 3 / 7)}] | from_entries, (map(.value) | add)'
    same jq -r '.text, (.text | explode | @csv), ([range(20)] | map(. * .) | tostring), (now | type)'
}
