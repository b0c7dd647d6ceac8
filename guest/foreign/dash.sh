source=dash

build() {
    by_configure
    make -j "$JOBS"
}

try() {
    take dash src/dash
    cat >script.sh <<'TEXT'
f() { while [ $# -gt 0 ]; do case $1 in a*) echo "an $1";; *) printf '%s|%05d\n' "$1" $((i * 3));; esac; i=$((i + 1)); shift; done; }
i=1; f apple pear art; set -- x y z; for w; do echo "<$w>"; done
text=/a/path/to.tar.gz; echo "${text##*/} ${text%%.*} ${text%/*} ${#text} ${none:-default}"
while read -r line; do echo "line: $line"; done <README.md
eval 'echo $((1 << 20))'; trap 'echo leaves' EXIT; exit 3
TEXT
    with=(script.sh "$root/README.md")
    same dash script.sh
}
