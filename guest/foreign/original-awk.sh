source=original-awk

build() {
    by_make a.out HOSTCC=gcc
}

try() {
    take awk a.out
    cp text input
    with=("$here/programs/script.awk")
    same awk -f script.awk
}
