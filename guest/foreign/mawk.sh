source=mawk

build() {
    by_configure --with-builtin-srand
    make -j "$JOBS"
}

try() {
    take mawk mawk
    cp text input
    with=("$here/programs/script.awk")
    same mawk -f script.awk
}
