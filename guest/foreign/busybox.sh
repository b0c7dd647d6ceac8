source=busybox

build() {
    make allnoconfig
    for name in CAT ECHO EXPR FACTOR FOLD HEAD TAIL SORT UNIQ WC CUT TR NL OD PASTE SEQ SHA256SUM MD5SUM BASE64 TAC SED GREP EGREP AWK DIFF CMP DC XXD STRINGS CAL PRINTF TEST GZIP GUNZIP; do
        sed -i "s/^# CONFIG_$name is not set/CONFIG_$name=y/" .config
    done
    yes '' | make oldconfig
    make -j "$JOBS" CROSS_COMPILE="$tools" busybox
}

try() {
    take busybox busybox_unstripped
    # it does what its name says, and where that is busybox, what its first word says
    called=busybox
    cp text input
    same busybox sort -r
    same busybox wc
    same busybox sha256sum
    same busybox awk '{ n += NF } END { print n, NR }'
    same busybox sed -n 's/^## //p'
}
