source=figlet

build() {
    by_make figlet LD="${tools}gcc"
}

try() {
    take figlet figlet
    with=(sources/figlet/fonts/standard.flf sources/figlet/fonts/slant.flf)
    same figlet -d . nested
    same figlet -d . -f slant -w 60 -c any program
}
