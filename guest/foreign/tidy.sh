source=tidy-html5

build() {
    by_cmake -DBUILD_SHARED_LIB=OFF -DSUPPORT_CONSOLE_APP=ON
}

try() {
    take tidy build/tidy
    printf '%s\n' '<title>A page</title><p>one<p>two <b>bold <i>both</b></i><ul><li>a<li>b</ul><table><td>x</table>' >input
    sizes=(--heap 512)
    same tidy -q --tidy-mark no -i -w 60
    same tidy -q --tidy-mark no -asxml
}
