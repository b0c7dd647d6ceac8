source=yaml-cpp
language=C++

build() {
    by_cmake -DYAML_CPP_BUILD_TESTS=OFF -DYAML_CPP_BUILD_TOOLS=ON
}

try() {
    take parse build/util/parse
    sizes=(--heap 1024)
    printf '%s\n' '# a list' '- {a: 1, b: [x, "y\tz"]}' '- &anchor text' '- *anchor' '- |' '  many' '  lines' '- ? [k]' '  : 0x1F' >input
    same parse
    # what throws
    printf '%s\n' 'a: [1, 2' 'b: }' >input
    same parse
}
