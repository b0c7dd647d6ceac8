source=libyaml

build() {
    by_cmake -DBUILD_TESTING=ON
}

try() {
    take reformatter build/example-reformatter
    printf '%s\n' '# a list' '- {a: 1, b: [x, "y\tz"]}' '- &anchor text' '- *anchor' '- |' '  many' '  lines' >input
    same reformatter
}
