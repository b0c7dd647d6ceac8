source=lua5.4

build() {
    by_make generic AR="${tools}ar rcu"
}

try() {
    take lua src/lua
    sizes=(--heap 512) with=("$here/programs/script.lua")
    same lua script.lua one two
}
