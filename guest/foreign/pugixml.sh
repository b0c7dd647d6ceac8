source=pugixml
language=C++

build() {
    by_cmake
    "${tools}g++" -O2 -I../src -o trees "$here/programs/trees.cc" libpugixml.a
}

try() {
    take trees build/trees
    sizes=(--heap 512)
    printf '%s\n' '<?xml version="1.0"?>' '<!-- a shop --><shop>' '<list><item name="bread" price="2.75">one</item><item name="apple" price="0.5">two</item>' \
        '<gone/><item name="h&#228;m" price="10.25"><![CDATA[<three>]]></item></list>' '<text> a  b' 'c d&#x20AC; </text></shop>' >input
    same trees
    # what is cut off
    printf '%s\n' '<shop><list><item name="bread"' >input
    same trees
}
