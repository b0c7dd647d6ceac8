source=expat

build() {
    cd expat
    by_cmake -DEXPAT_BUILD_TESTS=OFF -DEXPAT_BUILD_EXAMPLES=OFF -DEXPAT_SHARED_LIBS=OFF -DEXPAT_BUILD_DOCS=OFF
}

try() {
    take xmlwf expat/build/xmlwf/xmlwf
    printf '%s\n' '<?xml version="1.0"?>' '<!DOCTYPE a [<!ENTITY e "text &lt;">]>' '<a y="2" x="1"><b>&e;</b><c/></a>' >good.xml
    echo '<a><b></a>' >bad.xml
    environment=(NESTED_SEED=1)
    with=(good.xml)
    same xmlwf good.xml
    same xmlwf -c good.xml
    with=(bad.xml)
    same xmlwf bad.xml
}
