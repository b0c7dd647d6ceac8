source=libxml2

build() {
    by_configure --disable-shared --without-python --without-threads --without-zlib --without-lzma --without-http --without-ftp --without-iconv
    make -j "$JOBS" xmllint
}

try() {
    take xmllint xmllint
    printf '%s\n' '<?xml version="1.0"?>' '<!DOCTYPE a [<!ENTITY e "text">]>' '<a y="2" x="1"><b>&e;</b><b n="3">x</b><c/></a>' >good.xml
    sizes=(--heap 1024) with=(good.xml)
    same xmllint --format --noent good.xml
    same xmllint --xpath 'sum(//b/@n) + count(//b) * 2.5' good.xml
    same xmllint --html --xmlout good.xml
}
