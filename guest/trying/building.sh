# How guest/try gets the sources of others and builds them, once for this machine and once for guests. Sourced by guest/try.

# fetch PACKAGE: brings the archive of Debian's source package into the folder of downloads, by lists of its own, since machines seldom have those of
# sources
fetch() {
    local options=(-o "Dir::Etc::SourceList=$work/apt/list" -o Dir::Etc::SourceParts=- -o "Dir::State::Lists=$work/apt/lists")
    if [ ! -d apt ]; then
        mkdir -p apt/lists/partial
        echo "deb-src http://deb.debian.org/debian $(. /etc/os-release && echo "$VERSION_CODENAME") main" >apt/list
        apt-get "${options[@]}" update
    fi
    (cd "$downloads" && apt-get "${options[@]}" source --download-only "$1")
}

archive_of() {
    find "$downloads" -name "$1_*.orig.tar.*" ! -name '*.asc' | head -n 1
}

# has_source PACKAGE: unpacks a source into sources/PACKAGE
has_source() {
    local file tops
    [ ! -d "sources/$1" ] || return 0
    file=$(archive_of "$1")
    if [ -z "$file" ]; then
        fetch "$1" >fetch.log 2>&1 || true
        file=$(archive_of "$1")
    fi
    if [ ! -f "$file" ]; then
        skip "$1, since its source cannot be had"
        return 1
    fi
    mkdir "sources/$1"
    # some archives have one folder at their top, and others have none
    tops=$(tar tf "$file" | sed 's|^\./||; s|/.*||' | sort -u | grep -c .)
    tar xf "$file" -C "sources/$1" --strip-components $((tops == 1))
}

version_of() {
    archive_of "$1" | sed 's/.*_//; s/\.orig\.tar.*//; s/[+~.]dfsg.*//; s/+ds[0-9]*//'
}

# make_in FOLDER PACKAGE COMMAND..: copies the source, and runs the command there
make_in() {
    local folder=$1 name=$2 log
    shift 2
    rm -rf "$folder"
    cp -a "sources/$name" "$folder"
    log=$logs/$name.${folder%%/*}.$order
    (cd "$folder" && "$@") >"$log" 2>&1 || fail "$name is not built: $(tail -n 5 "$log"); all that was said is in $log"
}

# make_both PACKAGE: builds the native program, once, and the guest, by the function `build` of its recipe. Of a build `tools` is how the names of
# compilers and of their companions begin, `prefix` the folder where what is installed goes and is found, and `made` the words for make and configure.
make_both() {
    local tools prefix made
    if [ ! -f "native/$1/.made" ]; then
        tools= prefix=$folder/native/prefix made=(CC=gcc CXX=g++)
        make_in "native/$1" "$1" build
        touch "native/$1/.made"
    fi
    tools=$kit/bin/nested- prefix=$kit made=(CC="${tools}gcc" CXX="${tools}g++" AR="${tools}ar" RANLIB="${tools}ranlib")
    make_in guest "$1" build
}

is_native() {
    [ -z "$tools" ]
}

# by_make WORDS..: make with these words; `made` are the words of the compiler
by_make() {
    make -j "$JOBS" "${made[@]}" "$@"
}

# by_configure WORDS..: configure with these words
by_configure() {
    if is_native; then
        ./configure --prefix="$prefix" CPPFLAGS="-I$prefix/include" LDFLAGS="-L$prefix/lib" "$@"
    else
        "$kit/bin/nested-configure" --prefix="$prefix" "$@"
    fi
}

# by_cmake WORDS..: configures and builds in the folder `build`
by_cmake() {
    local words=(-DCMAKE_BUILD_TYPE=Release -DCMAKE_INSTALL_PREFIX="$prefix" -DBUILD_SHARED_LIBS=OFF)
    is_native || words+=(-DCMAKE_TOOLCHAIN_FILE="$kit/lib/nested.cmake")
    ! is_native || words+=(-DCMAKE_PREFIX_PATH="$prefix")
    mkdir -p build
    cd build
    cmake "${words[@]}" "$@" ..
    make -j "$JOBS"
}
