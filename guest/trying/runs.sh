# How guest/try runs a guest in three ways and holds what it does to what a native build does. Sourced by guest/try.

# What a run is held to: its status, its output, and what it keeps, as words NAME=FILE.
wanted_status=0
wanted_output=$work/wanted
kept=()

# Of a case: options of interp, go and translate; the files that the program finds in the folder where it runs, where they come `from` if they are in
# folders there, too; those that it keeps; its environment; and the name that it finds for its own.
sizes=()
with=()
from=
keep=()
environment=()
called=Main

now() {
    date +%s%N
}

# run NAME COMMAND..: runs a command in the folder `run` with the file `input` for input, and holds it to what is wanted. It leaves the milliseconds
# of processor time in `spent`.
run() {
    local name=$1 status=0 pair TIMEFORMAT='%3U %3S'
    shift
    for pair in ${kept[@]+"${kept[@]}"}; do
        rm -f "run/${pair%%=*}"
    done
    lay run
    { time { (cd run && "$@") <input >output 2>errors || status=$?; }; } 2>times
    spent=$(awk '{ printf "%d", ($1 + $2) * 1000 }' times)
    printf '%s: %d ms\n' "$name" "$spent"
    [ "$status" -eq "$wanted_status" ] || fail "$name ended with status $status, and not $wanted_status: $(tail -n 3 errors)"
    cmp output "$wanted_output" || fail "$name has another output"
    for pair in ${kept[@]+"${kept[@]}"}; do
        cmp "run/${pair%%=*}" "${pair#*=}" || fail "$name keeps another ${pair%%=*}"
    done
}

# three_ways NAME SIZES FILES WORDS..: runs the guest run/NAME: SIZES are options of interp, go and translate, FILES also of the launcher
three_ways() {
    by_nested "$@"
    on_jvm "$@"
}

# by_nested NAME SIZES FILES WORDS..: by interp and by go
by_nested() {
    local name=$1 sizes files
    read -ra sizes <<<"$2"
    read -ra files <<<"$3"
    run "  $name by interp" "$nested" interp "$name" --name "$called" "${sizes[@]}" "${files[@]}" -- "${@:4}"
    took interp "$name"
    run "  $name by go" "$nested" go "$name" --name "$called" "${sizes[@]}" "${files[@]}" -- "${@:4}"
    took go "$name"
    rm -f "run/$called"*.class
}

# on_jvm NAME SIZES FILES WORDS..: the same, translated, on a Java virtual machine
on_jvm() {
    local name=$1 sizes files
    [ -n "$java" ] || return 0
    read -ra sizes <<<"$2"
    read -ra files <<<"$3"
    shift 3
    (cd run && "$nested" translate "$name" --name "$called" "${sizes[@]}" --method-bytes 4096) >/dev/null
    run "  $name on the JVM" java -XX:TieredStopAtLevel=1 -cp "$host" nestedvm.Run "$called" "${files[@]}" -- "$@"
    took jvm "$name"
    rm -f "run/$called"*.class
}

# took WAY NAME: notes the milliseconds of a run for the table
took() {
    echo "$1 $2 $spent" >>"${record:-/dev/null}"
}

# built NAME FILE: takes a guest that was built, and says how large it is
built() {
    cp "$2" "run/$1"
    "$kit/bin/nested-strip" "run/$1"
    echo "$1, $order: $(stat -c %s "run/$1") bytes"
    echo "bytes $1 $(stat -c %s "run/$1")" >>"${record:-/dev/null}"
    mkdir -p "$folder/guests/$order"
    cp "run/$1" "$folder/guests/$order/"
}

# take NAME PATH: takes a program of both builds, which stands at PATH in them; what the build of the guest runs is a script, and PATH.guest the guest
take() {
    local path=guest/$2
    ln -sf "$work/native/$source/$2" "bin/$1"
    [ ! -f "$path.guest" ] || path=$path.guest
    built "$1" "$path"
}

# lay FOLDER: puts the files there that a program finds
lay() {
    if [ -n "$from" ]; then
        (cd "$from" && cp --parents "${with[@]}" "$work/$1/")
    elif [ ${#with[@]} -gt 0 ]; then
        cp "${with[@]}" "$1/"
    fi
}

found_as() {
    if [ -n "$from" ]; then
        joined "${with[@]}"
    else
        joined "${with[@]##*/}"
    fi
}

# settings: the environment as the first words of a guest; its values have no blanks
settings() {
    [ ${#environment[@]} -eq 0 ] || echo "${environment[*]} --"
}

joined() {
    local IFS=,
    echo "$*"
}

# same NAME WORDS..: runs the native program and the guest with the same words, in folders that hold the files `with`, on the file `input`, and holds
# the guest to the native program's output, status and files `keep`
same() {
    local name=$1 file files="" TIMEFORMAT='%3U %3S'
    shift
    rm -rf scratch
    mkdir scratch
    lay scratch
    wanted_status=0
    { time { (cd scratch && exec env -i PATH="$PATH" ${environment[@]+"${environment[@]}"} "$work/bin/$name" "$@") <input >wanted 2>errors || wanted_status=$?; }; } 2>times
    spent=$(awk '{ printf "%d", ($1 + $2) * 1000 }' times)
    took native "$name"
    kept=()
    for file in ${keep[@]+"${keep[@]}"}; do
        kept+=("$file=$work/scratch/$file")
    done
    [ ${#with[@]} -eq 0 ] || files="--with $(found_as)"
    [ ${#keep[@]} -eq 0 ] || files="$files --keep $(joined "${keep[@]}")"
    three_ways "$name" "${sizes[*]}" "$files" $(settings) "$@"
    kept=()
    wanted_status=0
}

# packs NAME WORDS.. -- OTHERS..: packs the file `text` by the guest with these words, and unpacks by OTHERS what the native program packed. The packed
# bytes may depend on the machine, so the guest's are held to this: the native program unpacks them, and each of the three ways gives the same.
packs() {
    local name=$1 words=()
    shift
    while [ "$1" != -- ]; do
        words+=("$1")
        shift
    done
    shift
    cp text input
    "$nested" interp "run/$name" "${sizes[@]}" -- $(settings) "${words[@]}" <input >wanted
    "bin/$name" "$@" <wanted | cmp - text || fail "what $name packs is not unpacked"
    three_ways "$name" "${sizes[*]}" "" $(settings) "${words[@]}"
    "bin/$name" "${words[@]}" <input >packed
    mv packed input
    same "$name" "$@"
}
