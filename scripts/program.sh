# shellcheck shell=bash
# Read by ./allocd, scripts/release.sh and the scripts of bench/: which program to run, what it was made from, and how it is built.

# What all of this was proved by: the logic of the toolchain, which `rt version` says behind the name of its kit. Kits of other names with
# the same logic prove the same.
logic=dac8208d650f15bf

# One hash over all that the build of a program reads, whatever the dates of the files and their order in their folders: crates that it is
# not made of, as those of tests, may change.
# usage: sources_hash ROOT NAME
sources_hash() {
    local crates
    mapfile -t crates < <(crates_of "$1" "$2")
    (cd "$1" && {
        for crate in "${crates[@]}"; do
            for folder in src specs proofs; do
                [ ! -d "crates/$crate/$folder" ] || printf '%s\0' "crates/$crate/$folder"
            done
        done | xargs -0 sh -c 'find "$@" -type f -print0' sh | LC_ALL=C sort -z | xargs -0 sha256sum
        printf '%s\n' "${crates[@]}" | awk -F'[ :]' 'NR == FNR { is_in[$1]; next } $1 in is_in' - crates.txt
    } | sha256sum | cut -d' ' -f1)
}

file_hash() {
    sha256sum < "$1" | cut -d' ' -f1
}

# Writes what a program was made from: three lines.
# usage: write_record PROGRAM HASH_OF_SOURCES RECORD
write_record() {
    printf 'program %s\nsources %s\ntoolchain %s\n' "$(file_hash "$1")" "$2" "$(rt version)" > "$3.part" && mv "$3.part" "$3"
}

# Whether a program, in a file of its name, is the one of its record, made from just these sources.
# usage: is_made ROOT PROGRAM RECORD
is_made() {
    [ -x "$2" ] && [ -r "$3" ] || return 1
    local word value program='' sources=''
    while read -r word value; do
        case $word in
            program) program=$value ;;
            sources) sources=$value ;;
        esac
    done < "$3"
    [ "$sources" = "$(sources_hash "$1" "${2##*/}")" ] && [ "$program" = "$(file_hash "$2")" ]
}

# The crates that a program is made of, itself last, one a line.
# usage: crates_of ROOT NAME
crates_of() {
    awk -F: -v top="$2" '
        { sub(/#.*/, "") }
        NF > 1 { name = $1; sub(/ .*/, "", name); below[name] = $2 }
        function visit(name,    names, count, at) {
            if (!(name in below) || name in seen) return
            seen[name] = 1
            count = split(below[name], names, " ")
            for (at = 1; at <= count; at++) visit(names[at])
            print name
        }
        END { visit(top) }' "$1/crates.txt"
}

# How many crates to prove at a time: one a processor, as far as free memory has 3 GB for each.
lanes() {
    local processors memory
    processors=$(nproc)
    memory=$(awk '/^MemAvailable:/ { print int($2 / 3000000) }' /proc/meminfo)
    [ "$memory" -ge 1 ] || memory=1
    echo $((processors < memory ? processors : memory))
}

# Whether the toolchain is there; says how to get it where it is not, and that it is another one where it is.
has_toolchain() {
    if ! command -v rt > /dev/null; then
        echo "allocd: to prove and build it takes \`rt\`, which is not on PATH. It is the command of a Rattle kit of the logic $logic:" >&2
        echo "allocd: unpack the kit and put its folder bin/ on PATH, so that \`rt version\` ends with 'logic $logic'. It needs Python 3.8." >&2
        return 1
    fi
    local version
    version=$(rt version)
    case $version in
        *" logic $logic") echo "allocd: proving with $version" >&2 ;;
        *) echo "allocd: \`rt version\` says '$version', and all of this was proved with the logic $logic" >&2 ;;
    esac
}

# Proves and builds a program over what earlier runs kept, and writes its record. Libraries that do not stand on one another are
# proved side by side. It says on standard error how far it is.
# usage: build_program ROOT NAME SAMPLE ARGUMENT..     (the program is run on the file SAMPLE with the arguments, and must end with 0)
build_program() {
    local root=$1 name=$2 sample=$3 folder=$1/crates/$2 log sources total at_once began=$SECONDS
    shift 3
    has_toolchain || return 1
    log=$folder/out/build.log
    mkdir -p "$folder/out"
    sources=$(sources_hash "$root" "$name")
    total=$(crates_of "$root" "$name" | wc -l)
    at_once=$(lanes)
    echo "$name: proving and building $total crates, $at_once at a time. From nothing that takes an hour and a half on four free" \
        "processors, and some four hours on one. What was proved before is kept." >&2
    (cd "$folder" && rt all check --jobs "$at_once") < /dev/null 2>&1 | tee "$log" | tell_progress "$name" "$total" "$began"
    if [ "${PIPESTATUS[0]}" != 0 ]; then
        sed -n '/^== summary/,$p' "$log" | grep -v ': ok$' >&2
        echo "$name: not proved: $log says why" >&2
        return 1
    fi
    echo "$name: all proved after $(minutes "$began"); compiling" >&2
    if ! (cd "$folder" && rt run -- "$@") < "$sample" > "$log" 2>&1; then
        tail -n 3 "$log" >&2
        echo "$name: not built: $log says why" >&2
        return 1
    fi
    if [ "$sources" != "$(sources_hash "$root" "$name")" ]; then
        echo "$name: the sources have changed meanwhile: once more, please" >&2
        return 1
    fi
    write_record "$folder/out/$name" "$sources" "$folder/out/$name.made" || return 1
    echo "$name: built after $(minutes "$began")" >&2
}

# usage: tell_progress NAME TOTAL BEGAN      (reads the lines of `rt all`, which names each crate once it is done with it)
tell_progress() {
    local line count=0
    while read -r line; do
        case $line in
            '== summary') ;;
            '== '*)
                count=$((count + 1))
                echo "$1: $count of $2: ${line#== } (after $(minutes "$3"))" >&2
                ;;
        esac
    done
}

# The time since then, in words.
minutes() {
    local passed=$((SECONDS - $1))
    echo "$((passed / 60)) min $((passed % 60)) s"
}

# Prints the path of an allocd that was made from just these sources, where there is one: the released one, or else one that was built
# here. ALLOCD_BUILD=1 never takes the released one.
# usage: made_program ROOT
made_program() {
    local released=$1/dist/allocd own=$1/crates/allocd/out/allocd
    if [ -z "${ALLOCD_BUILD:-}" ] && is_made "$1" "$released" "$1/dist/RELEASE" && runs_here "$1"; then
        echo "$released"
    elif is_made "$1" "$own" "$own.made"; then
        echo "$own"
    else
        return 1
    fi
}

# Prints the path of the allocd to run, which is proved and built first where that is due.
# usage: allocd_program ROOT
allocd_program() {
    made_program "$1" && return
    build_program "$1" allocd "$1/examples/one-of-two.json" check || return 1
    echo "$1/crates/allocd/out/allocd"
}

# Whether the released program runs on this machine. The first time that it does, this is said, and what else could be done.
runs_here() {
    local told=$1/dist/.told
    [ "$1/dist/RELEASE" -ot "$told" ] && return
    "$1/dist/allocd" < /dev/null > /dev/null 2>&1
    [ $? = 2 ] || return 1
    echo "allocd: running the released program dist/allocd, made from just these sources; ALLOCD_BUILD=1 ./allocd .. proves and builds your own (README.md)" >&2
    (: > "$told") 2> /dev/null
    return 0
}
