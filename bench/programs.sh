# shellcheck shell=bash disable=SC2034
# Read by the scripts beside it, where `root` is the repository: `allocd` is the path of the program to measure, and the function
# bench_programs prints that of the programs beside it. Both are proved and built first where that is due.
. "$root/scripts/program.sh"
allocd=$(allocd_program "$root" < /dev/null)

# The programs of bench/programs are no part of the gate, which refuses sources that it does not prove: so they end with `.txt` there. They are
# proved and built in a folder that has the crates they stand on, too.
# usage: fill_room ROOM
fill_room() {
    local folder room part
    mkdir -p "$1"
    cp "$root/HANDLES" "$1/HANDLES"
    cat "$root/crates.txt" "$root/bench/programs/lines.txt" > "$1/crates.txt"
    for folder in "$root"/crates/* "$root"/bench/programs/*/; do
        room=$1/crates/$(basename "$folder")
        mkdir -p "$room"
        find "$room" -mindepth 1 -maxdepth 1 ! -name out -exec rm -rf {} +
        find "$folder" -mindepth 1 -maxdepth 1 ! -name out -exec cp -r {} "$room/" \;
    done
    find "$1/crates" -name out -prune -o \( -name '*.rt.txt' -o -name '*.antt.txt' \) -exec sh -c 'mv "$1" "${1%.txt}"' sh {} \;
}

# Prints the path of a program, which is proved and built first where that is due: then it is run with these words, and must end.
# usage: bench_program NAME SAMPLE WORD ..
bench_program() {
    local name=$1 sample=$2
    local room=${XDG_CACHE_HOME:-$HOME/.cache}/allocd/bench
    local folder=$room/crates/$name
    shift 2
    fill_room "$room"
    is_made "$room" "$folder/out/$name" "$folder/out/$name.made" || build_program "$room" "$name" "$sample" "$@" || return 1
    echo "$folder/out/$name"
}

# the first argument of what it prints says which program: see bench/programs/bench_programs/src/main.rt.txt
bench_programs() {
    bench_program bench_programs "$root/bench/programs/bench_programs/stdin" relabel 3
}

bare_server() {
    bench_program bare_server /dev/null 0 0 0 0
}
