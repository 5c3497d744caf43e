#!/usr/bin/env bash
# The released program: dist/allocd, and dist/RELEASE, which says what it was made from (three lines: the sha256 of the program,
# one hash over its sources, the toolchain).
# usage: scripts/release.sh                proves and builds the program and writes both
#        scripts/release.sh --gate         the same by the gate: `rt ci` has to pass, and the program is the one that it built
#        scripts/release.sh --is-current   ends with 0 where dist/allocd is the program of RELEASE and these are its sources, else 1
#        scripts/release.sh --check        proves and builds it from nothing in a fresh copy, and compares it byte by byte
set -u
root=$(cd "$(dirname "${BASH_SOURCE[0]}")/.." && pwd) || exit 2
. "$root/scripts/program.sh" || exit 2
released=$root/dist/allocd
record=$root/dist/RELEASE
own=$root/crates/allocd/out/allocd
sample=examples/one-of-two.json

# A file that git does not know counts among the sources here, and is in no clone.
tell_untracked() {
    local found
    found=$(cd "$root" && git ls-files --others -- ':(glob)crates/*/src/**' ':(glob)crates/*/specs/**' ':(glob)crates/*/proofs/**' 2> /dev/null)
    [ -z "$found" ] || printf 'release: among the sources, and not known to git:\n%s\n' "$found" >&2
}

write_release() {
    tell_untracked
    is_made "$root" "$own" "$own.made" || build_program "$root" allocd "$root/$sample" check || return 1
    mkdir -p "$root/dist"
    cp "$own" "$released.part" && chmod 755 "$released.part" && mv "$released.part" "$released" && cp "$own.made" "$record"
}

# The gate leaves the program where a build does.
write_by_gate() {
    local sources
    sources=$(sources_hash "$root" allocd)
    (cd "$root" && rt ci) || return 1
    [ "$sources" = "$(sources_hash "$root" allocd)" ] || { echo "release: the sources have changed meanwhile: once more, please" >&2 && return 1; }
    write_record "$own" "$sources" "$own.made" && write_release
}

# Nothing but the sources goes into the copy, so nothing that was proved before.
check_release() {
    local copy
    copy=$(mktemp -d) || return 1
    trap 'rm -rf "$copy"' EXIT
    (cd "$root" && tar -cf - --exclude=out crates crates.txt HANDLES "$sample") | tar -xf - -C "$copy" || return 1
    build_program "$copy" allocd "$copy/$sample" check || return 1
    cmp "$copy/crates/allocd/out/allocd" "$released"
}

case ${1:-} in
    '')
        write_release || exit 1
        cat "$record"
        ;;
    --gate)
        write_by_gate || exit 1
        cat "$record"
        ;;
    --is-current)
        is_made "$root" "$released" "$record"
        ;;
    --check)
        if ! is_made "$root" "$released" "$record"; then
            echo "release: dist/allocd is not of these sources: scripts/release.sh makes it" >&2
            exit 1
        fi
        check_release || exit 1
        echo "release: built again, the same byte for byte"
        ;;
    *)
        sed -n '2,7s/^# //p' "$0" >&2
        exit 2
        ;;
esac
