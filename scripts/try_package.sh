#!/usr/bin/env bash
# Installs, runs, replaces, removes and purges the package of scripts/package.sh in a clean Debian, and tells of each thing whether it holds:
#   try_package.sh [PROGRAM] [ROOT]
# PROGRAM is dist/allocd where none is named. The Debian is a copy of ROOT, a folder that `debootstrap --variant=minbase` made; where none is named,
# one is made from ALLOCD_MIRROR (http://deb.debian.org/debian). Where no mirror answers, dpkg has an empty folder as its root: then the program
# runs with this machine's libraries, and that the package needs nothing else is not tried.
# It runs as root, and needs Debian's packages debootstrap, dpkg, systemd (for systemd-analyze) and util-linux. It leaves nothing behind.
set -u
here=$(cd "$(dirname "$0")" && pwd)
program=$(realpath "${1:-$here/../dist/allocd}") || exit 2
given=${2:-}
. "$here/told.sh" || exit 2
need try_package dpkg-deb dpkg
need try_package debootstrap debootstrap
need try_package systemd-analyze systemd
need try_package unshare util-linux
[ "$(id -u)" = 0 ] || { echo "try_package: only root can install a package" >&2; exit 2; }

top=$(mktemp -d)
trap 'rm -rf "$top"' EXIT
root=$top/root

# Each folder, file and link of the clean Debian but those that dpkg keeps its own books in.
files() {
    (cd "$root" && find . -xdev \( -path ./proc -o -path ./sys -o -path ./dev -o -path ./var/lib/dpkg -o -path ./var/log \) -prune -o -print | LC_ALL=C sort)
}

package=$("$here/package.sh" "$program" "$top" 2> "$top/told") || { cat "$top/told" >&2; exit 2; }
sed 's/^/told: /' "$top/told"
name=${package##*/}
again=$(mkdir "$top/again" && "$here/package.sh" "$program" "$top/again" 2> /dev/null)
holds "the package is made again byte by byte" cmp "$package" "$again"

if ! clean_debian "$root" "$given" "" "$top/debootstrap"; then
    echo "no Debian can be made: $(tail -n 1 "$top/debootstrap")"
    rm -rf "$root"
fi
if [ -x "$root/usr/bin/dpkg" ]; then
    echo "a clean Debian $(cat "$root/etc/debian_version") of $(dpkg-query --admindir="$root/var/lib/dpkg" -f '.\n' -W | wc -l) packages"
    prefix=
    packages() { chroot "$root" dpkg "$@"; }
    inside() { unshare --net --pid --fork --kill-child chroot "$root" "$@"; }
    cp "$package" "$root/$name"
else
    echo "an empty folder in place of a clean Debian"
    mkdir -p "$root/var/lib/dpkg/updates" "$root/var/lib/dpkg/info" "$root/etc"
    : > "$root/var/lib/dpkg/status"
    # What dpkg leaves empty it removes.
    : > "$root/etc/hostname"
    packages() { dpkg --root="$root" --force-depends --force-script-chrootless "${@/#\/allocd/$root/allocd}"; }
    inside() { "$root/usr/bin/$1" "${@:2}"; }
    prefix=$root
    cp "$package" "$root/$name"
fi
config=$root/etc/allocd/allocd.json
unit=$root/usr/lib/systemd/system/allocd.service
files > "$top/before"

holds "it installs" packages --install "/$name"
says "the program says its version" "$(dpkg-deb -f "$package" Version)" inside allocd --version
says "its configuration is valid" "the configuration is valid" inside allocd serve --check-config --config "$prefix/etc/allocd/allocd.json"
says "and listens on loopback" '"listen": "127.0.0.1:' cat "$config"
holds "the unit is that of examples/, with the places of a package" cmp "$unit" <(sed 's|/usr/local/bin/|/usr/bin/|g' "$here/../examples/allocd.service")
holds "no file of it may be written by others" sh -c "! dpkg-deb -c '$package' | grep -q '^.....w\|^........w'"

# systemd-analyze looks whether each program is there, so it is told where.
mkdir "$top/unit"
sed "s|=/usr/bin/|=$root/usr/bin/|; s| /usr/bin/allocd | $root/usr/bin/allocd |" "$unit" > "$top/unit/allocd.service"
said=$(systemd-analyze verify "$top/unit/allocd.service" 2>&1)
tell "systemd-analyze verify has no word to say" "$([ -z "$said" ]; echo $?)" "$said"
holds "systemd-analyze security: an exposure of 2.0 at most" systemd-analyze security --no-pager --offline=true --threshold=20 "$top/unit/allocd.service"
systemd-analyze security --no-pager --offline=true "$top/unit/allocd.service" | grep 'Overall exposure' | sed 's/^[^A-Za-z]*/told: /'

# What the unit starts, reads again and ends, in a network of its own, so that its port is free.
if [ -z "$prefix" ]; then
    start=$(sed -n 's/^ExecStart=//p' "$unit")
    mkdir -p "$root/var/lib/allocd"
    cat > "$root/allocd-tried" << END
set -u
bash -c 'exec 3<> /dev/tcp/127.0.0.1/8080' 2> /dev/null && exit 9
$start 2> /allocd-log &
it=\$!
said() {
    for _ in \$(seq 100); do
        grep -q "\$1" /allocd-log && return
        sleep 0.1
    done
    cat /allocd-log
    exit 1
}
said 'msg="listening" address=127.0.0.1:8080'
kill -HUP \$it
said 'HUP: POST /-/reload: The configuration is read again'
kill -TERM \$it
wait \$it
echo "status \$?"
END
    says "what the unit starts serves, reads its configuration again, and ends with 0" "status 0" \
        unshare --net --pid --fork --kill-child sh -c "$(printf '%s' "ip link set lo up && exec chroot '$root' bash /allocd-tried")"
    holds "the journal is there" test -s "$root/var/lib/allocd/allocator.journal"
    says "and replays" "total 0" sh -c "chroot '$root' allocd replay < '$root/var/lib/allocd/allocator.journal'"
    rm -f "$root/allocd-tried" "$root/allocd-log"
fi

sed -i 's/"10m"/"5m"/' "$config"
holds "it installs over itself" packages --install "/$name"
says "and the configuration that was changed stays" '"5m"' cat "$config"
holds "it is removed" packages --remove allocd
holds "the program, the supervisor, the unit and the documents are gone" \
    sh -c "! ls -d '$root'/usr/bin/allocd* '$unit' '$root/usr/share/doc/allocd' 2> /dev/null"
holds "the configuration stays" test -s "$config"
if [ -z "$prefix" ]; then
    holds "and so does the journal" test -s "$root/var/lib/allocd/allocator.journal"
fi
holds "it is purged" packages --purge allocd
if [ -z "$prefix" ]; then
    holds "the journal stays then too" test -s "$root/var/lib/allocd/allocator.journal"
    rm -rf "$root/var/lib/allocd"
fi
files > "$top/after"
holds "nothing else is left of it" diff "$top/before" "$top/after"

told
