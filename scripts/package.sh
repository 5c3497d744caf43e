#!/usr/bin/env bash
# Makes a Debian package of allocd, and writes its path: package.sh [PROGRAM] [FOLDER]
# PROGRAM is dist/allocd where none is named, and FOLDER, into which the package is put, the one where you are. It needs dpkg-deb.
# The package has the program, allocd-supervise, examples/allocd.service as a unit, examples/default.json as /etc/allocd/allocd.json, and README,
# docs and examples. It is made of bytes, names and modes alone: equal sources give equal packages. A licence is packed where the repository has one.
set -eu
root=$(cd "$(dirname "$0")/.." && pwd)
program=${1:-$root/dist/allocd}
folder=${2:-.}
command -v dpkg-deb > /dev/null || { echo "package: dpkg-deb is not here: it is in Debian's package dpkg" >&2; exit 2; }
if [ ! -x "$program" ] || [ ! -d "$folder" ]; then
    echo "usage: package.sh [PROGRAM] [FOLDER]" >&2
    exit 2
fi
version=$("$program" --version | sed -n 's/^allocd \([0-9][0-9A-Za-z.+~]*\)$/\1/p')
[ -n "$version" ] || { echo "package: $program does not say its version" >&2; exit 2; }
shared=usr/share/doc/allocd
umask 022
top=$(mktemp -d)
trap 'rm -rf "$top"' EXIT
tree=$top/tree

put() {
    install -D -m "$1" "$2" "$tree/$3"
}

put 755 "$program" usr/bin/allocd
put 755 "$root/scripts/allocd-supervise" usr/bin/allocd-supervise
put 644 "$root/examples/default.json" etc/allocd/allocd.json
# The one unit that there is, with the places of a package.
install -d "$tree/usr/lib/systemd/system"
sed 's|/usr/local/bin/|/usr/bin/|g' "$root/examples/allocd.service" > "$tree/usr/lib/systemd/system/allocd.service"
put 644 "$root/README.md" $shared/README.md
(cd "$root" && find docs examples -type f ! -path 'examples/fuzz/*' ! -name '*.pyc') | LC_ALL=C sort | while IFS= read -r file; do
    put 644 "$root/$file" "$shared/$file"
done

licence=
for name in LICENSE LICENCE COPYING LICENSE.md LICENCE.md LICENSE.txt; do
    [ -n "$licence" ] || [ ! -f "$root/$name" ] || licence=$root/$name
done
if [ -n "$licence" ]; then
    put 644 "$licence" $shared/copyright
else
    echo "package: the repository has no licence file, so the package says nothing of who may use it: $shared/copyright is missing" >&2
fi

# Which sources the program was made of, where dist/RELEASE is the record of just this program.
sources=
hash=$(sha256sum < "$program" | cut -d' ' -f1)
if [ -r "$root/dist/RELEASE" ] && grep -qx "program $hash" "$root/dist/RELEASE"; then
    sources=$(sed -n 's/^sources //p' "$root/dist/RELEASE")
    put 644 "$root/dist/RELEASE" $shared/RELEASE
fi

mkdir "$tree/DEBIAN"
{
    echo "Package: allocd"
    echo "Version: $version"
    echo "Architecture: amd64"
    echo "Maintainer: whoever made this package <root@localhost>"
    echo "Section: net"
    echo "Priority: optional"
    # The supervisor asks by curl or wget, and else by bash, which each Debian has, as it has an awk.
    echo "Depends: libc6 (>= 2.34)"
    echo "Recommends: curl"
    echo "Installed-Size: $(du -k --apparent-size -s "$tree" | cut -f1)"
    [ -z "$sources" ] || echo "Allocd-Sources: $sources"
    echo "Description: gives scrape targets out to several Prometheus servers"
    echo " Each target is scraped by at most one collector that reaches it, within the"
    echo " limits of jobs and collectors, and no target moves that need not move."
} > "$tree/DEBIAN/control"
echo /etc/allocd/allocd.json > "$tree/DEBIAN/conffiles"

cat > "$tree/DEBIAN/postinst" << 'END'
#!/bin/sh
# A service that runs goes on with the new program; one that does not is not started: its configuration is to be written first.
set -e
if [ "$1" = configure ] && [ -z "${DPKG_ROOT:-}" ] && [ -d /run/systemd/system ]; then
    systemctl daemon-reload
    [ -z "$2" ] || systemctl try-restart allocd.service
fi
END
cat > "$tree/DEBIAN/prerm" << 'END'
#!/bin/sh
set -e
if [ "$1" = remove ] && [ -z "${DPKG_ROOT:-}" ] && [ -d /run/systemd/system ]; then
    systemctl disable --now allocd.service
fi
END
cat > "$tree/DEBIAN/postrm" << 'END'
#!/bin/sh
# The journals in /var/lib/allocd stay, with `purge` too: what was given out and booked is nowhere else.
set -e
if [ -z "${DPKG_ROOT:-}" ] && [ -d /run/systemd/system ]; then
    systemctl daemon-reload
fi
END
chmod 755 "$tree/DEBIAN/postinst" "$tree/DEBIAN/prerm" "$tree/DEBIAN/postrm"

# The time that is written into the package is the last commit's, or none.
SOURCE_DATE_EPOCH=${SOURCE_DATE_EPOCH:-$(git -C "$root" log -1 --format=%ct 2> /dev/null || echo 0)}
export SOURCE_DATE_EPOCH
find "$tree" -exec touch -h -d "@$SOURCE_DATE_EPOCH" {} +
package=allocd_${version}_amd64.deb
dpkg-deb --root-owner-group -Zxz --build "$tree" "$folder/$package" > /dev/null
echo "$folder/$package"
