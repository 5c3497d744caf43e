#!/usr/bin/env bash
# Boots a Debian with systemd in namespaces of its own, installs the package of scripts/package.sh there, and tells of each thing that the unit is for
# whether it holds: try_unit.sh [PROGRAM] [ROOT]
# PROGRAM is dist/allocd where none is named. The Debian is a copy of ROOT, a folder of `debootstrap --variant=minbase --include=systemd,systemd-sysv`;
# where none is named, one is made from ALLOCD_MIRROR (http://deb.debian.org/debian).
# It runs as root, needs Debian's packages debootstrap, iproute2 and util-linux, and a kernel with a cgroup2 hierarchy, in which it makes one group
# for the time being. It leaves nothing behind.
set -u
here=$(cd "$(dirname "$0")" && pwd)
program=$(realpath "${1:-$here/../dist/allocd}") || exit 2
given=${2:-}
. "$here/told.sh" || exit 2
need try_unit debootstrap debootstrap
need try_unit ip iproute2
need try_unit nsenter util-linux
[ "$(id -u)" = 0 ] || { echo "try_unit: only root can make such namespaces" >&2; exit 2; }
groups=$(awk '$3 == "cgroup2" { print $2; exit }' /proc/self/mounts)
[ -n "$groups" ] || { echo "try_unit: no cgroup2 hierarchy is mounted here" >&2; exit 2; }

top=$(mktemp -d)
root=$top/root
group=$groups/allocd-try.$$
first=
clear_up() {
    [ -z "$first" ] || kill -KILL "$first" 2> /dev/null
    for _ in $(seq 20); do
        find "$group" -depth -type d -exec rmdir {} + 2> /dev/null
        [ -d "$group" ] || break
        sleep 0.2
    done
    rm -rf "$top"
}
trap clear_up EXIT

package=$("$here/package.sh" "$program" "$top" 2> /dev/null) || { echo "try_unit: no package can be made of $program" >&2; exit 2; }
clean_debian "$root" "$given" systemd,systemd-sysv "$top/debootstrap" || { echo "try_unit: no Debian can be made: $(tail -n 1 "$top/debootstrap")" >&2; exit 2; }
cp "$package" "$root/allocd.deb"

mkdir "$group" || exit 2
cat > "$top/boot" << 'END'
set -e
echo $$ > "$2/cgroup.procs"
exec unshare --mount --pid --net --uts --ipc --cgroup --fork --kill-child bash -c '
set -e
mount --make-rprivate /
mount --bind "$1" "$1"
mount -t proc proc "$1/proc"
mount -t sysfs -o ro sysfs "$1/sys"
mount -t tmpfs tmpfs "$1/sys/fs/cgroup"
mount -t cgroup2 cgroup2 "$1/sys/fs/cgroup"
mount -t tmpfs tmpfs "$1/run"
ip link set lo up
cd "$1"
mkdir before
pivot_root . before
umount -l /before
rmdir /before
exec env -i container=other PATH=/usr/sbin:/usr/bin:/sbin:/bin /lib/systemd/systemd --system --log-target=journal --show-status=no' boot "$1"
END
bash "$top/boot" "$root" "$group" > "$top/log" 2>&1 &
boot=$!
for _ in $(seq 100); do
    first=$(cut -d ' ' -f 1 "/proc/$boot/task/$boot/children" 2> /dev/null)
    if [ -n "$first" ]; then
        state=$(nsenter -t "$first" -a -r -w systemctl is-system-running 2> /dev/null)
        case $state in running | degraded) break ;; esac
    fi
    sleep 0.3
done
case ${state:-} in running | degraded) ;; *) echo "try_unit: systemd does not begin here: $(tail -n 1 "$top/log")" >&2; exit 2 ;; esac

# in_it WORD..: a command beside that systemd.
in_it() { nsenter -t "$first" -a -r -w "$@" < /dev/null; }
show() { in_it systemctl show --value -p "$1" allocd; }
log() { in_it journalctl -u allocd --no-pager -o cat; }
# soon WORD..: whether a command says yes within half a minute.
soon() {
    for _ in $(seq 150); do
        if "$@"; then return 0; fi
        sleep 0.2
    done
    return 1
}
# Whether the unit is active, and the service ready.
is_active() { [ "$(show ActiveState)" = active ] && is_ready 2> /dev/null; }
is_ready() {
    nsenter -t "$first" -n bash -c '
        exec 3<> /dev/tcp/127.0.0.1/8080 || exit
        printf "GET /-/ready HTTP/1.1\r\nhost: localhost\r\nconnection: close\r\n\r\n" >&3
        read -r -t 4 _ status _ <&3
        [ "$status" = 200 ]'
}
is_failed() { [ "$(show ActiveState)" = failed ]; }
has_logged() { log | grep -q "$1"; }
# logs NAME TEXT: tells whether the log has a text soon, with the end of the log where it has not.
logs() {
    soon has_logged "$2"
    tell "$1" $? "$(log | tail -n 8 | tr '\n' ' ')"
}
has_read() { [ "$(log | grep -c 'msg="the journal is read"')" -ge "$1" ]; }
config=$root/etc/allocd/allocd.json

echo "told: $(in_it systemctl --version | head -n 1), $state"
holds "the package installs" in_it dpkg -i /allocd.deb
holds "it does not start the service" sh -c '[ "$1" = inactive ]' sh "$(show ActiveState)"
cp "$config" "$top/config"
sed -i 's/"lifecycle"/"lifecycl"/' "$config"
in_it systemctl start allocd
holds "a faulty configuration: the service fails" soon is_failed
logs "and says why" 'allocator.lifecycl: unknown member'
sleep 5
says "and is not started again" "failed 0 2" echo "$(show ActiveState) $(show NRestarts) $(show ExecMainStatus)"
cp "$top/config" "$config"

holds "with a good one it starts" in_it systemctl start allocd
holds "and runs" soon is_active
user=$(in_it sh -c 'stat -c %u /proc/$(pidof allocd)')
holds "as a user that systemd made" test "$user" -ge 61184 -a "$user" -le 65519
says "its journal is its own" "700 600" echo "$(stat -c %a "$root/var/lib/private/allocd") $(stat -c %a "$root/var/lib/private/allocd/allocator.journal")"
holds "systemctl reload" in_it systemctl reload allocd
logs "reads the configuration again" 'HUP: POST /-/reload: The configuration is read again'
sed -i 's/"lifecycle"/"lifecycl"/' "$config"
holds "systemctl reload with a faulty one" in_it systemctl reload allocd
logs "says why, in the log" 'HUP: POST /-/reload: 500, the configuration that was followed still is: .*allocator.lifecycl'
holds "and the service goes on" soon is_active
cp "$top/config" "$config"
in_it sh -c 'kill -KILL $(pidof allocd)'
sleep 1
holds "the program is killed: it starts again" soon is_active
in_it sh -c 'kill -KILL $(systemctl show --value -p MainPID allocd)'
sleep 1
holds "the supervisor is killed: it starts again" soon is_active
in_it sh -c 'kill -HUP $(pidof allocd)'
sleep 1
holds "a HUP to the program ends nothing" soon is_active
says "so it was started twice again" 2 show NRestarts
holds "its journal is read each time" soon has_read 2
holds "it installs over itself" in_it dpkg -i /allocd.deb
holds "and runs again" soon is_active
holds "systemctl stop" in_it systemctl stop allocd
logs "ends it with its requests answered" 'msg="ended"'
holds "systemctl start" in_it systemctl start allocd
soon is_active
in_it sh -c 'kill -STOP $(pidof allocd)'
holds "systemctl stop where it hangs" in_it systemctl stop allocd
says "ends it, and the unit has not failed" inactive show ActiveState

# With tokens: systemd takes a user of the unit's name where there is one, and that user may own files.
in_it useradd --system --no-create-home --shell /usr/sbin/nologin allocd
echo 0123456789abcdef > "$root/tokens"
in_it install -o allocd -m 600 /tokens /etc/allocd/admin.tokens
in_it install -o allocd -m 600 /tokens /etc/allocd/collectors.tokens
sed -i 's|"lifecycle"|"tokens": {"admin": "/etc/allocd/admin.tokens", "collectors": "/etc/allocd/collectors.tokens"},\n    "lifecycle"|; s|127.0.0.1:8080",|0.0.0.0:8080",|' "$config"
if in_it allocd serve --check-config --config /etc/allocd/allocd.json 2>&1 | grep -q 'tokens: unknown member'; then
    echo "skipped: tokens, which this program does not know"
else
    holds "with tokens of a user allocd it starts" in_it systemctl start allocd
    holds "and runs, for other machines too" soon is_active
    says "as that user" "$(in_it id -u allocd)" in_it sh -c 'stat -c %u /proc/$(pidof allocd)'
    holds "and goes on in its journal" soon has_read 5
    in_it systemctl reload allocd
    logs "its supervisor shows the admin's token" 'HUP: POST /-/reload: The configuration is read again'
fi
cp "$top/config" "$config"
in_it systemctl restart allocd
holds "it is enabled" in_it systemctl enable -q allocd
soon is_active
holds "it is removed" in_it dpkg -r allocd
says "and stopped" inactive show ActiveState
holds "and enabled no more" sh -c '! ls "$1"/etc/systemd/system/*/allocd.service 2> /dev/null' sh "$root"
told
