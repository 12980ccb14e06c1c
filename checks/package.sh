#!/bin/sh
# Makes the Debian package, has lintian look at it, and installs, uses and removes it in a fresh Debian 12.
#
#   checks/package.sh [PROGRAM]     without PROGRAM that of this repository
#
# Needs root, Debian's packages dpkg-dev, binutils, lintian and debootstrap, and a mirror: MIRROR, or http://deb.debian.org/debian.
# ROOT names the folder of a fresh Debian that debootstrap made earlier; it is copied and stays as it is.
# Nothing is started in it but the commands below and two nodes. Ends with 0 where all went well.
set -eu
top=$(CDPATH='' cd -- "$(dirname -- "$0")/.." && pwd -P)
program=${1:-$top/crates/seat_cli/out/seat_cli}
work=$(mktemp -d)
root=$work/root

clean() {
    if mountpoint -q "$root/proc"; then umount "$root/proc"; fi
    rm -rf --one-file-system -- "$work"
}
trap clean EXIT

# The files and folders of a root, but those that apt and dpkg write for themselves.
listing() {
    (cd "$root" && find . -path ./proc -prune -o -path ./sys -prune -o -path ./var/lib/dpkg -prune -o -path ./var/log -prune \
        -o -path ./var/cache -prune -o -path ./var/lib/apt -prune -o -path ./tmp -prune -o -print) | sort
}

inside() {
    chroot "$root" env -i PATH=/usr/sbin:/usr/bin:/sbin:/bin LC_ALL=C.UTF-8 HOME=/tmp DEBIAN_FRONTEND=noninteractive "$@"
}

fail() {
    echo "package: $*" >&2
    exit 1
}

"$top/tools/package" --program "$program" --out "$work"
mkdir "$work/again"
"$top/tools/package" --program "$program" --out "$work/again" >/dev/null
deb=$(basename "$work"/zinduroi_*_amd64.deb)
cmp "$work/$deb" "$work/again/$deb" || fail "two packages of the same tree differ"
lintian --fail-on error,warning "$work/$deb" || fail "lintian found errors or warnings"

if [ -n "${ROOT:-}" ]; then
    cp -ax -- "$ROOT" "$root"
else
    debootstrap --variant=minbase bookworm "$root" "${MIRROR:-http://deb.debian.org/debian}" >"$work/debootstrap.log" 2>&1 ||
        { tail -5 "$work/debootstrap.log" >&2; fail "debootstrap failed"; }
fi
# No package may start a service in it.
printf '#!/bin/sh\nexit 101\n' >"$root/usr/sbin/policy-rc.d"
chmod 755 "$root/usr/sbin/policy-rc.d"
cp /etc/resolv.conf "$root/etc/resolv.conf"
cp "$work/$deb" "$root/tmp/$deb"

inside apt-get update >/dev/null
inside apt-get install -y --no-install-recommends python3 >/dev/null 2>&1 || fail "python3 was not installed"
listing >"$work/before"
inside apt-get install -y --no-install-recommends "/tmp/$deb" >/dev/null 2>"$work/errors" || { cat "$work/errors" >&2; fail "it was not installed"; }

inside seat_cli --version
inside zinduroi --help >/dev/null || fail "zinduroi --help"
inside sh -ec 'cd /tmp && seat_cli ask --create --site 0 --store site_0.db --layout /usr/share/doc/zinduroi/examples/layout.toml read a 7'
inside sh -ec 'cd /tmp && zinduroi watch --once --site 0 --store site_0.db --layout /usr/share/doc/zinduroi/examples/layout.toml' |
    grep -q '7 reader' || fail "zinduroi watch shows no reader"
# Every module can be imported with Debian's Python and nothing else.
inside python3 -W error -c '
import importlib, pkgutil, zinduroi
names = [module.name for module in pkgutil.walk_packages(zinduroi.__path__, "zinduroi.") if not module.name.endswith("__main__")]
for name in names:
    importlib.import_module(name)
print(len(names), "modules imported")'
for page in seat_cli zinduroi; do
    [ -f "$root/usr/share/man/man1/$page.1.gz" ] || fail "no page of the manual for $page"
    cmp -s "$top/docs/$page.bash" "$root/usr/share/bash-completion/completions/$page" || fail "no completions for $page, or those of another command"
done
# README's two nodes, with a lock at each, by the command of the package.
sed -n '/^    export PATH=\.:/,/^$/s/^    //p' "$top/README.md" | sed '1d; s/python3 -m zinduroi/zinduroi/' >"$root/tmp/nodes.sh"
inside sh -c 'mkdir /tmp/nodes && cd /tmp/nodes && . ../nodes.sh && wait' >"$work/nodes" 2>&1 || { cat "$work/nodes" >&2; fail "the nodes failed"; }
case $(grep ' is ' "$work/nodes" | tr '\n' ' ') in
    '0 is in 0 is out 1 is in 1 is out ' | '1 is in 1 is out 0 is in 0 is out ') echo "two nodes, and a lock at each" ;;
    *) cat "$work/nodes" >&2; fail "the locks of two nodes did not exclude each other" ;;
esac
[ ! -e "$root/etc/systemd/system/multi-user.target.wants/zinduroi-node.service" ] || fail "the unit is enabled"

inside dpkg -r zinduroi >/dev/null
inside dpkg -P zinduroi >/dev/null 2>&1 || true
listing >"$work/behind"
diff "$work/before" "$work/behind" || fail "files stayed or went"
echo "package: all went well"
