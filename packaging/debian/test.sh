#!/usr/bin/env bash
# The Debian packages, made by packaging/debian/build.sh: the same bytes a second time, lintian without errors, installed into a scratch root
# beside this machine's own list of packages, used from there by C, by Python and as the desk tool, and removed again.
#
#     bash packaging/debian/test.sh [--unproved]
# SPDX-License-Identifier: LicenseRef-Wengeludo
set -euo pipefail
cd "$(dirname "$0")/../.."
for tool in dpkg-deb lintian fakeroot pkg-config dpkg-shlibdeps; do
    command -v "$tool" >/dev/null || { echo "debian/test: no $tool (Debian: apt-get install dpkg-dev lintian fakeroot pkgconf)" >&2; exit 2; }
done
work=$(mktemp -d)
server=
trap '[ -z "$server" ] || kill "$server" 2>/dev/null || true; rm -rf "$work"' EXIT
fail() { echo "debian/test: $*" >&2; exit 1; }
quiet() { "$@" >"$work/log" 2>&1 || { cat "$work/log" >&2; fail "$*"; }; }
archive=$(realpath "${WENGELUDO_ARCHIVE:-target/staticlib/libwengeludo.a}")
packages="libwengeludo-dev libwengeludo1 python3-wengeludo wengeludo"

quiet bash packaging/debian/build.sh "$@" "$work/debs"
quiet bash packaging/debian/build.sh "$@" "$work/again"
[ "$(cd "$work/debs" && for file in *; do dpkg-deb -f "$file" Package; done | xargs)" = "$packages" ] || fail "the packages are $(ls "$work/debs")"
for file in "$work"/debs/*; do cmp "$file" "$work/again/${file##*/}" || fail "a second run makes another ${file##*/}"; done
lintian --allow-root --fail-on error "$work"/debs/*.deb >"$work/lintian" 2>&1 || { cat "$work/lintian" >&2; fail "lintian finds errors"; }

# A scratch root that knows the packages of this machine, so that what ours need is looked for and files of two packages are found.
root=$work/root
mkdir -p "$root/var/lib"
cp -r /var/lib/dpkg "$root/var/lib/dpkg"
rm -f "$root"/var/lib/dpkg/lock* "$root"/var/lib/dpkg/triggers/{Lock,Unincorp}
in_root() { fakeroot dpkg --root="$root" --force-script-chrootless --force-not-root --log="$work/dpkg.log" --no-triggers "$@"; }
quiet in_root -i "$work"/debs/*.deb
for package in $packages; do
    dpkg-query --admindir="$root/var/lib/dpkg" -W -f '${Status}\n' "$package" | grep -Eqx 'install ok (installed|triggers-awaited|triggers-pending)' || fail "$package is not installed"
done
(cd "$root" && find . ! -type d ! -path './var/lib/dpkg/*') >"$work/files"
! grep -q '^./etc/systemd\|\.wants/\|__pycache__' "$work/files" || fail "the unit is enabled, or modules were compiled: $(cat "$work/files")"

# C: the archive byte for byte; a program by pkg-config, over the shared library and over the archive.
libraries=$root/usr/lib/x86_64-linux-gnu
cmp "$archive" "$libraries/libwengeludo.a" || fail "the archive is another"
read -ra words < <(PKG_CONFIG_SYSROOT_DIR=$root PKG_CONFIG_LIBDIR=$libraries/pkgconfig PKG_CONFIG_ALLOW_SYSTEM_CFLAGS=1 PKG_CONFIG_ALLOW_SYSTEM_LIBS=1 \
    pkg-config --cflags --libs wengeludo)
"${CC:-cc}" programs/balance_file.c "${words[@]}" -o "$work/shared"
LD_LIBRARY_PATH=$libraries "$work/shared" samples/listing.bin | cmp - samples/listing.expected || fail "the sheet by the shared library"
if "$work/shared" samples/listing.bin >/dev/null 2>&1; then fail "the program does not take the shared library of the scratch root"; fi
"${CC:-cc}" programs/balance_file.c -I "$root/usr/include" "$libraries/libwengeludo.a" -o "$work/fixed"
"$work/fixed" samples/listing.bin | cmp - samples/listing.expected || fail "the sheet by the archive"

# Python: modules and tool out of the scratch root alone, in an ordinary folder.
export PYTHONPATH=$root/usr/lib/python3/dist-packages PYTHONDONTWRITEBYTECODE=1
(cd "$work" && /usr/bin/python3 -c 'import sys, wengeludo, wengeludo_balance as engine
sys.exit(not all(one.__file__.startswith(sys.argv[1]) for one in (wengeludo, engine)))' "$root/") || fail "modules of another place are taken"
tool() { (cd "$work" && COLUMNS=100 "$root/usr/bin/wengeludo" "$@"); }
tool sheet "$root/usr/share/doc/wengeludo/examples/steam_site.csv" >"$work/sheet" 2>"$work/log" || { cat "$work/log" >&2; fail "wengeludo sheet"; }
(cd "$work" && COLUMNS=100 PYTHONPATH=$OLDPWD/desk/src:$PYTHONPATH /usr/bin/python3 -m wengeludo sheet "$root/usr/share/doc/wengeludo/examples/steam_site.csv") >"$work/tree" 2>"$work/log" ||
    { cat "$work/log" >&2; fail "wengeludo sheet of the tree"; }
cmp "$work/sheet" "$work/tree" || fail "the package draws up another sheet than the tree"
[ "$(grep -c . "$work/sheet")" -gt 10 ] || fail "the sheet is empty"
for file in "$root"/usr/share/man/man1/wengeludo.1.gz "$root"/usr/share/man/man3/wengeludo.3.gz; do
    gzip -dc "$file" | { ! command -v groff >/dev/null || groff -man -ww -z; } 2>"$work/log"
    [ ! -s "$work/log" ] || { cat "$work/log" >&2; fail "groff warns of $file"; }
done
gzip -dc "$root/usr/share/man/man1/wengeludo.1.gz" | grep -qx '\.B sheet' || fail "the manual page does not name the command sheet"

# The unit: what it starts is there and serves.
unit=$root/lib/systemd/system/wengeludo.service
started=$(sed -n 's/^ExecStart=//p' "$unit")
[ "${started%% *}" = /usr/bin/wengeludo ] && grep -qx 'DynamicUser=yes' "$unit" || fail "the unit starts $started, or as root"
if command -v systemd-analyze >/dev/null; then
    sed "s|^ExecStart=/usr|ExecStart=$root/usr|" "$unit" >"$work/wengeludo.service"
    systemd-analyze verify --man=no "$work/wengeludo.service" >"$work/log" 2>&1 || { cat "$work/log" >&2; fail "systemd does not take the unit"; }
    ! grep -q "wengeludo.service" "$work/log" || { cat "$work/log" >&2; fail "systemd warns of the unit"; }
fi
served="no Flask, so nothing was served"
if /usr/bin/python3 -c 'import flask, waitress' 2>/dev/null; then
    port=$(/usr/bin/python3 -c 'import socket; one = socket.socket(); one.bind(("127.0.0.1", 0)); print(one.getsockname()[1])')
    (cd "$work" && exec "$root/usr/bin/wengeludo" serve "$work/site.book" --port "$port") >"$work/address" 2>"$work/log" &
    server=$!
    for _ in $(seq 100); do [ ! -s "$work/address" ] || break; sleep 0.2; done
    /usr/bin/python3 -c 'import sys, urllib.request, http.cookiejar
jar = urllib.request.build_opener(urllib.request.HTTPCookieProcessor(http.cookiejar.CookieJar()))
sys.exit(b"<html" not in jar.open(sys.argv[1], timeout=20).read())' "$(sed -n 's/^wengeludo: //p' "$work/address")" || { cat "$work/log" >&2; fail "wengeludo serve does not answer"; }
    kill "$server" && { wait "$server" || true; }
    server=
    served="a page was served"
fi

# Away again, nothing left; a package that another needs stays.
if in_root -r libwengeludo1 >"$work/log" 2>&1; then fail "libwengeludo1 goes while libwengeludo-dev needs it"; fi
# shellcheck disable=SC2086
quiet in_root -P $packages
left=$(cd "$root" && find . ! -type d ! -path './var/lib/dpkg/*')
[ -z "$left" ] || fail "left after removing: $left"
echo "debian: $(find "$work/debs" -name '*.deb' | wc -l) packages, $(wc -l <"$work/files") files installed, used and removed; lintian without errors; $served"
