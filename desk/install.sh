#!/usr/bin/env bash
# Sets up the desk tool on Debian 12: packages, the engine's archive, the Python binding, the launcher. Ends with a sample's sheet.
#
#     bash desk/install.sh [--archive FILE] [PREFIX]
#
# PREFIX (default: ~/.local)  the launcher goes to PREFIX/bin/wengeludo, what it runs to PREFIX/share/wengeludo
# --archive FILE              the engine's archive as it was handed over: nothing is proved here, and it takes seconds. WENGELUDO_ARCHIVE does the same
# WENGELUDO_INCLUDE           the folder of that archive's header, if it is not that of this tree
# WENGELUDO_APT=no            names Debian's packages that are missing, and installs none
#
# Without an archive it is built by `bash packaging/archive.sh`, which proves it (minutes the first time). A second run takes seconds: what is
# there is left alone, and binding and tool are put in place anew.
# SPDX-License-Identifier: LicenseRef-Wengeludo
set -eu
root=$(cd "$(dirname "$0")/.." && pwd)
python=/usr/bin/python3 # Debian's own: another python3 on the PATH sees none of Debian's packages
packages="python3-venv python3-dev python3-pip python3-setuptools python3-wheel python3-cffi python3-click python3-rich python3-openpyxl
    python3-jinja2 python3-numpy graphviz gcc libc6-dev"

say() { echo "install: $*"; }
fail() { echo "install: $*" >&2; exit 1; }
quietly() { # runs a command; of what it prints the end is shown if it fails
    "$@" >"$log" 2>&1 || { tail -20 "$log" >&2; return 1; }
}

archive=${WENGELUDO_ARCHIVE:-} prefix=
while [ $# -gt 0 ]; do
    case $1 in
        --archive) [ $# -gt 1 ] || fail "--archive needs a file"; archive=$2; shift ;;
        --archive=*) archive=${1#*=} ;;
        -*) fail "$1 is not known: bash desk/install.sh [--archive FILE] [PREFIX]" ;;
        *) [ -z "$prefix" ] || fail "one PREFIX would do, not $prefix and $1"; prefix=$1 ;;
    esac
    shift
done
prefix=$(realpath -m "${prefix:-$HOME/.local}")
if [ -n "$archive" ]; then
    [ -f "$archive" ] || fail "$archive: there is no such archive"
    [ "$(head -c 7 "$archive")" = "!<arch>" ] || fail "$archive: this is no archive of object files"
    archive=$(realpath "$archive")
fi
log=$(mktemp) build=$(mktemp -d)
trap 'rm -rf "$log" "$build"' EXIT

missing=
for package in $packages; do
    dpkg-query -W -f '${Status}' "$package" 2>/dev/null | grep -q 'ok installed' || missing="$missing $package"
done
if [ -n "$missing" ]; then
    { [ "${WENGELUDO_APT:-}" != no ] && command -v apt-get >/dev/null; } || fail "needs Debian's packages:$missing"
    say "Debian's packages:$missing"
    run=; [ "$(id -u)" = 0 ] || run=sudo
    { quietly $run apt-get update && quietly $run env DEBIAN_FRONTEND=noninteractive apt-get install -y --no-install-recommends $missing; } ||
        fail "apt-get could not install:$missing"
fi

if [ -z "$archive" ]; then
    archive=$root/target/staticlib/libwengeludo.a
    if [ ! -e "$archive" ]; then
        command -v rt >/dev/null || fail "no archive, and no rt on the PATH to build it: install the Rattle kit, or hand over an archive with --archive FILE"
        say "the engine's archive, proved while it is built (minutes the first time)"
        (cd "$root" && quietly bash packaging/archive.sh) || fail "bash packaging/archive.sh did not succeed"
    fi
fi

home=$prefix/share/wengeludo
say "the archive $archive"
say "binding and tool in $home, run by $python ($("$python" --version))"
mkdir -p "$prefix/bin" "$home"
[ -x "$home/bin/python3" ] || "$python" -m venv --system-site-packages "$home"
export WENGELUDO_INCLUDE="${WENGELUDO_INCLUDE:-$root/include}" WENGELUDO_ARCHIVE="$archive"
if [ ! -e "$root/target/cross/wengeludo.wasm" ] && command -v rt >/dev/null && [ -e "$root/target/staticlib/libwengeludo.a" ]; then
    say "the engine's WebAssembly, for pages that recompute by themselves"
    bash "$root/packaging/cross/build.sh" wasm32 "$root/target/cross/wengeludo.wasm" >/dev/null 2>&1 || say "not built: wengeludo sheet --live is left out"
fi
for part in bindings/python desk; do
    mkdir -p "$build/$part"
    cp -r "$root/$part/." "$build/$part/"
    [ $part != desk ] || bash "$root/desk/engine.sh" "$build/desk"
    quietly "$home/bin/python3" -m pip install --quiet --no-index --no-build-isolation --no-deps --force-reinstall --disable-pip-version-check "$build/$part" ||
        fail "pip could not install $part"
done
ln -sf "$home/bin/wengeludo" "$prefix/bin/wengeludo"
say "done: $prefix/bin/wengeludo"
case ":$PATH:" in *":$prefix/bin:"*) ;; *) say "put $prefix/bin on your PATH, or call it by that name" ;; esac
sample=$root/desk/samples/steam_site.csv
say "the sheet of $sample:"
"$prefix/bin/wengeludo" sheet "$sample" >"$log" || fail "the sample's sheet could not be drawn"
sed -n 1,2p "$log"
