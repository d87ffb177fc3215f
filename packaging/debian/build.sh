#!/usr/bin/env bash
# Makes the Debian packages from this tree, without network: libwengeludo1, libwengeludo-dev, python3-wengeludo, wengeludo.
#
#     bash packaging/debian/build.sh [--unproved] OUT
#
# --unproved              takes an archive that is not the one docs/MEASURED.md records
# WENGELUDO_ARCHIVE       another archive than target/staticlib/libwengeludo.a
# WENGELUDO_WASM          another WebAssembly for pages that recompute than target/cross/wengeludo.wasm, which is built if rt is there
# WENGELUDO_MAINTAINER    who answers for the packages, as "Name <name@host>"; the address that stands here leads nowhere
#
# The same tree gives the same bytes: times are those of the newest commit.
# SPDX-License-Identifier: LicenseRef-Wengeludo
set -euo pipefail
unproved=()
[ "${1:-}" != --unproved ] || { unproved=(--unproved); shift; }
[ $# -eq 1 ] || { sed -n '2,9s/^# \{0,1\}//p' "$0" >&2; exit 2; }
out=$(realpath -m "$1")
cd "$(dirname "$0")/../.."
fail() { echo "debian: $*" >&2; exit 1; }
for tool in dpkg-deb dpkg-shlibdeps strip gzip; do
    command -v "$tool" >/dev/null || fail "no $tool (Debian: apt-get install dpkg-dev binutils gzip)"
done
[ "$(dpkg --print-architecture)" = amd64 ] || fail "packages are made on amd64, and this machine is $(dpkg --print-architecture)"
python=/usr/bin/python3 # Debian's own: another python3 on the PATH sees none of Debian's packages
archive=$(realpath -m "${WENGELUDO_ARCHIVE:-target/staticlib/libwengeludo.a}")
[ -e "$archive" ] || fail "no $archive: build it with 'bash packaging/archive.sh'"
upstream=$(sed -n 's/^version = "\(.*\)"/\1/p' bindings/python/pyproject.toml)
version=$upstream-1
maintainer=${WENGELUDO_MAINTAINER:-Wengeludo packages <packages@wengeludo.example>}
libraries=usr/lib/x86_64-linux-gnu modules=usr/lib/python3/dist-packages
SOURCE_DATE_EPOCH=$(git log -1 --format=%ct 2>/dev/null || date +%s)
year=$(date -ud "@$SOURCE_DATE_EPOCH" +%Y)
export SOURCE_DATE_EPOCH WENGELUDO_ARCHIVE=$archive
umask 022
work=$(mktemp -d)
trap 'rm -rf "$work"' EXIT
quietly() { "$@" >"$work/log" 2>&1 || { tail -20 "$work/log" >&2; fail "$*"; }; }

# What all packages have: who may use it, and what changed.
documents() { # package
    local folder=$work/$1/usr/share/doc/$1
    mkdir -p "$folder" "$work/$1/DEBIAN"
    { printf 'Format: https://www.debian.org/doc/packaging-manuals/copyright-format/1.0/\nUpstream-Name: wengeludo\n\nFiles: *\nCopyright: %s, those who wrote wengeludo\n' "$year"
      printf 'License: LicenseRef-Wengeludo\n'; sed 's/^$/./; s/^/ /' LICENCE; } >"$folder/copyright"
    gzip -n9 <CHANGELOG.md >"$folder/changelog.gz"
    { printf 'wengeludo (%s) unstable; urgency=medium\n\n  * Version %s, as changelog.gz tells it.\n\n' "$version" "$upstream"
      printf ' -- %s  %s\n' "$maintainer" "$(LC_ALL=C date -uRd "@$SOURCE_DATE_EPOCH")"; } | gzip -n9 >"$folder/changelog.Debian.gz"
    if [ -e "packaging/debian/$1.overrides" ]; then
        install -D -m 644 "packaging/debian/$1.overrides" "$work/$1/usr/share/lintian/overrides/$1"
    fi
}
# Moves files of the installed tree into a package.
moved() { # package, paths below the tree
    local path
    for path in "${@:2}"; do
        mkdir -p "$work/$1/$(dirname "$path")"
        mv "$work/tree/$path" "$work/$1/$path"
    done
}
# The libraries of Debian that a program or library of the package needs, by the symbols it takes.
needs() { # package, file
    mkdir -p "$work/needs/debian"
    printf 'Source: wengeludo\n\nPackage: %s\nArchitecture: any\n' "$1" >"$work/needs/debian/control"
    (cd "$work/needs" && dpkg-shlibdeps -O "$2" 2>/dev/null) | sed -n 's/^shlibs:Depends=//p'
}
scripts() { # package: compiled Python comes and goes with it
    for script in postinst prerm; do
        sed "s/@PACKAGE@/$1/" "packaging/debian/$script.in" >"$work/$1/DEBIAN/$script"
        chmod 755 "$work/$1/DEBIAN/$script"
    done
}
packed() { # package, libraries that it needs
    local folder=$work/$1 arch
    arch=$(sed -n "/^Package: $1\$/,/^\$/s/^Architecture: //p" packaging/debian/control)
    find "$folder" -exec touch -hd "@$SOURCE_DATE_EPOCH" {} +
    sed -n "/^Package: $1\$/,/^\$/p" packaging/debian/control | sed '/^$/d' | awk -v version="$version" -v maintainer="$maintainer" \
        -v needs="${2:-}" -v size="$(du -k -s --apparent-size "$folder" | cut -f1)" '
        { gsub(/@VERSION@/, version); gsub(/@NEEDS@/, needs) }
        /^Architecture:/ { print "Source: wengeludo"; print "Version: " version; print "Maintainer: " maintainer; print "Installed-Size: " size }
        { print }' >"$folder/DEBIAN/control"
    (cd "$folder" && find . -type f ! -path './DEBIAN/*' -printf '%P\n' | LC_ALL=C sort | xargs -d '\n' md5sum) >"$folder/DEBIAN/md5sums"
    mkdir -p "$work/made"
    quietly dpkg-deb --root-owner-group -Zxz --build "$folder" "$work/made/${1}_${version}_$arch.deb"
}

DESTDIR=$work/tree LIBDIR=${libraries#usr/} quietly bash install.sh "${unproved[@]}" /usr
rm -r "$work/tree/usr/share/wengeludo"
strip --strip-unneeded --remove-section=.comment "$work/tree/$libraries/libwengeludo.so.$upstream"
documents libwengeludo1
chmod 644 "$work/tree/$libraries/libwengeludo.so.$upstream"
moved libwengeludo1 "$libraries/libwengeludo.so.$upstream" "$libraries/libwengeludo.so.${upstream%%.*}"
echo "libwengeludo ${upstream%%.*} libwengeludo1 (>= $upstream)" >"$work/libwengeludo1/DEBIAN/shlibs"
echo 'activate-noawait ldconfig' >"$work/libwengeludo1/DEBIAN/triggers"
packed libwengeludo1 "$(needs libwengeludo1 "$work/libwengeludo1/$libraries/libwengeludo.so.$upstream")"

documents libwengeludo-dev
for text in FORMATS LINKING PROMISES; do moved libwengeludo-dev "usr/share/doc/wengeludo/$text.md"; done
mv "$work/libwengeludo-dev/usr/share/doc/wengeludo/"* "$work/libwengeludo-dev/usr/share/doc/libwengeludo-dev/"
rmdir "$work/libwengeludo-dev/usr/share/doc/wengeludo"
gzip -n9 "$work/tree/usr/share/man/man3/wengeludo.3"
for page in "$work"/tree/usr/share/man/man3/*.3; do
    ln -s wengeludo.3.gz "$page.gz" && rm "$page"
done
moved libwengeludo-dev usr/include usr/share/man "$libraries/libwengeludo.a" "$libraries/libwengeludo_host.a" "$libraries/libwengeludo.so" \
    "$libraries/pkgconfig" "$libraries/cmake"
packed libwengeludo-dev

# The binding and the tool, as pip installs them, in Debian's folder of modules.
export WENGELUDO_INCLUDE=$PWD/include CFLAGS="-g0 -ffile-prefix-map=$work=wengeludo"
cp -r bindings/python "$work/binding"
cp -r desk "$work/desk"
if [ ! -e "${WENGELUDO_WASM:-target/cross/wengeludo.wasm}" ] && command -v rt >/dev/null && [ -e target/staticlib/libwengeludo.a ]; then
    quietly bash packaging/cross/build.sh wasm32 target/cross/wengeludo.wasm
fi
bash desk/engine.sh "$work/desk"
[ -e "$work/desk/src/wengeludo/write/engine/wengeludo.wasm" ] || echo "debian: no WebAssembly: wengeludo sheet --live is left out"
module() { # part, package
    mkdir -p "$work/$2/$modules"
    (cd "$work/$1" && quietly "$python" -m pip install --no-index --no-build-isolation --no-deps --no-compile --disable-pip-version-check \
        --root-user-action=ignore --target "$work/$2/$modules" .)
    (cd "$work/$2/$modules" && rm -rf bin && rm -f ./*.dist-info/{RECORD,REQUESTED,direct_url.json,LICENCE} && echo debian | tee ./*.dist-info/INSTALLER >/dev/null)
    find "$work/$2/$modules" -type f -exec chmod 644 {} +
}
documents python3-wengeludo
module binding python3-wengeludo
native=$work/python3-wengeludo/$modules/wengeludo_balance/_native.abi3.so
strip --strip-unneeded --remove-section=.comment "$native"
scripts python3-wengeludo
packed python3-wengeludo "$(needs python3-wengeludo "$native")"

documents wengeludo
module desk wengeludo
install -D -m 755 packaging/debian/wengeludo "$work/wengeludo/usr/bin/wengeludo"
install -D -m 644 packaging/debian/wengeludo.service "$work/wengeludo/lib/systemd/system/wengeludo.service"
mkdir -p "$work/wengeludo/usr/share/man/man1"
PYTHONDONTWRITEBYTECODE=1 PYTHONPATH=$work/wengeludo/$modules:$work/python3-wengeludo/$modules "$python" packaging/debian/man.py >"$work/wengeludo.1"
gzip -n9 <"$work/wengeludo.1" >"$work/wengeludo/usr/share/man/man1/wengeludo.1.gz"
cp -r desk/samples "$work/wengeludo/usr/share/doc/wengeludo/examples"
find "$work/wengeludo/usr/share/doc/wengeludo/examples" -type f -exec chmod 644 {} +
scripts wengeludo
packed wengeludo

mkdir -p "$out"
mv "$work"/made/*.deb "$out/"
echo "debian: wengeludo $version, 4 packages in $out"
