#!/usr/bin/env bash
# Builds the peers of the benchmark as shared objects, each where its library is installed.
#
#     bash bench/peers/build.sh FOLDER   prints NAME=FOLDER/OBJECT for each; says which are left out, and what to install
#
# CXX (default: g++)   compiles them: -O3 for any x86-64 processor, as the archive and plain Rust are compiled
# SPDX-License-Identifier: LicenseRef-Wengeludo
set -euo pipefail
here=$(cd "$(dirname "$0")" && pwd)
[ $# = 1 ] || { echo "usage: bash bench/peers/build.sh FOLDER" >&2; exit 2; }
mkdir -p "$1"
out=$(cd "$1" && pwd)
cxx=${CXX:-g++}

peer() { # name, source, header, package, more options
    local object=$out/$2.so
    if ! echo "#include <$3>" | "$cxx" "${@:5}" -x c++ -E - -o "$out/$2.probe" 2>/dev/null; then
        echo "peers: no $1 beside the others (Debian: apt-get install g++ $4)" >&2
        return
    fi
    # It is made again where something that it is made from is newer.
    if [ -n "$(find "$here/$2.cpp" "$here/peer.h" "$here/build.sh" -newer "$object" 2>/dev/null)" ] || [ ! -e "$object" ]; then
        "$cxx" -std=c++17 -O3 -DNDEBUG -Wall -Wextra -pedantic "${@:5}" -shared -fPIC -Wl,-z,defs "$here/$2.cpp" -o "$object"
    fi
    echo "$1=$object"
}

eigen=$(pkg-config --cflags-only-I eigen3 2>/dev/null | sed 's/^-I//; s/ *$//' || true)
peer "Eigen QR" eigen_qr Eigen/Dense libeigen3-dev -isystem "${eigen:-/usr/include/eigen3}"
# g++ 12 warns of LEMON's own graphs that a member may be uninitialised.
peer LEMON lemon_simplex lemon/network_simplex.h liblemon-dev -Wno-maybe-uninitialized
