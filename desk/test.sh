#!/usr/bin/env bash
# Tests the Python binding and the desk tool on the archive, in an environment of its own. It is outside
# the checkout, as `rt ci` takes no links there.
#
#     bash desk/test.sh            the tests
#     bash desk/test.sh --missing  what they need and this machine lacks, nothing where it has all
#     bash desk/test.sh --home     the folder of that environment, once the tests have run
#
# Where Debian's packages are missing it says which and ends with 0: the engine does not need them.
# WENGELUDO_ARCHIVE, WENGELUDO_INCLUDE   another archive and its header's folder
# WENGELUDO_HOURS (default 200)          lists of the batch test; 8760 is a year
# WENGELUDO_EXAMPLES (default 100)       drawn lists of each kind
# WENGELUDO_WIDE (default 8)              drawn lists of each span beside an independent least squares; 500 is the table of docs/desk/wide.md
# WENGELUDO_DRAWN (default 300)          drawn plants for the binding
# WENGELUDO_YEARS (default 3)            simulated years without fault and with each fault; 50 for docs/HISTORY.md
# WENGELUDO_AGREED (default 300)         drawn plants for the binding's solver beside the engine; 100000 in the long run of test_all.sh
# WENGELUDO_DRAWS (default 12)           draws of each process of the book under load; 500 is the long run, with 8 processes
# WENGELUDO_KILL_STEP (default: some)    the book is killed at every so many writes or statements; 1 is each of them
# CHROMIUM (default chromium)            the browser that opens the pages; none: they are not opened
# SPDX-License-Identifier: LicenseRef-Wengeludo
set -eu
cd "$(dirname "$0")/.."
python=/usr/bin/python3 # Debian's own: another python3 on the PATH sees none of Debian's packages
home=${TMPDIR:-/tmp}/wengeludo-desk-$(id -u)-$(printf %s "$PWD" | cksum | cut -d ' ' -f 1)
if [ "${1:-}" = --home ]; then
    echo "$home"
    exit 0
fi
modules="cffi click rich openpyxl jinja2 numpy pytest hypothesis setuptools wheel venv ensurepip"
absent=
for module in $modules; do "$python" -c "import $module" 2>/dev/null || absent="$absent $module"; done
command -v dot >/dev/null || absent="$absent graphviz"
[ -e "$("$python" -c 'import sysconfig; print(sysconfig.get_path("include"))' 2>/dev/null)/Python.h" ] || absent="$absent Python.h"
if [ "${1:-}" = --missing ]; then
    echo "$absent"
    exit 0
fi
if [ -n "$absent" ]; then
    echo "desk: not tested, as $python has no:$absent"
    echo "desk: apt-get install python3-venv python3-dev python3-pip python3-setuptools python3-wheel python3-cffi python3-click python3-rich" \
        "python3-openpyxl python3-jinja2 python3-numpy python3-pytest python3-hypothesis graphviz"
    exit 0
fi
[ "${CHROMIUM:-}" = none ] || command -v "${CHROMIUM:-chromium}" >/dev/null || echo "desk: pages are not opened in a browser, as there is no chromium (apt-get install chromium)"
{ ls /usr/lib/postgresql/*/bin/initdb && "$python" -c "import psycopg2"; } >/dev/null 2>&1 ||
    echo "desk: no book on a server is tested, as there is no PostgreSQL or no psycopg2 (apt-get install postgresql python3-psycopg2)"
"$python" -c "import distributed" 2>/dev/null ||
    echo "desk: no histories on a cluster are tested, as there is no dask.distributed (apt-get install python3-distributed)"
[ ! -e "$home" ] || [ -O "$home" ] || { echo "desk: $home is another user's" >&2; exit 1; }
[ -x "$home/bin/python3" ] || "$python" -m venv --system-site-packages "$home"
export WENGELUDO_INCLUDE="${WENGELUDO_INCLUDE:-$PWD/include}" WENGELUDO_ARCHIVE="${WENGELUDO_ARCHIVE:-$PWD/target/staticlib/libwengeludo.a}"
build=$(mktemp -d)
trap 'rm -rf "$build"' EXIT
for part in bindings/python desk; do
    mkdir -p "$build/$part"
    cp -r "$part/." "$build/$part/"
    [ $part != desk ] || bash desk/engine.sh "$build/desk"
    "$home/bin/python3" -m pip install --quiet --no-index --no-build-isolation --no-deps --force-reinstall --disable-pip-version-check "$build/$part"
done
for part in bindings/python desk; do
    (cd "$part" && "$home/bin/python3" -m pytest -q -p no:cacheprovider)
done
