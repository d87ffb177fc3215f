# SPDX-License-Identifier: LicenseRef-Wengeludo
"""Makes the compiled module wengeludo_balance._native out of the C header, the archive and the solver of native/ (cffi, API mode).

The declarations are read from the headers, and the C compiler checks the calls against these same headers: no signature stands here.

WENGELUDO_INCLUDE (default: include of this repository, else the folder that pkg-config names)   the header's folder
WENGELUDO_ARCHIVE (default: target/staticlib/libwengeludo.a, likewise)     the archive, as `bash packaging/archive.sh` writes it
"""

import os
import re
import shutil
import subprocess
import sys
from pathlib import Path

from cffi import FFI

HERE = Path(__file__).resolve().parent
ROOT = HERE.parents[1]


def installed(variable: str) -> Path:
    """A folder of the library that `install.sh` has installed, by pkg-config; one that is not there if it knows none."""
    if shutil.which("pkg-config") is None:
        return HERE / "not-installed"
    told = subprocess.run(["pkg-config", f"--variable={variable}", "wengeludo"], capture_output=True, text=True, check=False)
    return Path(told.stdout.strip().replace("\\ ", " ") or HERE / "not-installed")


def first(name: str, here: Path, there: Path) -> Path:
    """What the variable names, else what this repository has, else what is installed; the repository's if there is neither."""
    named = os.environ.get(name)
    return Path(named) if named else there if there.exists() and not here.exists() else here


INCLUDE = first("WENGELUDO_INCLUDE", ROOT / "include", installed("includedir"))
ARCHIVE = first("WENGELUDO_ARCHIVE", ROOT / "target" / "staticlib" / "libwengeludo.a", installed("libdir") / "libwengeludo.a")
HEADER = INCLUDE / "wengeludo_balance.h"
NATIVE = HERE / "native"  # C of this package's own, over the archive's calls
FAULT = NATIVE / "wengeludo_fault.h"  # it and fault.c are those of bindings/c, rules.h that of programs, byte for byte: a test compares them
HEADERS = (HEADER, FAULT, NATIVE / "broken_rule.h", NATIVE / "rows.h", NATIVE / "wide_solve.h")
SOURCES = tuple(NATIVE / name for name in ("broken_rule.c", "fault.c", "rows.c", "wide_checked.c", "wide_solve.c"))


def declarations(header: str) -> str:
    """The header's numbers, enums and calls, without its comments and whatever is for the preprocessor."""
    text = re.sub(r"/\*.*?\*/", "", header, flags=re.DOTALL)
    numbers = re.findall(r"^#define WENGELUDO_\w+ \d+$", text, flags=re.MULTILINE)
    large = re.findall(r"^#define (WENGELUDO_\w+) (U?)INT64_C\(\d+\)$", text, flags=re.MULTILINE)
    constants = [f"static const {sign.lower()}int64_t {name};" for name, sign in large]
    enums = re.findall(r"^enum \{.*?^\};", text, flags=re.DOTALL | re.MULTILINE)
    calls = re.findall(r"^\w[\w \*]*\bwengeludo_\w+\([^;{]*\);", text, flags=re.MULTILINE)
    return "\n".join([*numbers, *constants, *enums, *calls])


def own(header: str) -> str:
    """The structures and calls of a header of this package's own."""
    text = re.sub(r"/\*.*?\*/", "", header, flags=re.DOTALL)
    return "\n".join(line for line in text.splitlines() if not line.startswith("#"))


for needed, how in ((HEADER, "it belongs to this repository, or install.sh puts it where pkg-config finds it"), (ARCHIVE, "build it with 'bash packaging/archive.sh'")):
    if not needed.exists():
        sys.exit(f"wengeludo_balance: no {needed}: {how}")

ffi = FFI()
ffi.cdef(declarations(HEADER.read_text(encoding="utf-8")))
ffi.cdef(declarations(FAULT.read_text(encoding="utf-8")))
for header in HEADERS[2:]:
    ffi.cdef(own(header.read_text(encoding="utf-8")))
ffi.set_source(
    "wengeludo_balance._native",
    "\n".join(f'#include "{header.name}"' for header in HEADERS),
    sources=[str(path.relative_to(HERE) if HERE == Path.cwd() else path) for path in SOURCES],  # setuptools asks for relative ones
    include_dirs=[str(INCLUDE), str(NATIVE)],
    extra_objects=[str(ARCHIVE)],
    libraries=["m"],
    depends=[*map(str, HEADERS), *map(str, SOURCES), str(ARCHIVE)],
    extra_compile_args=["-Werror=incompatible-pointer-types", "-Werror=int-conversion", "-Werror=implicit-function-declaration"],
)

if __name__ == "__main__":
    ffi.compile(verbose=True)
