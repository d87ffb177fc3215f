# SPDX-License-Identifier: LicenseRef-Wengeludo
"""The package as others take it: bytes-like objects, its version, and a source package that installs beside an installed library."""

import os
import shutil
import subprocess
import sys
import tarfile
import zipfile
from pathlib import Path

import pytest

import wengeludo_balance as w

HERE = Path(__file__).resolve().parents[1]
ROOT = HERE.parents[1]
LISTING = (ROOT / "samples" / "listing.bin").read_bytes()


@pytest.mark.parametrize("form", [bytearray, memoryview, lambda data: memoryview(bytearray(data))])
def test_bytes_like(form):
    assert w.balance_plant(form(LISTING)) == w.balance_plant(LISTING)
    assert w.read_plant(form(LISTING)) == w.read_plant(LISTING)
    sheet = w.balance_plant(LISTING).sheet
    assert w.read_sheet(form(sheet)) == w.read_sheet(sheet)
    w.check_sheet(form(LISTING), form(sheet), w.place_numbers(form(LISTING)))
    assert w.layouts_of(form(LISTING)) == w.layouts_of(LISTING) and w.visits(form(LISTING)) == w.visits(LISTING)


@pytest.mark.parametrize("none", ["01010400", None, 5, [1, 1, 4, 0]])
def test_what_is_no_bytes(none):
    with pytest.raises(TypeError, match="a file is bytes or a bytes-like object"):
        w.balance_plant(none)


def test_version():
    assert w.__version__ == ".".join(map(str, w.version()))


def run(*words, cwd, **environment):
    done = subprocess.run([str(word) for word in words], cwd=cwd, capture_output=True, text=True, env={**os.environ, **environment}, check=False)
    assert done.returncode == 0, done.stdout + done.stderr
    return done.stdout


@pytest.mark.skipif(shutil.which("pkg-config") is None, reason="no pkg-config")
def test_source_package_beside_an_installed_library(tmp_path):
    archive = Path(os.environ.get("WENGELUDO_ARCHIVE") or ROOT / "target" / "staticlib" / "libwengeludo.a")
    shutil.copytree(HERE, tmp_path / "package", ignore=shutil.ignore_patterns("build", "*.egg-info", "__pycache__"))
    bare = {name: "" for name in ("WENGELUDO_INCLUDE", "WENGELUDO_ARCHIVE")}
    (tmp_path / "lib" / "pkgconfig").mkdir(parents=True)
    shutil.copy(archive, tmp_path / "lib" / "libwengeludo.a")
    shutil.copytree(ROOT / "include", tmp_path / "include")
    lines = [f"prefix={tmp_path}", "includedir=${prefix}/include", "libdir=${prefix}/lib", "Name: wengeludo", "Description: x", f"Version: {w.__version__}"]
    (tmp_path / "lib" / "pkgconfig" / "wengeludo.pc").write_text("\n".join(lines) + "\n", encoding="utf-8")
    bare["PKG_CONFIG_PATH"] = str(tmp_path / "lib" / "pkgconfig")
    run(sys.executable, "setup.py", "-q", "sdist", "-d", tmp_path / "dist", cwd=tmp_path / "package", **bare)
    [source] = (tmp_path / "dist").glob("*.tar.gz")
    with tarfile.open(source) as file:
        names = {name.split("/", 1)[1] for name in file.getnames() if "/" in name}
        file.extractall(tmp_path / "unpacked")  # ours, made a moment ago
    assert {"LICENCE", "build_native.py", "native/wide_solve.c", "native/rows.h", "src/wengeludo_balance/py.typed"} <= names
    [unpacked] = (tmp_path / "unpacked").iterdir()
    run(sys.executable, "setup.py", "-q", "bdist_wheel", "-d", tmp_path / "wheel", cwd=unpacked, **bare)
    [wheel] = (tmp_path / "wheel").glob("*.whl")
    assert "-cp39-abi3-" in wheel.name
    with zipfile.ZipFile(wheel) as file:
        listed = file.namelist()
        file.extractall(tmp_path / "site")
    assert any(name.endswith("LICENCE") for name in listed) and any(name.endswith("_native.abi3.so") for name in listed)
    said = run(sys.executable, "-c", "import wengeludo_balance as w; print(w.__file__, w.balance(bytes.fromhex('01010400')).verdict.name)",
               cwd=tmp_path, PYTHONPATH=str(tmp_path / "site"))
    assert said.startswith(str(tmp_path / "site")) and said.endswith("NONE\n")
