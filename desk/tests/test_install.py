# SPDX-License-Identifier: LicenseRef-Wengeludo
"""install.sh in a copy of the tree: with no archive and no rt, with an rt that fails, with one that builds it, and a second time.

The rt here is a script that does what `rt lib` does for packaging/archive.sh, by a copy of the archive.
"""

import os
import shutil
import subprocess
from pathlib import Path

import pytest

ROOT = Path(__file__).resolve().parents[2]
ARCHIVE = Path(os.environ.get("WENGELUDO_ARCHIVE") or ROOT / "target" / "staticlib" / "libwengeludo.a")
FAILING = "#!/bin/sh\nexit 1\n"
NOISE = "".join(f"echo proving {k}\n" for k in range(200))
BUILDING = '#!/bin/sh\n' + NOISE + '[ "$*" = "lib --cpu x86-64" ] || exit 9\nmkdir -p out && cp "{}" out/libwengeludo_c.a && echo built >>../../rt.log && echo "logic=proved "\n'


@pytest.fixture
def tree(tmp_path):
    """The parts of the tree that the set-up reads, and a PATH without rt."""
    for part in ("desk", "bindings", "include"):
        shutil.copytree(ROOT / part, tmp_path / "tree" / part, ignore=shutil.ignore_patterns("build", "*.egg-info", "__pycache__", ".hypothesis"))
    (tmp_path / "tree" / "packaging").mkdir()
    shutil.copy(ROOT / "packaging" / "archive.sh", tmp_path / "tree" / "packaging")
    (tmp_path / "tree" / "crates" / "wengeludo_c").mkdir(parents=True)
    (tmp_path / "bin").mkdir()
    return tmp_path / "tree"


def installed(tree, rt=None, words=(), **more):
    if rt is not None:
        (tree.parent / "bin" / "rt").write_text(rt)
        (tree.parent / "bin" / "rt").chmod(0o755)
    kept = {name: value for name, value in os.environ.items() if not name.startswith(("WENGELUDO", "PYTHON"))}
    env = {**kept, "PATH": f"{tree.parent / 'bin'}:/usr/bin:/bin", "WENGELUDO_APT": "no", **more}
    return subprocess.run(["bash", "desk/install.sh", *words, str(tree.parent / "prefix")], cwd=tree, env=env, capture_output=True, text=True)


def test_no_archive_and_no_rt(tree):
    if shutil.which("rt", path="/usr/bin:/bin"):
        pytest.skip("rt is among the system's programs")
    ended = installed(tree)
    assert ended.returncode == 1 and "no archive, and no rt on the PATH to build it" in ended.stderr
    ended = installed(tree, FAILING)
    assert ended.returncode == 1 and ended.stderr.endswith("bash packaging/archive.sh did not succeed\n") and len(ended.stderr.splitlines()) < 25
    assert not (tree.parent / "prefix").exists()


def test_rt_builds_the_archive_once(tree):
    if not ARCHIVE.exists():
        pytest.skip("no archive")
    for _ in range(2):
        ended = installed(tree, BUILDING.format(ARCHIVE))
        assert ended.returncode == 0, ended.stderr
        assert "steam_site  pass: the meters agree" in ended.stdout and len((ended.stdout + ended.stderr).splitlines()) <= 10
    assert (tree / "rt.log").read_text() == "built\n"
    launcher = tree.parent / "prefix" / "bin" / "wengeludo"
    told = subprocess.run([launcher, "--version"], capture_output=True, text=True, env={"PATH": "/nowhere"})
    assert told.returncode == 0 and told.stdout.startswith("wengeludo, version ")


def test_an_archive_that_is_handed_over(tree):
    """Nothing is proved: no rt is called, and ten lines are printed."""
    if not ARCHIVE.exists():
        pytest.skip("no archive")
    ended = installed(tree, FAILING, ("--archive", str(ARCHIVE)))
    assert ended.returncode == 0, ended.stderr
    assert "steam_site  pass: the meters agree" in ended.stdout and str(ARCHIVE.resolve()) in ended.stdout
    assert len((ended.stdout + ended.stderr).splitlines()) <= 10 and not (tree / "target").exists()


@pytest.mark.parametrize("words, told", [
    (("--archive", "none.a"), "none.a: there is no such archive"), (("--archive", "desk/README.md"), "desk/README.md: this is no archive of object files"),
    (("--archve",), "--archve is not known"), (("here",), "one PREFIX would do, not here and"),
])
def test_wrong_use(words, told, tree):
    ended = installed(tree, FAILING, words)
    assert ended.returncode == 1 and told in ended.stderr and not (tree.parent / "prefix").exists()


def test_packages_that_are_missing_are_named(tree):
    """A dpkg-query that knows of no package."""
    (tree.parent / "bin" / "dpkg-query").write_text("#!/bin/sh\nexit 1\n")
    (tree.parent / "bin" / "dpkg-query").chmod(0o755)
    ended = installed(tree)
    assert ended.returncode == 1 and "needs Debian's packages: python3-venv" in ended.stderr and "graphviz" in ended.stderr
