# SPDX-License-Identifier: LicenseRef-Wengeludo
"""The version, and archives that the binding was not made for: each made here in C, its calls returning 99."""

import importlib.metadata
import os
import re
import shutil
import subprocess
import sys
from pathlib import Path

import pytest

import build_native
import wengeludo_balance as w

PACKAGE = Path(build_native.__file__).parent
CALLS = re.findall(r"^uint8_t (wengeludo_\w+)\(", build_native.HEADER.read_text(encoding="utf-8"), re.MULTILINE)
ASKED = "import wengeludo_balance as w; print(w.version())"
UNKNOWN = """
import wengeludo_balance as w
file = bytes.fromhex("01010400")
tried = [lambda: w.balance_plant(file), lambda: w.read_sheet(file), lambda: w.write_plant(1, []), lambda: w.read_plant(file), lambda: w.to_ranged(file),
         lambda: w.from_ranged(file), lambda: w.plant_from_transmitter(file), lambda: w.meters_to_buy(file, []), lambda: w.layouts_of(file),
         lambda: w.visits(file), lambda: w.charges(file, []), lambda: w.place_numbers(file), lambda: w.check_sheet(file, file, []),
         lambda: w.check_flow(w.WidePlant(1), [], [0, 0])]
for call in tried:
    try:
        call()
    except w.Refusal as refusal:
        print(refusal.number, refusal.text)
"""


def test_it_is_the_package_s():
    told = importlib.metadata.version("wengeludo_balance")
    assert ".".join(map(str, w.version())) == told


def test_it_is_the_header_s():
    text = build_native.HEADER.read_text(encoding="utf-8")
    assert w.version() == tuple(int(re.search(rf"VERSION_{part} (\d+)", text)[1]) for part in ("MAJOR", "MINOR", "PATCH"))


ANSWERS = """
unsigned char wengeludo_read_sheet(const unsigned char *bytes, unsigned long length, unsigned char *kinds, unsigned long room, long *flows,
    unsigned long flow_room, unsigned long *count, unsigned char *kind, unsigned char *office, unsigned *sheet, unsigned long *cost,
    unsigned char *degrees, unsigned char *verdict)
{
    *count = 1; kinds[0] = bytes[0]; flows[0] = 7; *kind = 0x1E; *verdict = bytes[1]; *office = *degrees = 0; *sheet = 1; *cost = 0;
    return length < 2 || room < 1 || flow_room < 1;
}
"""
TAKEN = """
import wengeludo_balance as w
taken = []
for kind in range(256):
    for verdict in (*range(8), 255):
        try:
            sheet = w.read_sheet(bytes((kind, verdict)))
            taken.append((sheet.records[0].kind.value, sheet.verdict.name))
        except Exception:
            pass
print(*(kind + verdict for kind, verdict in taken))
"""


@pytest.fixture(scope="module")
def made(tmp_path_factory):
    """The package over an archive of another version, by the number of that version and the header's; what a program over it says."""

    def make(number, header=(1, 0, 0), answers=""):
        work = tmp_path_factory.mktemp("other")
        calls = [f"unsigned char {call}(void) {{ return 99; }}" for call in CALLS if f"{call}(" not in answers] + [answers]
        (work / "engine.c").write_text("\n".join([*calls, f"unsigned wengeludo_version(void) {{ return {number}; }}", ""]))
        text = build_native.HEADER.read_text(encoding="utf-8")
        for part, value in zip(("MAJOR", "MINOR", "PATCH"), header):
            text = re.sub(rf"(VERSION_{part}) \d+", rf"\1 {value}", text)
        (work / "wengeludo_balance.h").write_text(text, encoding="utf-8")
        subprocess.run([os.environ.get("CC") or "cc", "-fPIC", "-c", "engine.c", "-o", "engine.o"], cwd=work, check=True)
        subprocess.run(["ar", "rcs", "other.a", "engine.o"], cwd=work, check=True)
        shutil.copytree(PACKAGE / "src" / "wengeludo_balance", work / "wengeludo_balance", ignore=shutil.ignore_patterns("_native*"))
        shutil.copytree(PACKAGE / "native", work / "native")
        env = {**os.environ, "WENGELUDO_INCLUDE": str(work), "WENGELUDO_ARCHIVE": str(work / "other.a"), "PYTHONPATH": str(work)}
        subprocess.run([sys.executable, str(PACKAGE / "build_native.py")], cwd=work, env=env, check=True, capture_output=True)

        def says(program):
            return subprocess.run([sys.executable, "-c", program], cwd=work, env=env, capture_output=True, text=True)

        return says

    return make


@pytest.mark.parametrize(
    "number, header, told",
    [
        (20_000, (1, 0, 0), "the archive is version 2.0.0; the header needs 1.0.0 or a later 1"),
        (10_203, (1, 2, 4), "the archive is version 1.2.3; the header needs 1.2.4 or a later 1"),
        (10_000, (2, 0, 0), "the archive is version 1.0.0; the header needs 2.0.0 or a later 2"),
    ],
)
def test_an_archive_that_does_not_fit(made, number, header, told):
    ended = made(number, header)(ASKED)
    assert ended.returncode == 1 and f"ImportError: wengeludo_balance: {told}" in ended.stderr


def test_a_later_one_and_numbers_that_are_not_known(made):
    says = made(10_102)
    assert says(ASKED).stdout == "(1, 1, 2)\n"
    assert says(UNKNOWN).stdout == "99 a number that this binding does not know\n" * len(CALLS)


def test_kinds_and_verdicts_that_are_not_known(made):
    """What the archive tells and this binding does not know is taken for nothing that it does."""
    known = [kind + verdict for kind in "ARGW" for verdict in ("PASS", "FAIL", "NONE", "CLOSE")]
    assert made(10_000, answers=ANSWERS)(TAKEN).stdout.split() == known
