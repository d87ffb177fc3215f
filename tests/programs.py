# SPDX-License-Identifier: LicenseRef-Wengeludo
"""Runs the programs themselves, balance, layouts and visits of crates/NAME/out, and compares what they print with the reference solver.

    python3 tests/programs.py

What a read puts down and what a write takes is in no contract (docs/PROMISES.md, "The programs"): here it is tried. A
program reads no more than one byte past the longest plant file, all that comes up to there, from standard input alone; it says on
standard error, in one line, what cannot be read or written, and then prints nothing. Its exit status is always 0. A pipe that nobody
reads is an output that cannot be written: a program of today's Rattle asks the system not to end it there.
"""

import os
import subprocess
import sys
import tempfile
import time
from pathlib import Path

ROOT = Path(__file__).resolve().parent.parent
sys.path.insert(0, str(ROOT))

from reference import parts  # noqa: E402
from reference import samples  # noqa: E402
from reference import solver  # noqa: E402
from reference import survey  # noqa: E402
from reference import visits  # noqa: E402

PROGRAMS = {"balance": solver.listing, "layouts": survey.text, "visits": visits.text}
LONGEST = 1_636
UNREAD = "{}: standard input cannot be read\n"
UNWRITTEN = "{}: standard output cannot be written\n"
ARGUMENT = "{}: a plant file is read from standard input, and no argument is taken\n"
SECONDS = 20  # so long may one run take


def program(name):
    """The compiled program, as rt leaves it."""
    return ROOT / "crates" / name / "out" / name


runs = 0
faults = []


def check(name, what, ran, printed, said="", status=0):
    """One run: its status, what it printed, and what it said on standard error."""
    global runs
    runs += 1
    wanted = (status, printed, said.format(name))
    if ran != wanted:
        faults.append(f"{name}, {what}: {ran!r}, expected {wanted!r}")


def run(name, given=b"", arguments=(), **streams):
    if not streams.get("stdin"):
        streams["input"] = given
    if "stdout" not in streams:
        streams["stdout"] = subprocess.PIPE
    try:
        done = subprocess.run([program(name), *arguments], stderr=subprocess.PIPE, timeout=SECONDS, **streams)
    except subprocess.TimeoutExpired:
        return f"no end after {SECONDS} seconds", "", ""
    return done.returncode, (done.stdout or b"").decode(), done.stderr.decode()


def slowly(name, pieces):
    """Input that comes in pieces, with a pause before each; a program that has stopped reading is given no more."""
    pipes = {"stdin": subprocess.PIPE, "stdout": subprocess.PIPE, "stderr": subprocess.PIPE}
    with subprocess.Popen([program(name)], bufsize=0, **pipes) as process:
        try:
            for piece in pieces:
                time.sleep(0.02)
                process.stdin.write(piece)
        except BrokenPipeError:
            pass
        process.stdin.close()
        return process.wait(SECONDS), process.stdout.read().decode(), process.stderr.read().decode()


def unread(name, given, **how):
    """Output to a pipe that nobody reads."""
    kept, given_up = os.pipe()
    os.close(kept)
    try:
        return run(name, given, stdout=given_up, **how)
    finally:
        os.close(given_up)


def files():
    """Every sample, and files of every length that matters."""
    for path in sorted((ROOT / "samples").glob("*.bin")):
        yield path.name, path.read_bytes()
    longest = parts.plant_file(32, [parts.ranged(0, 1, 5, -9, 9)] * 96)
    assert len(longest) == LONGEST
    small = samples.LISTING.file
    yield "the longest file", longest
    yield "one byte more", longest + b"\0"
    yield "one byte more, which would end it well", longest[:-1] + b"\x60" + longest[-1:]
    yield "100,000 bytes", longest + bytes(100_000 - LONGEST)
    yield "a small plant and 100,000 bytes", small + bytes(100_000)
    yield "nothing", b""
    yield "one byte", b"\x01"
    yield "a small plant without its last byte", small[:-1]


def fed(name, reference):
    """Whole files, by a pipe and from a file; the same in pieces; what cannot be read; arguments."""
    for what, file in files():
        check(name, what, run(name, file), reference(file))
        with tempfile.TemporaryFile() as kept:
            kept.write(file)
            kept.seek(0)
            check(name, what + ", from a file", run(name, stdin=kept), reference(file))
    small = samples.LISTING.file
    text = reference(small)
    check(name, "a byte at a time", slowly(name, [small[k : k + 1] for k in range(len(small))]), text)
    late = [small[:9], small[9:20], small[20:]]
    check(name, "in three pieces", slowly(name, late), text)
    check(name, "in pieces, one byte too many", slowly(name, [*late, b"\0"]), "refused 12\n")
    folder = os.open(ROOT, os.O_RDONLY)
    check(name, "a directory", run(name, stdin=folder), "", UNREAD)
    os.close(folder)
    check(name, "no input at all", run(name, preexec_fn=lambda: os.close(0)), "", UNREAD)
    for count in (1, 2):
        waiting, held = os.pipe()
        check(name, f"{count} arguments", run(name, arguments=["x.bin"] * count, stdin=waiting), "", ARGUMENT)
        os.close(waiting)
        os.close(held)


def put(name):
    """Output that takes nothing."""
    small = samples.LISTING.file
    with open("/dev/full", "wb") as full:
        check(name, "a full output", run(name, small, stdout=full), "", UNWRITTEN)
        check(name, "a full output, refused", run(name, b"", stdout=full), "", UNWRITTEN)
    check(name, "no output", run(name, small, preexec_fn=lambda: os.close(1)), "", UNWRITTEN)
    check(name, "a pipe that nobody reads", unread(name, small), "", UNWRITTEN)
    check(name, "such a pipe, without the signal", unread(name, small, restore_signals=False), "", UNWRITTEN)


def main():
    there = sorted(path.parent.parent.name for path in (ROOT / "crates").glob("*/src/main.rt"))
    if there != sorted([*PROGRAMS, "vectors"]):
        sys.exit(f"programs that this test does not know: {there}")
    for name, reference in PROGRAMS.items():
        if not program(name).exists():
            sys.exit(f"no {program(name).relative_to(ROOT)}: build it with 'rt run </dev/null' in crates/{name}")
        fed(name, reference)
        put(name)
    for fault in faults:
        print(fault, file=sys.stderr)
    if faults:
        sys.exit(f"programs: {len(faults)} of {runs} runs not as expected")
    print(f"programs: {runs} runs of {', '.join(PROGRAMS)} as expected")


if __name__ == "__main__":
    main()
