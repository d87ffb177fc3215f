"""Makes the cases of the program `vectors` from fixed seeds.

    python3 reference/make_cases.py --check   compare with the committed files
    python3 reference/make_cases.py --write   write them anew

cases.py says what a case looks like. The table of reference/README.md is made too.
"""

import sys
import time
from pathlib import Path

if not __package__:
    import by_path  # started by its path

from reference import cases, samples, subjects, wide_to_try

ROOT = Path(__file__).resolve().parent.parent
VECTORS = ROOT / "crates" / "vectors"
DATA = VECTORS / "data"
CASES_AT_LEAST = 3_700
README = ROOT / "reference" / "README.md"
BEGIN, END = "<!-- cases: table, from reference/subjects.py -->\n", "<!-- cases: end of table -->\n"


def difference(made, kept):
    """Where two files differ first, or None."""
    if made == kept:
        return None
    common = min(len(made), len(kept))
    first = next((k for k in range(common) if made[k] != kept[k]), common)
    return f"byte {first} ({len(made)} bytes made, {len(kept)} committed)"


def table(counts):
    """The text of README.md with the table of the files of cases in it."""
    rows = [f"| `{name}.bin` | {tries} | {counts[name]:,} |" for name, _, tries in subjects.SUBJECTS]
    lines = ["| file | tries | cases |", "|---|---|---|", *rows, f"| together | | {sum(counts.values()):,} |"]
    before, rest = README.read_text(encoding="utf-8").split(BEGIN)
    return before + BEGIN + "\n".join(lines) + "\n" + END + rest.split(END)[1]


def main(arguments):
    if arguments not in (["--check"], ["--write"]):
        sys.exit(__doc__)
    write = arguments == ["--write"]
    different = 0
    seen = set()
    start = time.monotonic()

    def settle(path, made, told):
        nonlocal different
        if write:
            path.parent.mkdir(parents=True, exist_ok=True)
            path.write_bytes(made)
            found = None
        elif path.exists():
            found = difference(made, path.read_bytes())
        else:
            found = "missing"
        if found:
            different += 1
        print(f"{path.relative_to(ROOT)}: {told}" + (f"; DIFFERENT: {found}" if found else ""), flush=True)

    printed, counts = "", {}
    for name, cases_of, _ in subjects.SUBJECTS:
        begun = time.monotonic()
        records = []
        for case in cases_of():
            record = case.record()
            if record[:6] not in seen:
                seen.add(record[:6])
                records.append(record)
        refused = sum(record.returned != 0 for record in records)
        told = f"{len(records)} cases, {refused} refused, {time.monotonic() - begun:.1f} s"
        settle(DATA / f"{name}.bin", b"".join(map(cases.encoded, records)), told)
        printed += f"{name}.bin, cases: {len(records)}\n"
        counts[name] = len(records)
    settle(VECTORS / "args", "".join(f"{name}.bin\n" for name, _, _ in subjects.SUBJECTS).encode(), "the program's arguments")
    settle(VECTORS / "stdout", printed.encode(), "what the program prints")
    settle(README, table(counts).encode(), "the table of the cases")
    flows = wide_to_try.text()
    settle(ROOT / "reference" / "flows.cases", flows.encode(), f"{flows.count('#')} cases of the check of a flow")
    for path, made in samples.files():
        settle(ROOT / path, made, "sample")
    for path, problem in samples.missing_text(ROOT):
        different += 1
        print(f"{path}: DIFFERENT: {problem}")

    if len(seen) < CASES_AT_LEAST:
        raise ValueError(f"only {len(seen)} cases")
    print(f"{len(seen)} cases, {time.monotonic() - start:.1f} s,", f"{different} files differ" if different else "no difference")
    sys.exit(1 if different else 0)


if __name__ == "__main__":
    main(sys.argv[1:])
