# SPDX-License-Identifier: LicenseRef-Wengeludo
"""Solvers that are wrong in one place: each is built here, and the check sees it; whatever it hands out all the same is of least cost.

WENGELUDO_DRAWN (default 300)  how many plants each wrong solver is tried on
"""

import os
import random
import shutil
import subprocess

import pytest
from cffi import FFI
from test_wide import DRAWN, narrow_plant, told, wide_plant

import build_native
import wengeludo_balance as w

COMPILER = os.environ.get("CC") or "cc"
WRONG = {
    "a wrong sign of what a unit less costs": ("net->weight[arc] * (step - off)", "net->weight[arc] * (step + off)"),
    "one weight": ("net->weight[arc] = (int64_t)plant->weight[k];", "net->weight[arc] = (int64_t)plant->weight[k] + (arc == 0);"),
    "one reading": ("net->reading[arc] = plant->reading[k];", "net->reading[arc] = plant->reading[k] + 3 * (arc == 1);"),
    "a stale number": ("net->number[g] -= net->distance[to] - net->distance[g];", ";"),
    "numbers turned round": ("number[place] = (int64_t)found;", "number[place] = (int64_t)-found;"),
    "a number of one place": ("number[place] = (int64_t)found;", "number[place] = (int64_t)found + (place == 1);"),
    "ends of ranges left out": ("plant->ranged[k] ? clipped(plant->high[k], -REACH, REACH) : REACH;", "(void)plant, (void)k, REACH;"),
    "unmetered flows turned round": ("over[from] : -over[to];", "-over[from] : over[to];"),
    "steps that are too long": ("move(net, from, to, step);", "move(net, from, to, 2 * step);"),
    "what is over left there": ("return phase(net, 1);", "phase(net, 1); return WIDE_FOUND;"),
    "the other places marked": ("number[place] = net->seen[group[place]];", "number[place] = !net->seen[group[place]];"),
    "no flow for every plant": ("if (answer == WIDE_NO_FLOW)\n        return mark(", "if (answer != 77)\n        return mark("),
    "a tie taken twice": ("net->flow[arc]--;", "net->flow[arc] -= 2;"),
}


@pytest.fixture(scope="module")
def built(tmp_path_factory):
    """The solver with one place changed, as a library."""
    if not shutil.which(COMPILER):
        pytest.skip("no C compiler")
    right = (build_native.NATIVE / "wide_solve.c").read_text(encoding="utf-8")

    def build(old, new):
        work = tmp_path_factory.mktemp("spoilt")
        assert right.count(old) == 1
        (work / "wide_solve.c").write_text(right.replace(old, new), encoding="utf-8")
        sources = ["wide_solve.c", str(build_native.NATIVE / "wide_checked.c"), str(build_native.ARCHIVE)]
        folders = ["-I", str(build_native.INCLUDE), "-I", str(build_native.NATIVE)]
        subprocess.run([COMPILER, "-O1", "-fPIC", "-shared", *folders, *sources, "-lm", "-o", "spoilt.so"], cwd=work, check=True)
        ffi = FFI()
        ffi.cdef(build_native.own((build_native.NATIVE / "wide_solve.h").read_text(encoding="utf-8")))
        return ffi, ffi.dlopen(str(work / "spoilt.so"))

    return build


def answered(ffi, library, plant):
    """What a solver answers, with its flows."""
    streams = plant.streams
    columns = [
        ffi.new("uint8_t[]", [s.source for s in streams]), ffi.new("uint8_t[]", [s.target for s in streams]),
        ffi.new("uint8_t[]", [s.metered for s in streams]), ffi.new("uint64_t[]", [s.weight or 0 for s in streams]),
        ffi.new("int64_t[]", [s.reading for s in streams]), ffi.new("uint8_t[]", [s.ranged for s in streams]),
        ffi.new("int64_t[]", [s.low or 0 for s in streams]), ffi.new("int64_t[]", [s.high or 0 for s in streams]),
    ]  # fmt: skip
    flow, number, marked = ffi.new("int64_t[]", len(streams)), ffi.new("int64_t[]", 33), ffi.new("uint64_t *")
    answer = library.wide_checked(ffi.new("wide_plant *", [plant.units, len(streams), *columns]), flow, number, marked)
    return answer, list(flow)


def cost(plant, flows):
    return sum(s.weight * (x - s.reading) ** 2 for s, x in zip(plant.streams, flows) if s.metered)


@pytest.mark.parametrize("wrong", WRONG)
def test_it_is_seen(built, wrong):
    ffi, library = built(*WRONG[wrong])
    rng, seen, handed_out = random.Random(50), 0, 0
    for k in range(max(60, DRAWN)):
        plant = narrow_plant(rng) if k % 3 else wide_plant(rng, 30, 20, 30)
        number, right = told(w.wide_solve, plant)
        answer, flows = answered(ffi, library, plant)
        assert answer in (number, 26), "an answer that is not the plant's"
        seen += answer == 26
        handed_out += answer == 0
        assert answer != 0 or cost(plant, flows) == cost(plant, right.flows)
        assert answer == 0 or not any(flows)
    assert seen > 0
    print(f"{wrong}: {seen} seen, {handed_out} right all the same")
