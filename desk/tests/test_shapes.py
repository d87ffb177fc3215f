# SPDX-License-Identifier: LicenseRef-Wengeludo
"""What the tool works out itself, against the engine and by other ways."""

import random
from fractions import Fraction
from pathlib import Path

import pytest
from conftest import SAMPLES

import wengeludo_balance as engine
from wengeludo.explain import together
from wengeludo.balance.graph import across, groups, rings, summed
from wengeludo.read.lists import read_list
from wengeludo.balance.kind import SheetKind
from wengeludo.balance.sheet import balance
from wengeludo.balance.site import read_site, site_of
from wengeludo.balance.spread import spreads
from wengeludo.explain.suspects import likeliest, suspects
from wengeludo.balance.unit import UNITS, choose, clamps


def drawn_plants(count=150):
    rng = random.Random(34)
    while count:
        units = rng.randint(1, 7)
        streams = []
        for _ in range(rng.randint(1, 14)):
            source, target = rng.sample(range(units + 1), 2)
            meter = (rng.choice((1, 4, 40)), rng.randint(0, 300)) if rng.random() < 0.6 else (None, 0)
            streams.append(engine.Stream(source, target, *meter))
        plant = engine.Plant(units, tuple(streams))
        yield plant, engine.balance(plant.file()).records
        count -= 1


def test_a_deduced_flow_is_the_sum_of_its_meters():
    for plant, records in drawn_plants():
        for k, record in enumerate(records):
            if record.kind is engine.Kind.GIVEN:
                signed, beyond = summed(plant.streams, k)
                assert all(plant.streams[j].metered for j, _ in signed)
                assert sum(sign * records[j].flow for j, sign in signed) == record.flow
                assert 0 not in beyond or 0 in summed(plant.streams, k)[1]


def test_groups_balance():
    for plant, records in drawn_plants():
        for group in groups(plant.streams, plant.units):
            assert sum(sign * records[k].flow for k, sign in across(plant.streams, group)) == 0


def test_rings_hold_every_blank_and_close():
    for plant, records in drawn_plants():
        blanks = [k for k, r in enumerate(records) if r.kind is engine.Kind.WITHHELD]
        found = rings(plant.streams, blanks)
        assert {k for ring in found for k in ring} == set(blanks)
        for ring in found:
            ends = [end for k in ring for end in (plant.streams[k].source, plant.streams[k].target)]
            assert len(ring) > 1 and all(ends.count(end) == 2 for end in ends)


def test_estimates_are_those_of_moved_readings():
    """Each reading moved by much, one at a time: the linear answer of the engine itself."""
    step = 1_000_000
    for plant, records in drawn_plants(40):
        deviations = [None if s.weight is None else (1000 / s.weight) ** 0.5 for s in plant.streams]
        moved = [0.0] * len(records)
        for k, s in enumerate(plant.streams):
            if s.weight is not None:
                streams = list(plant.streams)
                streams[k] = engine.Stream(s.source, s.target, s.weight, s.reading + step)
                after = engine.balance(engine.Plant(plant.units, tuple(streams)).file()).records
                for j, record in enumerate(after):
                    if record.flow is not None:
                        moved[j] += ((record.flow - records[j].flow) / step * deviations[k]) ** 2
        for estimate, square, record in zip(spreads(plant, records, deviations), moved, records):
            assert (estimate is None) == (record.flow is None)
            if estimate is not None:
                assert estimate == pytest.approx(square**0.5, abs=0.01)


def test_vent_of_the_deaerator():
    drawn = balance(read_site(SAMPLES / "steam_site.csv"))
    line = drawn.lines[drawn.site.list.find("4")]
    assert (line.flow, round(line.spread)) == (67, 48)


def test_blanks_together():
    drawn = balance(read_site(SAMPLES / "steam_site.csv"))
    assert [together.words(drawn, known) for known in together.side_by_side(drawn)] == ["18 + 19 = 7,931 ± 24 kg/h"]
    blind = balance(read_site(SAMPLES / "blind_site.csv"))
    assert together.side_by_side(blind) == []
    assert [together.words(blind, known) for known in together.at_places(blind, [5])] == ["6 − 8 = 1,600 ± 13 kg/h"]


def test_blanks_that_run_against_each_other(listed):
    text = "stream,from,to,reading,accuracy\na,outside,boiler,100,w10\nb,boiler,tank,,\nc,tank,boiler,,\nd,tank,outside,98,w10\n"
    drawn = balance(read_site(listed(text)))
    assert [together.words(drawn, known) for known in together.side_by_side(drawn)] == ["b − c = 99 ± 7 kg/h"]


def test_suspects_of_the_site_with_a_meter_off():
    drawn = balance(read_site(SAMPLES / "steam_site_off.csv"))
    best, other = likeliest(drawn, suspects(drawn))
    assert (drawn.site.list.pipes[best.index].label, best.flow, best.why_not) == ("9", 7989, "")
    assert (drawn.site.list.pipes[other.index].label, other.flow) == ("11", -332) and "backwards" in other.why_not


def test_units():
    assert choose(read_list(SAMPLES / "steam_site.csv").pipes) == 1
    two = read_list(SAMPLES / "two_percent.csv").pipes
    counts = {unit: len(clamps(two, unit)) for unit in UNITS}
    assert min(counts.values()) > 0, "no unit takes all 17"
    assert choose(two) == min(unit for unit in UNITS if counts[unit] == min(counts.values()))


def test_a_unit_keeps_decimals(listed):
    site = read_site(listed("from,to,reading,accuracy\noutside,kettle,12.3,0.3\nkettle,outside,12.9,0.3\n"))
    drawn = balance(site)
    assert site.unit < 1 and drawn.kind is SheetKind.ENGINE
    assert drawn.lines[0].flow == drawn.lines[1].flow == pytest.approx(12.6, abs=float(site.unit))
    assert site.shown(12.6) == "12.60" if site.unit == Fraction(1, 20) else True


def test_dead_end_is_noted(listed):
    from wengeludo.balance.site import notes

    text = "from,to,reading,accuracy\noutside,boiler 2,50,5\nboiler 2,outside,50,5\nboilr 2,outside,3,1\n"
    assert notes(site_of(read_list(Path(listed(text))))) == ["boilr 2 has a single stream, so nothing can flow through it; is it boiler 2, mistyped?"]
