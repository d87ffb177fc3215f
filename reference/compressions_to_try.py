"""Potentials to try with the compression, which hardly a plant calls for: made up, from all equal to all as far apart as can be.

A gap is what a potential lies below the next higher one, or the highest below POTENTIAL_SHIFT. Where some potential is below the
floor, every gap above MARGINAL becomes MARGINAL.
"""

from reference.parts import Compression, Draws

PLACES = 33
POTENTIAL_SHIFT = 2**57
# The greatest weight times twice the farthest that an amount may be from its reading, and the greatest step.
MARGINAL = 1_000 * (2 * (2**39 + 4_000_000) + 2**29)
POTENTIAL_FLOOR = POTENTIAL_SHIFT - PLACES * MARGINAL


def compressed(potentials):
    """The potentials after the compression, from the gaps in falling order."""
    if min(potentials) >= POTENTIAL_FLOOR:
        return list(potentials)
    found = {}
    before = after = POTENTIAL_SHIFT
    for potential in sorted(set(potentials), reverse=True):
        after -= min(before - potential, MARGINAL)
        found[potential] = after
        before = potential
    return [found[potential] for potential in potentials]


def below(*falls):
    """Potentials so far below POTENTIAL_SHIFT, the last one for all places left."""
    return [POTENTIAL_SHIFT - fall for fall in falls + (PLACES - len(falls)) * falls[-1:]]


def stairs(step, first=0):
    return below(*(first + k * step for k in range(PLACES)))


def compressions():
    draws = Draws(118)
    lists = [
        below(0), below(POTENTIAL_SHIFT), below(0, POTENTIAL_SHIFT), below(POTENTIAL_SHIFT, 0), below(MARGINAL), below(1, 2, 3),
        stairs(MARGINAL), stairs(MARGINAL, MARGINAL), stairs(MARGINAL, MARGINAL + 1), stairs(MARGINAL + 1, 0),
        stairs(MARGINAL - 1, MARGINAL), stairs(3 * MARGINAL // 2), list(reversed(stairs(3 * MARGINAL))), stairs(POTENTIAL_SHIFT // 32),
    ]
    # At the floor, and one below it, with the others anywhere above.
    for fall in (POTENTIAL_SHIFT - POTENTIAL_FLOOR - 1, POTENTIAL_SHIFT - POTENTIAL_FLOOR, POTENTIAL_SHIFT - POTENTIAL_FLOOR + 1):
        lists += [below(fall), below(0, fall), below(fall, 0), below(MARGINAL, fall, 0)]
    for _ in range(60):
        most = draws.pick((MARGINAL, 3 * MARGINAL, 40 * MARGINAL, POTENTIAL_SHIFT))
        many = draws.pick((2, 5, PLACES))
        some = [draws.between(0, most) for _ in range(many)] + [draws.pick((0, most, POTENTIAL_SHIFT))]
        potentials = below(*(draws.pick(some) for _ in range(PLACES)))
        lists.append(potentials)
    for potentials in lists:
        yield Compression(tuple(potentials), tuple(compressed(potentials)))
