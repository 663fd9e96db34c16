#!/usr/bin/env python3
"""Frames whose numbers are moved to values that decide.

    moved.py --seed S --count N       prints them, with what was moved

A frame of a family of generate.py is run once by reference.py, which tells the
values that decided: distances, quotients of two distances, edges' lengths by
the expected ones, worst residuals. Pass after pass, from the sheet that the
moved passes before it leave, one number is then set so that its limit lands on
such a value, or one or two units in the last place below or above it:

    search      so that the radius is the distance of a corner
    boundary    the same, for grow where it extrapolates
    skirt       the search, so that the squared radius lies as far from a squared
                distance as its 65,536th part, where 01's exclusion ends
    factor      the quotient of the second distance by the first
    gate        the residual, so that the gate is the worst residual of a fit
    band        so that 1 - band or 1 + band is an edge's length by the expected

Some frames have shades, as in generate.py: a corner that a cell passes over for
its kind then stands at the radius too, and local's unmatched count decides. Some
have their labels in two sets, as there: they are split, and some spoilt, when all
numbers are moved, so that those that are joined decide as the whole frame does.
Some have as lines, put in last: passes that are moved stay as they are, and bare
ones are put behind them.
"""

import argparse
import math
import random

import generate
import reference as ref

MOST_CORNERS = 50
UNITS = [-2, -1, 0, 0, 1, 2]
PARAMETERS = ["search", "boundary", "skirt", "factor", "gate", "band"]
FAMILIES = {
    "panel": 22,
    "edge": 3,
    "equal": 8,
    "pairs": 16,
    "knife": 6,
    "supports": 14,
    "degenerate": 9,
    "horizon": 5,
    "scale": 8,
    "wild": 5,
}
# Which number of each pass a parameter is, counted from 0.
PLACES = {"search": 0, "boundary": 2, "skirt": 0, "factor": 1, "gate": 3}
MOST = {"search": 16.0, "boundary": 16.0, "skirt": 16.0, "factor": 1000.0, "gate": 16.0}


def multiple(limit, scales):
    """The number that, times the scales one after the other, each product
    rounded, gives the limit; the nearest where none does."""
    divisor = math.prod(scales)
    if divisor == 0.0 or not math.isfinite(limit / divisor):
        return None
    first = ref.rnd(limit / divisor)
    if not math.isfinite(first):
        return None

    def miss(number):
        for scale in scales:
            number = ref.rnd(number * scale)
        return abs(number - limit)

    return min((generate.beside(first, k) for k in range(-3, 4)), key=miss)


def reached(frame, number, square):
    """What the search was multiplied with to reach this squared radius."""
    kind, numbers = frame.passes[number]
    plain = ref.rnd(numbers[0] * frame.cell)
    if kind == "grow" and ref.rnd(plain * plain) != square:
        return [frame.cell, numbers[2]]
    return [frame.cell]


def moved_to(rng, frame, number, parameter, found):
    """The parameter's new value and the units it was moved by, or None."""
    value, limit = found[0] if rng.random() < 0.6 else rng.choice(found)
    units = rng.choice(UNITS)
    if parameter == "factor":
        new = generate.beside(value, units)
    elif parameter == "gate":
        new = multiple(generate.beside(value, units), [frame.cell])
    elif parameter == "boundary":
        radius = ref.rnd(frame.passes[number][1][0] * frame.cell)
        new = multiple(generate.beside(ref.root(value), units), [radius])
    else:
        radius = ref.root(value)
        if parameter == "skirt":
            radius = ref.rnd(math.sqrt(value / (1.0 + rng.choice([-1, 1]) / 65536)))
        new = multiple(generate.beside(radius, units), reached(frame, number, limit))
    if new is None or not 0.0 <= new <= MOST[parameter]:
        return None
    return new, units


def values_by_parameter(frame, number, decisions):
    """The values that each parameter of a pass could be moved to."""
    values = {}
    for decision in decisions:
        kind, value, limit = decision
        if kind == "quotient" and math.isfinite(value):
            values.setdefault("factor", []).append((value, limit))
        elif kind == "gate":
            values.setdefault("gate", []).append((value, limit))
        elif kind == "radius":
            values.setdefault("search", []).append((value, limit))
            if len(reached(frame, number, limit)) == 2:
                values.setdefault("boundary", []).append((value, limit))
    if "search" in values:
        values["skirt"] = values["search"]
    return values


def move_in_pass(rng, frame, number, decisions, radius):
    """Moves one number of a pass; what was moved and by how many units."""
    values = values_by_parameter(frame, number, decisions)
    wish = ["factor", "gate"]
    if radius:
        wish += ["search", "search", "boundary", "boundary", "skirt"]
    wish = [parameter for parameter in wish if parameter in values]
    if not wish:
        return None
    parameter = rng.choice(wish)
    new = moved_to(rng, frame, number, parameter, values[parameter])
    if new is None:
        return None
    kind, numbers = frame.passes[number]
    numbers = list(numbers)
    numbers[PLACES[parameter]] = new[0]
    frame.passes[number] = (kind, tuple(numbers))
    return parameter, new[1], kind


def move_band(rng, frame):
    """Moves the band to an edge of any pass."""
    sheet = frame.given()
    ratios = []
    for number in range(len(frame.passes)):
        decisions = []
        ref.run_pass(frame, sheet, number, ref.Watch(decisions))
        ratios += [(value, frame.passes[number][0]) for kind, value, _ in decisions if kind == "edge"]
    if not ratios:
        return None
    ratio, kind = ratios[0] if rng.random() < 0.6 else rng.choice(ratios)
    units = rng.choice(UNITS)
    band = ref.rnd(abs(generate.beside(ratio, units) - 1.0))
    if band > 4.0:
        return None
    frame.band = band
    return "band", units, kind


def small(draft):
    """Small enough to run often: few corners, at most three passes, and local
    with at most two rounds, with shades three, and depth one. None if there are
    too many."""
    if len(draft.corners) > MOST_CORNERS:
        return None
    passes = []
    for kind, numbers in draft.passes[:3]:
        if kind == "local":
            search, factor, rounds, residual, depth = numbers
            rounds = min(rounds, 3 if draft.shades else 2)
            numbers = (search, factor, rounds, residual, min(depth, 1))
        passes.append((kind, numbers))
    draft.passes = passes
    return draft


def move(rng, frame):
    """Moves the frame's numbers in place; the list of what was moved."""
    moves = []
    radius = rng.random() < 0.5  # else no pass is excluded for its sake
    if rng.random() < 0.35:
        moves.append(move_band(rng, frame))
    sheet = frame.given()
    share = rng.choice([0.4, 0.8, 1.0])
    for number in range(len(frame.passes)):
        before = sheet.copy()
        decisions = []
        ref.run_pass(frame, sheet, number, ref.Watch(decisions))
        if rng.random() < share:
            moves.append(move_in_pass(rng, frame, number, decisions, radius))
            if moves[-1] and number + 1 < len(frame.passes):
                sheet = before
                ref.run_pass(frame, sheet, number)
    return [m for m in moves if m]


def frames(seed, count, only=None, share=(0, 1), shaded=generate.SHADED, patched=generate.PATCHED, roled=generate.ROLED):
    """Yields (name, bytes, moves, fits), each frame from its own seed; at least
    one number of each is moved. A move is (parameter, units, kind of pass),
    fits are those that reference.py has worked out. `share`, `shaded`, `patched`
    and `roled` as in generate.py."""
    names = [only] if only else list(FAMILIES)
    weights = [FAMILIES.get(name, 1) for name in names]
    for k in range(share[0], count, share[1]):
        rng = random.Random(f"moved {seed} {k}")
        own = generate.shader(f"moved {seed} {k}", shaded)
        moves = []
        while not moves:
            family = rng.choices(names, weights)[0]
            draft, family = generate.drawn(rng, own, family)
            draft = small(draft)
            if draft is None:
                continue
            frame = ref.read(draft.text())
            moves = move(rng, frame)
        draft.band, draft.passes = frame.band, frame.passes
        draft, family = generate.in_patches(generate.patcher(f"moved {seed} {k}", patched), draft, family)
        draft, family = generate.in_roles(generate.caster(f"moved {seed} {k}", roled), draft, family, True)
        yield f"{seed}-{k}-{family}", draft.text(), moves, frame.fits


def main():
    parser = argparse.ArgumentParser(description=__doc__.splitlines()[0])
    parser.add_argument("--seed", type=int, default=1)
    parser.add_argument("--count", type=int, default=10)
    parser.add_argument("--only", choices=list(FAMILIES) + list(generate.SHADED_FAMILIES))
    parser.add_argument("--shaded", type=float, default=generate.SHADED)
    parser.add_argument("--patched", type=float, default=generate.PATCHED)
    parser.add_argument("--roled", type=float, default=generate.ROLED)
    options = parser.parse_args()
    shares = {"shaded": options.shaded, "patched": options.patched, "roled": options.roled}
    for name, data, moves, _ in frames(options.seed, options.count, options.only, **shares):
        print(f"# {name} {moves}\n{data.decode()}")


if __name__ == "__main__":
    main()
