#!/usr/bin/env python3
"""Quads for the four-point fit, drawn from a seed: the same seed, the same
quads. A quad is four cells and four pictured corners, as points of binary32.

    quads.py --seed S --count N [--only KIND]     prints them, sixteen floats a
                                                  line, as rust/measure.rs reads

Kinds, each a function below:

    sound       no three cells in a line, pictured in perspective, some noise
    supports    as local picks them for a cell of a panel with holes
    three       three in a line: cells, corners or both
    two         two equal: cells, corners or both
    line        all four in a line: cells, corners or both
    same        all four equal: cells, corners or both
    horizon     cell (0, 0) on the horizon, or one unit beside it
    lattice     small whole numbers, many of them equal
    zeros       zeros of both signs, ones, little else
    huge        scaled up to the largest float and past it
    tiny        scaled down to nothing
    subnormal   below the least normal number
    far         small about a far centre
    bits        any bits, infinities and not-a-numbers with them
"""

import argparse
import math
import random
from itertools import combinations

import reference as ref

rnd = ref.rnd


def in_line(points):
    """Whether some three of the points lie in a line."""
    return any(
        (bx - ax) * (cy - ay) == (cx - ax) * (by - ay)
        for (ax, ay), (bx, by), (cx, cy) in combinations(points, 3)
    )


def quad(cells, corners):
    return [(rnd(x), rnd(y)) for x, y in cells], [(rnd(x), rnd(y)) for x, y in corners]


# ---- Cells and their pictures ---------------------------------------------


def some_cells(rng, near=4):
    """Four cells of the sheet close together, no three in a line."""
    i, j = rng.randint(-60, 60), rng.randint(-60, 60)
    while True:
        cells = [(i + rng.randint(-near, near), j + rng.randint(-near, near)) for _ in range(4)]
        if not in_line(cells) and all(ref.on_sheet(cell) for cell in cells):
            return cells


class Picture:
    """A perspective view of the cells about a centre: a cell's pitch there is
    `pitch` pixels, and the horizon lies at least three times `near` cells off."""

    def __init__(self, rng, centre, near=8, pitch=None, side=2048.0):
        self.centre = centre
        self.pitch = pitch or rng.uniform(8.0, 80.0)
        turn, squeeze = rng.uniform(-math.pi, math.pi), rng.uniform(0.4, 1.2)
        lean = rng.uniform(-0.4, 0.4)
        c, s = math.cos(turn), math.sin(turn)
        self.along_i = (c, s)
        self.along_j = (-s * squeeze + lean * c, c * squeeze + lean * s)
        tilt, way = rng.uniform(0.0, 1.0 / (3.0 * near)), rng.uniform(-math.pi, math.pi)
        self.g, self.h = tilt * math.cos(way), tilt * math.sin(way)
        self.at = (rng.uniform(-side, side), rng.uniform(-side, side))

    def of(self, cell):
        i, j = cell[0] - self.centre[0], cell[1] - self.centre[1]
        w = 1.0 + self.g * i + self.h * j
        x = self.pitch * (self.along_i[0] * i + self.along_j[0] * j) / w
        y = self.pitch * (self.along_i[1] * i + self.along_j[1] * j) / w
        return x + self.at[0], y + self.at[1]


def noisy(rng, points, noise):
    return [(x + rng.gauss(0, noise), y + rng.gauss(0, noise)) for x, y in points]


def pictured(rng, cells, noise=None):
    picture = Picture(rng, cells[0])
    noise = rng.choice([0.0, 0.0, 0.1, 0.3]) if noise is None else noise
    return noisy(rng, [picture.of(cell) for cell in cells], noise)


# ---- Panels ---------------------------------------------------------------


def panel(rng, noise):
    """A panel with holes: a sheet that says which corner each labelled cell
    has, and where the corners are."""
    width, height = rng.randint(5, 16), rng.randint(5, 12)
    i0, j0 = rng.randint(-60, 60 - width), rng.randint(-60, 60 - height)
    picture = Picture(rng, (i0 + width // 2, j0 + height // 2), max(width, height) // 2 + 1)
    missing = rng.choice([0.05, 0.2, 0.4])
    sheet, at = ref.Sheet(), []
    for i in range(i0, i0 + width):
        for j in range(j0, j0 + height):
            if rng.random() >= missing:
                sheet.label((i, j), len(at))
                (point,) = noisy(rng, [picture.of((i, j))], noise)
                at.append((rnd(point[0]), rnd(point[1])))
    return sheet, at


def panel_supports(rng, noise, most=24):
    """Cells that local with depth 1 walks on a panel, each with its supports:
    (cell, cells, corners). At most so many of one panel."""
    sheet, at = panel(rng, noise)
    walked = ref.local_cells(sheet, 1)
    for cell in rng.sample(walked, min(most, len(walked))):
        near = ref.nearest_supports(sheet, cell)
        cells = [(float(i), float(j)) for i, j in near]
        yield cell, cells, [at[sheet.corner[support]] for support in near]


# ---- Kinds ----------------------------------------------------------------


def sound(rng):
    cells = some_cells(rng)
    return quad(cells, pictured(rng, cells))


def supports(rng):
    noise = rng.choice([0.0, 0.1, 0.3])
    (_, cells, corners), *_ = panel_supports(rng, noise, 1)
    return quad(cells, corners)


def shaped(rng, shape):
    """Cells, corners or both brought into a shape; a shape changes four points."""
    cells = [(float(i), float(j)) for i, j in some_cells(rng)]
    corners = pictured(rng, cells)
    which = rng.choice(["cells", "corners", "both", "pictured"])
    if which in ("cells", "both", "pictured"):
        cells = shape(cells)
    if which in ("corners", "both"):
        corners = shape(corners)
    if which == "pictured":
        corners = pictured(rng, cells)
    return quad(cells, corners)


def three(rng):
    a, b, c = rng.sample(range(4), 3)

    def shape(p):
        p = list(p)
        p[c] = (2 * p[b][0] - p[a][0], 2 * p[b][1] - p[a][1])
        return p

    return shaped(rng, shape)


def two(rng):
    a, b = rng.sample(range(4), 2)

    def shape(p):
        p = list(p)
        p[b] = p[a]
        return p

    return shaped(rng, shape)


def line(rng):
    k = [0, 1, 2, rng.choice([3, 4, -1])]
    rng.shuffle(k)

    def shape(p):
        (x, y), (u, v) = p[0], p[1]
        return [(x + n * (u - x), y + n * (v - y)) for n in k]

    return shaped(rng, shape)


def same(rng):
    return shaped(rng, lambda p: [p[0]] * 4)


def horizon(rng):
    """x = a / w and y = b i / w, or turned, with w = g i + h j: exact where w
    and the numbers are powers of two."""
    a, b = rng.choice([1.0, 8.0, 100.0]), rng.choice([1.0, 4.0, 30.0])
    g, h = rng.choice([(0, 1), (1, 0), (1, 1), (1, -1), (2, 1), (0.5, 1)])
    cells = []
    while len(cells) < 4 or in_line(cells):
        cell = (rng.randint(-8, 8), rng.randint(-8, 8))
        if g * cell[0] + h * cell[1] != 0:
            cells = [c for c in cells[-3:] if c != cell] + [cell]
    corners = []
    for i, j in cells:
        w = g * i + h * j
        corners.append((a / w, b * (j if h == 0 else i) / w))
    cells, corners = quad(cells, corners)
    if rng.random() < 0.5:
        n = rng.randrange(4)
        bits = int(ref.to_hex(corners[n][0]), 16) + rng.choice([-1, 1])
        corners[n] = (ref.from_hex("%08x" % max(bits, 0)), corners[n][1])
    return cells, corners


def lattice(rng):
    most = rng.choice([1, 2, 3, 8])
    points = lambda: [(rng.randint(-most, most), rng.randint(-most, most)) for _ in range(4)]
    return quad(points(), points())


def zeros(rng):
    number = lambda: rng.choice([0.0, -0.0, 0.0, -0.0, 1.0, -1.0, 0.5, 2.0**-149])
    points = lambda: [(number(), number()) for _ in range(4)]
    return quad(points(), points())


def scaled(rng, powers):
    cells, corners = rng.choice([sound, sound, lattice, three])(rng)
    by = lambda: 2.0 ** rng.choice(powers)
    one, other = rng.choice([(1.0, by()), (by(), 1.0), (by(), by())])
    return quad(
        [(x * one, y * one) for x, y in cells], [(x * other, y * other) for x, y in corners]
    )


def huge(rng):
    return scaled(rng, [20, 40, 50, 58, 60, 61, 62, 63, 64, 70, 90, 110, 115, 118, 120, 124, 127])


def tiny(rng):
    return scaled(rng, [-20, -40, -50, -60, -63, -70, -75, -80, -100, -120, -130, -140, -150, -155])


def subnormal(rng):
    most = rng.choice([3, 100, 0x7FFFFF])
    number = lambda: ref.from_hex("%08x" % (rng.randint(0, most) + rng.choice([0, 0x80000000])))
    points = lambda: [(number(), number()) for _ in range(4)]
    plain = lambda: sound(rng)[0]
    cells, corners = rng.choice([(points(), points()), (plain(), points()), (points(), plain())])
    return quad(cells, corners)


def far(rng):
    cells, corners = sound(rng)
    off = rng.choice([16384.0, 1e6, 1e8])
    by = rng.choice([1.0, 1e-2, 1e-4])
    x0, y0 = corners[0]
    corners = [(off + (x - x0) * by, -off + (y - y0) * by) for x, y in corners]
    return quad(cells, corners)


def bits(rng):
    some = lambda: rng.choice([0x7F800000, 0xFF800000, 0x7FC00000, 0x7F7FFFFF, 1, 0, 0x80000000])
    often = rng.random() < 0.3
    word = lambda: some() if often and rng.random() < 0.2 else rng.getrandbits(32)
    if rng.random() < 0.5:  # an exponent near that of 1
        word = lambda: rng.getrandbits(24) | rng.choice([0x3F000000, 0xBF000000, 0x40000000])
    points = lambda: [(ref.from_hex("%08x" % word()), ref.from_hex("%08x" % word())) for _ in range(4)]
    return points(), points()


KINDS = {
    "sound": sound,
    "supports": supports,
    "three": three,
    "two": two,
    "line": line,
    "same": same,
    "horizon": horizon,
    "lattice": lattice,
    "zeros": zeros,
    "huge": huge,
    "tiny": tiny,
    "subnormal": subnormal,
    "far": far,
    "bits": bits,
}


def words(cells, corners):
    """Sixteen floats: the cells' x, their y, the corners' x, their y."""
    return tuple(ref.to_hex(p[k]) for points in (cells, corners) for k in (0, 1) for p in points)


def quads(seed, count, only=None):
    """Yields (kind, cells, corners), each quad from its own seed, the kinds in
    turn."""
    names = [only] if only else list(KINDS)
    for k in range(count):
        rng = random.Random(f"quad {seed} {k}")
        kind = names[k % len(names)]
        cells, corners = KINDS[kind](rng)
        yield kind, cells, corners


def main():
    parser = argparse.ArgumentParser(description=__doc__.splitlines()[0])
    parser.add_argument("--seed", type=int, default=1)
    parser.add_argument("--count", type=int, default=10)
    parser.add_argument("--only", choices=list(KINDS))
    options = parser.parse_args()
    for _, cells, corners in quads(options.seed, options.count, options.only):
        print(" ".join(words(cells, corners)))


if __name__ == "__main__":
    main()
