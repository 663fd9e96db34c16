#!/usr/bin/env python3
"""Frames in 01's format, drawn from a seed: the same seed, the same frames.

    generate.py --seed S --count N --out FOLDER     writes N frames
    generate.py --seed S --count N --only FAMILY    prints them
    --shaded SHARE                                  of the frames have shades
    --patched SHARE                                 of the frames have a patch line
    --roled SHARE                                   of the frames have as lines

Every frame is an accepted one, but some of those with a patch line, whose two
sets are not joined, and some of those with as lines. Families, each a function
below:

    panel       a panel in perspective: noise, missing and spurious corners, a
                crept end row, labels as a block, a ring, patches or scattered
    edge        the same with labels at or near the sheet's edge
    equal       corners at equal distances, doubled corners, factors about 1
    pairs       two or three corners about every cell, so that quotients decide
    knife       two corners on either side of each prediction, so that its last
                bits say which is nearer
    supports    few labels and much local: whole and exact lattices, supports in
                general position
    degenerate  supports three in a line, two equal, all in a line
    horizon     cell (0, 0), or another walked cell, on the horizon
    scale       huge, tiny and vanishing positions and pitches
    wild        everything drawn at random
    bare        no corners, no labels or no passes
    dense       up to 1,024 corners
    deciding    one of the above, one number set to the value that decides, or
                one unit beside it

Some of the frames are given shades (02, 1/14), by a draw of their own, so that
the others are as they would be without: panels of two kinds, with kinds
swapped, corners without a shade, all of one kind, a single shade, corners of
the other kind beside those that are looked for. Their names say "shaded". In
place of a few frames stands one of

    twins       a corner of the other kind beside each one that is looked for,
                nearer or not, so that the kind decides, in cells of both signs
    rounds      local with several rounds: corners that one cell passes over and
                another takes later, and ambiguous cells with such corners in
                reach, visited again

Some of the frames, again by a draw of their own, have their labels in two sets
(02, 3/14): split along a line, at random, one set whole; one corner in both, or
several, or all; the second set with an origin of its own, shifted by nothing, by
little, or up to the rim of the sheet. Joined, they are the labels of the frame
without a patch line. Their names say "patched". Some of these are spoilt: no
corner in both, a label off by one, two exchanged, a corner on a cell that
another holds, a label that the shift takes off the sheet; most of them are
refused then.

Some of the frames, by a draw of their own that comes last, have as lines (02,
6/14): at the first pass, between passes, one or several, of roles that may run
what stands behind them. For the dealer's sake some of their passes are made
bare, or bare ones are put in, or put behind them. Their names say "roled". Some of these are spoilt:
a role that may not run its pass, one that holds on to such a pass, a dealer's
bare pass written out, an as line at the end, two in a row; most of them are
refused then.
"""

import argparse
import copy
import math
import os
import random
import struct

import reference as ref

rnd = ref.rnd


def beside(value, units):
    """The binary32 that many units in the last place away, zero at most."""
    bits = struct.unpack(">i", struct.pack(">f", value))[0] + units
    return struct.unpack(">f", struct.pack(">i", max(bits, 0)))[0]


def clip(value, least, most):
    return min(max(rnd(value), least), most)


def distance(one, other):
    """As the passes take it."""
    dx, dy = rnd(one[0] - other[0]), rnd(one[1] - other[1])
    return ref.root(rnd(rnd(dx * dx) + rnd(dy * dy)))


class Draft:
    """A frame in the making; `text` clips each number into its range."""

    def __init__(self):
        self.cell = 10.0
        self.axes = ((1.0, 0.0), (0.0, 1.0))
        self.band = 0.25
        self.corners = []  # (x, y, pitch)
        self.labels = []  # (corner, cell)
        self.second = None  # the labels behind a patch line, in their own cells
        self.shades = []  # (corner, kind)
        self.passes = []  # (kind, numbers or None)
        self.roles = []  # (number of a pass, role): as lines right before it

    def text(self):
        h = ref.to_hex
        axes = [h(clip(part, -4.0, 4.0)) for axis in self.axes for part in axis]
        lines = [
            "(frame 1)",
            f"(cell {h(clip(self.cell, 2.0**-10, 16384.0))})",
            "(axes ({} {}) ({} {}))".format(*axes),
            f"(band {h(clip(self.band, 0.0, 4.0))})",
        ]
        for x, y, pitch in self.corners:
            x, y = clip(x, -16384.0, 16384.0), clip(y, -16384.0, 16384.0)
            lines.append(f"(corner ({h(x)} {h(y)}) {h(clip(pitch, 0.0, 16384.0))})")
        lines += [f"(label {n} ({i} {j}))" for n, (i, j) in self.labels]
        if self.second is not None:
            lines.append("(patch)")
            lines += [f"(label {n} ({i} {j}))" for n, (i, j) in self.second]
        lines += [f"(shade {n} {kind})" for n, kind in self.shades]
        for k in range(len(self.passes) + 1):  # at the last number, the end
            lines += [f"(as {role})" for before, role in self.roles if before == k]
            lines += [pass_line(*one) for one in self.passes[k : k + 1]]
        return ("\n".join(lines) + "\n").encode()


def pass_line(kind, numbers):
    if numbers is None:
        return f"({kind})"
    words = []
    for k, number in enumerate(numbers):
        if isinstance(number, int):
            words.append(str(number))
        else:
            words.append(ref.to_hex(clip(number, 0.0, 1000.0 if k == 1 else 16.0)))
    return f"({kind} {' '.join(words)})"


# ---- Passes ---------------------------------------------------------------


def a_search(rng):
    usual = [0.0, 0.05, 0.2, 0.35, 0.35, 0.4, 0.5, 0.7, 1.0, 1.5, 16.0]
    return rng.choice(usual + [rng.uniform(0, 1)])


def a_factor(rng):
    return rng.choice(
        [0.0, 1.0, beside(1.0, 1), beside(1.0, -1), 1.5, 1.5, 2.5, 1000.0, rng.uniform(1, 3)]
    )


def a_pass(rng, kind=None):
    kind = kind or rng.choice(["grow", "fill", "local"])
    if rng.random() < 0.4:  # numbers that a fitter would write
        search, factor = rng.choice([0.35, 0.4, 0.5]), rng.choice([1.0, 1.25, 1.5])
        if kind == "grow":
            return kind, (search, factor, rng.choice([1.0, 1.25, 2.0]))
        if kind == "fill":
            return kind, (search, factor, rng.choice([1, 2, 8]))
        return kind, (search, factor, rng.choice([1, 3, 8]), 0.3, rng.choice([1, 2, 3]))
    search, factor = a_search(rng), a_factor(rng)
    if kind == "grow":
        if rng.random() < 0.25:
            return kind, None
        boundary = rng.choice([0.0, 0.5, 1.0, 1.25, 2.0, 2.0, 3.0, 16.0, rng.uniform(0, 3)])
        return kind, (search, factor, boundary)
    if kind == "fill":
        if rng.random() < 0.25:
            return kind, None
        return kind, (search, factor, rng.choice([0, 1, 1, 2, 3, 8, 64]))
    residual = rng.choice([0.0, 1e-6, 1e-4, 0.01, 0.1, 0.3, 0.3, 1.0, 16.0])
    rounds = rng.choice([0, 1, 1, 2, 3, 5, 8, 64])
    return kind, (search, factor, rounds, residual, rng.choice([0, 1, 1, 2, 3, 4]))


def some_passes(rng, most=5):
    count = rng.choice([1, 1, 2, 3, rng.randint(1, most), 16 if rng.random() < 0.05 else 4])
    return [a_pass(rng) for _ in range(count)]


# ---- Panels ---------------------------------------------------------------


def pictured(rng, cells, pitch):
    """Cells seen in perspective: {cell: (x, y)}, with both axes there."""
    turn = rng.choice([0.0, 0.0, rng.uniform(-3.2, 3.2)])
    squeeze = rng.choice([1.0, 1.0, rng.uniform(0.3, 1.2)])
    lean = rng.choice([0.0, 0.0, rng.uniform(-0.4, 0.4)])
    tilt = rng.choice([0.0, 0.01, 0.03])
    g, h = rng.uniform(-tilt, tilt), rng.uniform(-tilt, tilt)
    c, s = math.cos(turn), math.sin(turn)
    ai, aj = (c, s), (-s * squeeze + lean * c, c * squeeze + lean * s)
    ox, oy = rng.uniform(-500, 500), rng.uniform(-500, 500)
    seen = {}
    for i, j in cells:
        w = max(1.0 + g * i + h * j, 0.2)
        x = (pitch * (ai[0] * i + aj[0] * j) + ox) / w
        y = (pitch * (ai[1] * i + aj[1] * j) + oy) / w
        seen[(i, j)] = (x, y)
    return seen, (ai, aj)


def local_pitch(seen, cell, pitch):
    """The mean distance to the cardinal neighbours that are seen."""
    x, y = seen[cell]
    lengths = []
    for di, dj in ref.CARDINAL:
        other = seen.get((cell[0] + di, cell[1] + dj))
        if other:
            lengths.append(math.hypot(other[0] - x, other[1] - y))
    return sum(lengths) / len(lengths) if lengths else pitch


def label_cells(rng, width, height):
    """Which cells of the panel carry given labels."""
    cells = [(i, j) for i in range(width) for j in range(height)]
    shape = rng.choice(
        ["block", "block", "scattered", "holed", "ring", "patches", "row", "all", "two"]
    )
    if shape == "block":
        i0, j0 = rng.randrange(width), rng.randrange(height)
        a, b = rng.randint(1, width), rng.randint(1, height)
        return [c for c in cells if i0 <= c[0] < i0 + a and j0 <= c[1] < j0 + b]
    if shape == "scattered":
        share = rng.choice([0.1, 0.3, 0.5, 0.8])
        return [c for c in cells if rng.random() < share]
    if shape == "holed":
        gone = set(rng.sample(cells, max(1, len(cells) // 5)))
        return [c for c in cells if c not in gone]
    if shape == "ring":
        return [c for c in cells if c[0] in (0, width - 1) or c[1] in (0, height - 1)]
    if shape == "patches":
        return [c for c in cells if c[0] < width // 3 or c[0] > 2 * width // 3]
    if shape == "row":
        return [c for c in cells if c[1] == height // 2]
    if shape == "two":
        return rng.sample(cells, min(2, len(cells)))
    return cells


def shuffled(rng, draft):
    """Corner lines, and label lines, in an order of their own."""
    order = list(range(len(draft.corners)))
    rng.shuffle(order)
    place = {old: new for new, old in enumerate(order)}
    draft.corners = [draft.corners[old] for old in order]
    draft.labels = [(place[n], cell) for n, cell in draft.labels]
    rng.shuffle(draft.labels)
    if draft.shades:
        draft.shades = [(place[n], kind) for n, kind in draft.shades]
        rng.shuffle(draft.shades)
    return draft


def lay(rng, draft, width, height, shift=(0, 0), pitch=None):
    """Puts a panel of width by height cells, cell (0, 0) shifted, on a draft."""
    pitch = pitch or rng.choice([4.0, 10.0, 16.0, 37.5, 100.0])
    margin = rng.choice([0, 1, 1, 2])
    cells = [
        (i, j)
        for i in range(-margin, width + margin)
        for j in range(-margin, height + margin)
    ]
    seen, axes = pictured(rng, cells, pitch)
    if rng.random() < 0.3:  # the end row has crept
        creep = rng.uniform(-0.9, 0.9) * pitch
        end = rng.choice([0, 1])
        last = max(c[end] for c in cells) - rng.choice([0, margin])
        for cell in cells:
            if cell[end] >= last:
                x, y = seen[cell]
                seen[cell] = (x + creep * axes[end][0], y + creep * axes[end][1])
    noise = rng.choice([0.0, 0.0, 0.01, 0.05, 0.15, 0.3]) * pitch
    missing = rng.choice([0.0, 0.0, 0.05, 0.2, 0.5])
    labelled = set(label_cells(rng, width, height))
    flat = rng.choice([None, None, 0.0, 0.001, pitch])
    for cell in cells:
        if rng.random() < missing and cell not in labelled:
            continue
        x, y = seen[cell]
        x, y = x + rng.gauss(0, 1) * noise, y + rng.gauss(0, 1) * noise
        own = flat if flat is not None else local_pitch(seen, cell, pitch)
        if cell in labelled:
            at = (cell[0] + shift[0], cell[1] + shift[1])
            if ref.on_sheet(at):
                draft.labels.append((len(draft.corners), at))
        draft.corners.append((x, y, own * rng.choice([1.0, 1.0, rng.uniform(0.7, 1.4)])))
    for _ in range(rng.choice([0, 0, 1, 3, len(cells) // 2])):  # spurious corners
        x, y = seen[rng.choice(cells)]
        far = rng.choice([0.05, 0.3, 0.6]) * pitch
        x, y = x + rng.gauss(0, 1) * far, y + rng.gauss(0, 1) * far
        draft.corners.append((x, y, rng.choice([0.0, pitch])))
    draft.cell = pitch * rng.choice([1.0, 1.0, rng.uniform(0.6, 1.6)])
    draft.axes = tuple((a + rng.gauss(0, 0.02), b + rng.gauss(0, 0.02)) for a, b in axes)
    if rng.random() < 0.1:
        draft.axes = tuple((rng.uniform(-4, 4), rng.uniform(-4, 4)) for _ in range(2))
    draft.band = rng.choice([0.0, 0.1, 0.25, 0.25, 0.5, 1.0, 4.0])
    return draft


def panel(rng):
    width, height = rng.randint(1, 7), rng.randint(1, 7)
    shift = (rng.randint(-20, 20), rng.randint(-20, 20))
    draft = lay(rng, Draft(), width, height, shift)
    draft.passes = some_passes(rng)
    return shuffled(rng, draft)


def edge(rng):
    width, height = rng.randint(1, 6), rng.randint(1, 6)
    at = []
    for size in (width, height):
        low, high = ref.FIRST - 1 + rng.randint(0, 6), ref.LAST + 2 - size - rng.randint(0, 6)
        at.append(rng.choice([low, high, rng.randint(-20, 20)]))
    draft = lay(rng, Draft(), width, height, tuple(at))
    draft.passes = some_passes(rng)
    return shuffled(rng, draft)


# ---- Special frames -------------------------------------------------------


def equal(rng):
    """An exact lattice; around some cells, corners at one distance from it."""
    draft = Draft()
    pitch = rng.choice([8.0, 16.0, 10.0])
    draft.cell = pitch
    draft.axes = ((1.0, 0.0), (0.0, 1.0))
    width, height = rng.randint(2, 5), rng.randint(2, 5)
    shift = (rng.randint(-3, 3), rng.randint(-3, 3))
    labelled = set(label_cells(rng, width, height))
    for i in range(-1, width + 1):
        for j in range(-1, height + 1):
            x, y = i * pitch, j * pitch
            if (i, j) in labelled:
                draft.labels.append((len(draft.corners), (i + shift[0], j + shift[1])))
                draft.corners.append((x, y, rng.choice([0.0, pitch])))
                continue
            d = rng.choice([0.0, 0.5, 1.0, 2.0, 2.0**-24, 2.0**-23, 2.0**-22])
            around = [(d, 0.0), (-d, 0.0), (0.0, d), (0.0, -d), (d, d), (-d, -d), (0.0, 0.0)]
            for dx, dy in rng.sample(around, rng.choice([0, 1, 2, 2, 3])):
                draft.corners.append((x + dx, y + dy, rng.choice([0.0, pitch])))
    draft.band = rng.choice([0.25, 0.5, 1.0])
    draft.passes = some_passes(rng)
    return shuffled(rng, draft)


def pairs(rng):
    """A noisy panel in perspective, two or three corners about every cell."""
    draft = Draft()
    pitch = rng.choice([10.0, 37.5, 100.0])
    width, height = rng.randint(3, 5), rng.randint(3, 5)
    cells = [(i, j) for i in range(-1, width + 1) for j in range(-1, height + 1)]
    seen, draft.axes = pictured(rng, cells, pitch)
    labelled = set(label_cells(rng, width, height))
    for cell in cells:
        x, y = seen[cell]
        if cell in labelled:
            draft.labels.append((len(draft.corners), cell))
            x, y = x + rng.gauss(0, 0.02) * pitch, y + rng.gauss(0, 0.02) * pitch
            draft.corners.append((x, y, local_pitch(seen, cell, pitch)))
            continue
        for far in rng.sample([0.02, 0.05, 0.1, 0.2, 0.3], rng.choice([1, 2, 2, 3])):
            dx, dy = rng.gauss(0, far) * pitch, rng.gauss(0, far) * pitch
            draft.corners.append((x + dx, y + dy, local_pitch(seen, cell, pitch)))
    draft.cell = pitch
    draft.band = rng.choice([0.25, 0.5, 1.0])
    draft.passes = [
        (kind, (rng.uniform(0.3, 0.8), rng.uniform(1.0, 2.0)) + rest)
        for kind, rest in rng.sample(
            [("grow", (rng.uniform(0.5, 2.0),)), ("fill", (rng.randint(1, 4),)),
             ("local", (rng.randint(1, 2), 0.3, 1))],
            rng.randint(1, 3),
        )
    ]
    return shuffled(rng, draft)


def knife(rng):
    """Given labels only; then the pass is run, and wherever it looks for
    candidates two corners are put on either side of the prediction, equally
    far from it but for rounding."""
    draft = Draft()
    pitch = rng.choice([10.0, 37.5, 100.0])
    width, height = rng.randint(1, 5), rng.randint(1, 5)
    search, factor = rng.uniform(0.2, 0.3), rng.choice([0.0, 1.0, 1.0])
    kind, rest = rng.choice(
        [
            ("grow", (1.0,)),
            ("grow", (1.0,)),
            ("fill", (1,)),
            ("fill", (2,)),
            ("local", (1, 0.3, 1)),
        ]
    )
    draft.passes = [(kind, (search, factor) + rest)]
    given = label_cells(rng, width, height)
    if kind == "local":  # supports in general position
        given = rng.choice([[(0, 0), (1, 0), (0, 1), (1, 1)], [(0, 0), (1, 2), (3, 1), (2, 3)]])
        shift = rng.randint(-20, 20)
        given = [(i + shift, j - shift) for i, j in given]
    seen, draft.axes = pictured(rng, given, pitch)
    noise = rng.choice([0.0, 0.02, 0.1]) * pitch
    for cell in given:
        draft.labels.append((len(draft.corners), cell))
        x, y = seen[cell]
        x, y = x + rng.gauss(0, 1) * noise, y + rng.gauss(0, 1) * noise
        draft.corners.append((x, y, local_pitch(seen, cell, pitch)))
    draft.cell = pitch
    draft.band = rng.choice([0.5, 1.0, 4.0])
    frame = ref.read(draft.text())
    look = ref.candidates
    # What local attaches soon puts three supports in a line: few there.
    share = 0.15 if kind == "local" else 1.0

    def put_two_and_look(frame, sheet, cell, point, radius, watch):
        x, y = point
        if len(frame.x) < 150 and max(abs(x), abs(y)) < 16000 and rng.random() < share:
            turn, far = rng.uniform(0, 6.3), rng.uniform(0.02, 0.15) * pitch
            dx, dy = math.cos(turn) * far, math.sin(turn) * far
            one, other = (rnd(x + dx), rnd(y + dy)), (rnd(x - dx), rnd(y - dy))
            # In fill equal distances exclude the pass: nearly equal ones there.
            while kind == "fill" and distance(one, point) == distance(other, point):
                dx, dy = dx * 1.00001, dy * 1.00001
                other = rnd(x - dx), rnd(y - dy)
            for x, y in (one, other):
                frame.numbered.append((len(frame.x), x, y))
                frame.x.append(x)
                frame.y.append(y)
                frame.pitch.append(rnd(pitch))
        return look(frame, sheet, cell, point, radius, watch)

    ref.candidates = put_two_and_look
    try:
        ref.run_pass(frame, frame.given(), 0)
    finally:
        ref.candidates = look
    draft.corners = list(zip(frame.x, frame.y, frame.pitch))
    draft.passes += some_passes(rng, 2)[:2]
    return shuffled(rng, draft) if rng.random() < 0.3 else draft


def exactly(rng, cells, pitch):
    """Cells on a lattice of whole positions, with both axes there."""
    a, b, c, d = rng.choice([(1, 0, 0, 1), (1, 0, 0.5, 1), (0.75, 0.5, -0.5, 1)])
    seen = {(i, j): ((a * i + c * j) * pitch, (b * i + d * j) * pitch) for i, j in cells}
    return seen, ((a, b), (c, d))


def supports(rng):
    """Few given labels, so that supports are in general position, or exact
    whole positions, so that three in a line have a zero pivot and no fit."""
    draft = Draft()
    exact = rng.random() < 0.5
    pitch = 16.0
    shift = (rng.randint(-9, 9), rng.randint(-9, 9))
    base = rng.choice(
        [
            [(0, 0), (1, 0), (0, 1), (1, 1)],
            [(0, 0), (2, 0), (0, 2), (2, 2)],
            [(1, 0), (0, 1), (2, 1), (1, 2)],
            [(0, 0), (1, 2), (3, 1), (2, 3)],
            [(0, 0), (1, 0), (0, 1), (1, 1), (3, 3)],
            [(i, j) for i in range(5) for j in range(5) if (i + j) % 2 == 0],
            [(i, j) for i in range(4) for j in range(4) if rng.random() < 0.6],
        ]
    )
    around = [(i, j) for i in range(-3, 7) for j in range(-3, 7)]
    seen, draft.axes = exactly(rng, around, pitch) if exact else pictured(rng, around, pitch)
    noise = 0.0 if exact else rng.choice([0.0, 0.01, 0.1])
    missing = rng.choice([0.1, 0.4, 0.7])
    for cell in around:
        x, y = seen[cell]
        if cell in base:
            draft.labels.append((len(draft.corners), (cell[0] + shift[0], cell[1] + shift[1])))
        elif rng.random() < missing:
            continue
        draft.corners.append((x + rng.gauss(0, 1) * noise, y + rng.gauss(0, 1) * noise, 0.0))
        if rng.random() < 0.05:
            draft.corners.append((x + rng.choice([-2, 0, 2]), y + rng.choice([-2, 1, 3]), 0.0))
    draft.cell = pitch
    draft.band = rng.choice([0.25, 0.5, 1.0])
    draft.passes = [a_pass(rng, rng.choice(["local", "local", "local", "grow", "fill"]))
                    for _ in range(rng.randint(1, 4))]
    usual = (rng.choice([0.35, 0.4, 1.0]), rng.choice([1.0, 1.5, 2.5]),
             rng.choice([1, 1, 2, 8]), rng.choice([0.01, 0.3, 16.0]), rng.randint(0, 3))
    draft.passes.insert(0, ("local", usual))
    if rng.random() < 0.4:  # marks first, for local to clear
        mark = rng.choice([(0.0, 1.0, 1.0), (0.01, 1.5, 1.0), (1.0, 1000.0, 2.0)])
        draft.passes.insert(0, ("grow", mark))
    return shuffled(rng, draft)


def degenerate(rng):
    """Few labels, cells or positions in special place, then local."""
    draft = Draft()
    draft.cell = pitch = rng.choice([1.0, 10.0, 64.0])
    cells = rng.choice(
        [
            [(0, 0), (1, 0), (2, 0), (3, 0)],
            [(0, 0), (1, 1), (2, 2), (3, 3)],
            [(0, 0), (1, 0), (2, 0), (0, 1)],
            [(0, 0), (1, 0), (0, 1), (1, 1)],
            [(0, 0), (2, 0), (0, 2), (2, 2), (1, 1)],
            [(rng.randint(-9, 9), rng.randint(-9, 9)) for _ in range(rng.randint(3, 9))],
        ]
    )
    cells = sorted(set(cells))
    kind = rng.choice(["as cells", "line", "equal pair", "all equal", "random", "small"])
    ax, ay = rng.uniform(-1, 1), rng.uniform(-1, 1)
    for n, (i, j) in enumerate(cells):
        x, y = i * pitch, j * pitch
        if kind == "line":
            x, y = (i + 2 * j) * pitch * ax, (i + 2 * j) * pitch * ay
        elif kind == "equal pair" and n == 1:
            x, y = draft.corners[0][0], draft.corners[0][1]
        elif kind == "all equal":
            x, y = ax * pitch, ay * pitch
        elif kind == "random":
            x, y = rng.uniform(-50, 50), rng.uniform(-50, 50)
        elif kind == "small":
            x, y = rng.choice([0, 1, 2]), rng.choice([0, 1, 2])
        draft.labels.append((n, (i, j)))
        draft.corners.append((x, y, 0.0))
    for _ in range(rng.randint(0, 20)):
        x, y = rng.randint(-4, 8) * pitch, rng.randint(-4, 8) * pitch
        draft.corners.append((x + rng.choice([0, 0, rng.gauss(0, 0.1 * pitch)]), y, 0.0))
    draft.band = rng.choice([0.25, 1.0, 4.0])
    draft.passes = [a_pass(rng, rng.choice(["local", "local", "grow", "fill"])) for _ in range(3)]
    draft.passes[rng.randrange(3)] = a_pass(rng, "local")
    return shuffled(rng, draft)


def horizon(rng):
    """x = a / w, y = b * i / w or the like, w = j - far: the horizon runs
    through the row j = far, and with far 0 through cell (0, 0)."""
    draft = Draft()
    a, b = rng.choice([8.0, 64.0, 100.0]), rng.choice([4.0, 10.0, 30.0])
    far = rng.choice([0, 0, 2, 4, -2, 8, rng.randint(-9, 9)])
    slant = rng.choice([0, 0, 1, 2])
    close = rng.choice([0.0, 0.0, 1e-12, 1e-7, 1e-3])
    first = (rng.choice([1, far + 1, far - 4]), rng.choice([1, far + 1, far - 4]))
    cells = [(first[0] + i, first[1] + j) for i in range(4) for j in range(4)]
    if rng.random() < 0.5:
        cells = cells[:2] + cells[4:6]
    given = set(rng.sample(cells, rng.randint(min(4, len(cells)), len(cells))))
    for i in range(-3, 8):
        for j in range(-3, 8):
            w = j + slant * i - far + close
            if abs(w) < 1e-4:
                continue
            x, y = a / w, b * i / w
            if abs(x) > 16384 or abs(y) > 16384:
                continue
            if (i, j) in given:
                draft.labels.append((len(draft.corners), (i, j)))
            elif rng.random() < 0.5:
                continue
            draft.corners.append((x, y, 0.0))
    draft.cell = rng.choice([1.0, b, a])
    draft.band = 4.0
    draft.passes = ([a_pass(rng, "local")] + some_passes(rng, 3))[:16]
    return shuffled(rng, draft)


def scale(rng):
    """A panel made huge, tiny or vanishing, cell size with it or not."""
    draft = lay(rng, Draft(), rng.randint(1, 4), rng.randint(1, 4), pitch=10.0)
    power = rng.choice([11, 10, 9, -9, -13, -20, -30, -45, -60, -75, -110, -126, -140, -149])
    by = 2.0**power
    draft.corners = [(x * by, y * by, p * rng.choice([by, by, 1.0])) for x, y, p in draft.corners]
    draft.cell = max(draft.cell * by, 2.0**-10)
    if power < 0 and rng.random() < 0.5:  # axes small enough to matter
        draft.axes = tuple((u * by * 2.0**13, v * by * 2.0**13) for u, v in draft.axes)
    draft.passes = some_passes(rng)
    if power < -9:  # searches that reach no further than the corners do
        small = []
        for kind, numbers in draft.passes:
            if numbers and rng.random() < 0.7:
                numbers = (rng.choice([by, 4 * by, 100 * by]) * 2.0**10,) + numbers[1:]
            small.append((kind, numbers))
        draft.passes = small
    return shuffled(rng, draft)


def wild(rng):
    draft = Draft()
    side = rng.choice([3.0, 20.0, 300.0, 16384.0])
    count = rng.randint(1, 40)
    whole = rng.random() < 0.5
    for _ in range(count):
        x, y = rng.uniform(-side, side), rng.uniform(-side, side)
        if whole:
            x, y = round(x), round(y)
        pitch = rng.choice([0.0, 0.001, 0.002, 5.0, 10.0, rng.uniform(0, 40)])
        draft.corners.append((x, y, pitch))
    near = rng.choice([2, 4, 64])
    used = set()
    for n in rng.sample(range(count), rng.randint(0, count)):
        cell = (rng.randint(-near, near - 1), rng.randint(-near, near - 1))
        if cell not in used:
            used.add(cell)
            draft.labels.append((n, cell))
    draft.cell = rng.choice([side / 4, 10.0, 2.0**-10, 16384.0, rng.uniform(1, 30)])
    draft.axes = tuple((rng.uniform(-4, 4), rng.uniform(-4, 4)) for _ in range(2))
    draft.band = rng.choice([0.0, 0.25, 1.0, 4.0, rng.uniform(0, 4)])
    draft.passes = some_passes(rng, 3)
    if near == 64:  # a box as wide as the sheet: one local round is enough
        draft.passes = [p if p[0] != "local" else a_pass(rng, "grow") for p in draft.passes]
    return draft


def bare(rng):
    draft = Draft()
    what = rng.choice(["no corners", "no labels", "no passes", "one", "one label"])
    if what != "no corners":
        for _ in range(1 if what == "one" else rng.randint(1, 12)):
            draft.corners.append((rng.randint(-3, 3) * 10.0, rng.randint(-3, 3) * 10.0, 10.0))
    if what in ("no passes", "one", "one label"):
        draft.labels.append((0, (rng.randint(-64, 63), rng.randint(-64, 63))))
    if what != "no passes":
        draft.passes = some_passes(rng)
    return draft


def dense(rng):
    """Up to 1,024 corners, labels few or all, one of each pass at most."""
    draft = Draft()
    lay(rng, draft, rng.choice([16, 24, 30]), rng.choice([16, 24, 30]), (-16, -16), pitch=16.0)
    draft.corners = draft.corners[:1024]
    while len(draft.corners) < 1024 and rng.random() < 0.999:
        draft.corners.append((rng.uniform(-600, 600), rng.uniform(-600, 600), 16.0))
    draft.labels = [(n, c) for n, c in draft.labels if n < 1024]
    draft.passes = [a_pass(rng, kind) for kind in rng.sample(["grow", "fill", "local"], 2)]
    draft.passes = [
        (kind, numbers if kind != "local" else (0.4, 2.5, 2, 0.3, rng.randint(0, 2)))
        for kind, numbers in draft.passes
    ]
    return shuffled(rng, draft)


# ---- Shades ---------------------------------------------------------------

MOST_BYTES = 65536


def likely_cells(draft):
    """For each corner the cell that it is likely to be of: its label's or, for
    the others, from the nearest corner whose cell is known by then, as many
    steps of the axes as lie between. None where there is no label to go by."""
    (a, b), (c, d) = [(u * draft.cell, v * draft.cell) for u, v in draft.axes]
    area = a * d - b * c
    cells = [None] * len(draft.corners)
    nearest = {n: (math.inf, None) for n in range(len(draft.corners))}
    known = []
    for n, cell in draft.labels:
        cells[n] = cell
        known.append(n)
        nearest.pop(n, None)
    if not known or area == 0.0:
        return cells
    while known or nearest:
        if not known:
            n = min(nearest, key=lambda n: nearest[n][0])
            far, other = nearest.pop(n)
            if other is None:
                break
            dx, dy = (draft.corners[n][k] - draft.corners[other][k] for k in (0, 1))
            di, dj = (d * dx - c * dy) / area, (a * dy - b * dx) / area
            if max(abs(di), abs(dj)) > 1000:
                break
            cells[n] = (cells[other][0] + round(di), cells[other][1] + round(dj))
            known.append(n)
        other = known.pop()
        x, y, _ = draft.corners[other]
        for n, (far, _) in nearest.items():
            dx, dy = draft.corners[n][0] - x, draft.corners[n][1] - y
            if dx * dx + dy * dy < far:
                nearest[n] = (dx * dx + dy * dy, other)
    return cells


def parity(cell):
    return (cell[0] + cell[1]) % 2


def strangers(rng, draft, cells):
    """Corners beside some of the others, to be given the other kind."""
    count = min(len(draft.corners), 1024 - len(draft.corners), 60)
    for n in rng.sample(range(len(draft.corners)), count):
        if rng.random() < 0.5:
            x, y, pitch = draft.corners[n]
            far = rng.choice([0.0, 0.02, 0.1, 0.3]) * draft.cell
            x, y = x + rng.gauss(0, 1) * far, y + rng.gauss(0, 1) * far
            draft.corners.append((x, y, pitch))
            i, j = cells[n] or (rng.randint(-9, 9), rng.randint(-9, 9))
            cells.append((i + 1, j) if rng.random() < 0.8 else (i, j))


def shade(rng, draft):
    """Gives corners of a draft shades, in one of several ways."""
    way = rng.choice(
        ["panel"] * 4 + ["strangers"] * 5 + ["swapped"] * 3 + ["some bare"] * 3 + ["mixed"] * 2
        + ["one kind", "exchanged", "one label", "one", "any"]
    )
    cells = likely_cells(draft)
    if way in ("strangers", "mixed"):
        strangers(rng, draft, cells)
    kinds = {n: parity(cell) if cell else rng.randrange(2) for n, cell in enumerate(cells)}
    swapped, bare = rng.choice([0.05, 0.2, 0.5]), rng.choice([0.05, 0.2, 0.5])
    given = {n for n, _ in draft.labels}
    for n in kinds:
        if way == "exchanged" or way in ("swapped", "mixed") and rng.random() < swapped:
            kinds[n] = 1 - kinds[n]
        elif way == "one kind":
            kinds[n] = kinds[0]
        elif way == "any" or n in given and rng.random() < 0.2:  # given labels are not tested
            kinds[n] = rng.randrange(2)
    if way in ("some bare", "mixed", "any"):
        kinds = {n: kind for n, kind in kinds.items() if rng.random() >= bare}
    elif way in ("one label", "one"):
        among = sorted(given if way == "one label" and given else kinds)
        kinds = {n: kinds[n] for n in among and [rng.choice(among)]}
    draft.shades = list(kinds.items())
    if rng.random() < 0.5:
        rng.shuffle(draft.shades)
    while len(draft.text()) > MOST_BYTES:
        del draft.shades[-50:]
    return draft


def twins(rng):
    """A panel of two kinds; beside each corner that is looked for, one of the
    other kind or without a shade, nearer to its place or further."""
    draft = Draft()
    draft.cell = pitch = rng.choice([10.0, 37.5, 100.0])
    width, height = rng.randint(2, 6), rng.randint(2, 6)
    shift = (rng.randint(-6, 2), rng.randint(-6, 2))
    cells = [(i, j) for i in range(-1, width + 1) for j in range(-1, height + 1)]
    seen, draft.axes = pictured(rng, cells, pitch)
    labelled = set(label_cells(rng, width, height))
    noise = rng.choice([0.0, 0.01, 0.05]) * pitch
    share = rng.choice([0.3, 0.7, 1.0])
    for i, j in cells:
        x, y = seen[i, j]
        kind = (i + shift[0] + j + shift[1]) % 2
        x, y = x + rng.gauss(0, 1) * noise, y + rng.gauss(0, 1) * noise
        if (i, j) in labelled:
            draft.labels.append((len(draft.corners), (i + shift[0], j + shift[1])))
        if (i, j) in labelled or rng.random() < 0.9:
            draft.shades.append((len(draft.corners), kind))
            draft.corners.append((x, y, local_pitch(seen, (i, j), pitch)))
        for _ in range(rng.choice([1, 1, 2]) if rng.random() < share else 0):
            far = rng.choice([0.01, 0.05, 0.2]) * pitch
            if rng.random() < 0.8:
                draft.shades.append((len(draft.corners), 1 - kind))
            draft.corners.append((x + rng.gauss(0, 1) * far, y + rng.gauss(0, 1) * far, pitch))
    draft.band = rng.choice([0.25, 0.5, 1.0])
    draft.passes = some_passes(rng)
    return shuffled(rng, draft)


def rounds(rng):
    """Local with several rounds on few labels, and a search wide enough that a
    cell has corners of its neighbours' kind in reach. What one cell passes over
    another takes, in a later round too; some cells have two corners of their
    own kind at about one distance, so that they stay ambiguous and are visited
    again."""
    draft = Draft()
    draft.cell = pitch = 16.0
    shift = (rng.randint(-9, 9), rng.randint(-9, 9))
    base = rng.choice(
        [
            [(0, 0), (1, 0), (0, 1), (1, 1)],
            [(0, 0), (2, 0), (0, 2), (2, 2)],
            [(1, 0), (0, 1), (2, 1), (1, 2)],
            [(0, 0), (1, 2), (3, 1), (2, 3)],
        ]
    )
    low, high = rng.choice([(-3, 7), (-1, 4)])
    around = [(i, j) for i in range(low, high) for j in range(low, high)]
    exact = rng.random() < 0.7
    seen, draft.axes = exactly(rng, around, pitch) if exact else pictured(rng, around, pitch)
    missing = rng.choice([0.1, 0.3, 0.5])
    for cell in around:
        x, y = seen[cell]
        kind = (sum(cell) + sum(shift)) % 2
        if cell in base:
            draft.labels.append((len(draft.corners), (cell[0] + shift[0], cell[1] + shift[1])))
        elif rng.random() < missing:
            continue
        elif rng.random() < 0.3:  # two of its kind
            far = 2.0 if exact else rng.uniform(0.5, 3.0)
            draft.shades.append((len(draft.corners), kind))
            draft.corners.append((x + far, y + (0.0 if exact else rng.gauss(0, 0.2)), 0.0))
            x -= far
        if rng.random() < 0.9:
            draft.shades.append((len(draft.corners), kind))
        draft.corners.append((x, y, 0.0))
        if rng.random() < 0.3:  # on a lattice none that a cell could take
            if rng.random() < 0.7 and not exact:
                draft.shades.append((len(draft.corners), 1 - kind))
            draft.corners.append((x + rng.gauss(0, 3), y + rng.gauss(0, 3), 0.0))
    draft.band = rng.choice([0.5, 1.0, 4.0])
    for _ in range(rng.randint(1, 3)):
        search, factor = rng.choice([0.4, 0.8, 1.1, 1.3]), rng.choice([1.1, 1.2, 1.5, 2.0])
        numbers = (search, factor, rng.choice([2, 3, 3, 5, 64]), rng.choice([0.3, 16.0]), rng.randint(0, 2))
        draft.passes.append(("local", numbers))
    if rng.random() < 0.3:
        draft.passes.insert(rng.randrange(2), a_pass(rng, rng.choice(["grow", "fill"])))
    return shuffled(rng, draft)


SHADED_FAMILIES = {"twins": twins, "rounds": rounds}


# ---- Patches --------------------------------------------------------------


def in_two(rng, labels):
    """Which labels stand in the first set and which in the second, at least one
    of them in both."""
    way = rng.choice(["line"] * 3 + ["random"] * 3 + ["one shared"] * 2 + ["all in both", "all in one"])
    if way == "line":  # as a rope would part them: the cells up to it, and those from it on
        side = rng.randrange(2)
        at = rng.choice(labels)[1][side]
        low, high = at - rng.choice([0, 0, 1]), at + rng.choice([0, 0, 1])
        first = [label for label in labels if label[1][side] <= high]
        second = [label for label in labels if label[1][side] >= low]
    elif way == "random":
        share = rng.choice([0.1, 0.3, 0.7])
        shared = [rng.random() < share for _ in labels]
        ours = [rng.random() < 0.5 for _ in labels]
        first = [label for label, both, own in zip(labels, shared, ours) if both or own]
        second = [label for label, both, own in zip(labels, shared, ours) if both or not own]
        meeting = rng.choice(labels)
        first, second = ([*part, meeting] if meeting not in part else part for part in (first, second))
    elif way == "one shared":
        at = rng.randrange(len(labels))
        first, second = labels[: at + 1], labels[at:]
    else:
        part = rng.sample(labels, rng.randint(1, len(labels)) if way == "all in one" else len(labels))
        first, second = (labels, part) if rng.random() < 0.5 else (part, labels)
    return list(first), list(second)


def a_shift(rng, second):
    """How far the second set is moved in the join: (i, j), so that in its own
    cells it stands on the sheet."""
    shift = []
    for side in (0, 1):
        parts = [cell[side] for _, cell in second]
        least, most = max(parts) - ref.LAST, min(parts) - ref.FIRST
        near = min(max(rng.randint(-9, 9), least), most)
        shift.append(rng.choice([0, near, near, least, most, rng.randint(least, most)]))
    return tuple(shift)


def split(rng, draft):
    """A draft with the same labels in two sets; without labels, or where there
    is no room for a label more, the draft as it is."""
    two = copy.copy(draft)
    if not draft.labels:
        return two
    two.labels, second = in_two(rng, draft.labels)
    shift = a_shift(rng, second)
    two.second = ref.shifted(second, (-shift[0], -shift[1]))
    if rng.random() < 0.5:
        rng.shuffle(two.second)
    while len(two.text()) > MOST_BYTES:  # fewer in both
        shared = {n for n, _ in two.labels} & {n for n, _ in two.second}
        if len(shared) == 1:
            return copy.copy(draft)
        gone = set(sorted(shared)[1:50])
        two.second = [label for label in two.second if label[0] not in gone]
    return two


def spoilt_labels(rng, draft, way):
    """The second set of a draft, spoilt; as it is where the way is not open."""
    first, second = dict(draft.labels), dict(draft.second)
    shared = sorted(set(first) & set(second))
    if way == "apart" or not shared:
        return [label for label in draft.second if label[0] not in first]
    n = rng.choice(shared)
    cell, (i, j) = first[n], second[n]
    shift = (cell[0] - i, cell[1] - j)
    others = [k for k in range(len(draft.corners)) if k not in second]
    if way == "off by one":
        di, dj = rng.choice(ref.CARDINAL)
        new = {n: (i + di, j + dj)}
    elif way == "exchanged":
        other = rng.choice(sorted(second))
        new = {n: second[other], other: second[n]}
    elif way == "held" and others:  # a cell that another corner holds
        to = first[rng.choice(sorted(first))]
        new = {rng.choice(others): (to[0] - shift[0], to[1] - shift[1])}
    elif way == "off the sheet" and others and shift != (0, 0):
        side = rng.choice([side for side in (0, 1) if shift[side]])
        to = [rng.randint(ref.FIRST, ref.LAST), rng.randint(ref.FIRST, ref.LAST)]
        by = rng.choice([1, 1, abs(shift[side])])
        to[side] = ref.LAST - shift[side] + by if shift[side] > 0 else ref.FIRST - shift[side] - by
        new = {rng.choice(others): tuple(to)}
    else:
        return draft.second
    second.update(new)
    cells = list(second.values())
    if len(set(cells)) < len(cells) or not all(ref.on_sheet(to) for to in new.values()):
        return draft.second
    return list(second.items())


def spoil(rng, draft):
    """A draft in two sets, spoilt in one or two ways; one without labels gets a
    patch line."""
    two = copy.copy(draft)
    two.second = two.second or []
    ways = ["apart", "off by one", "exchanged", "held", "held", "off the sheet", "off the sheet"]
    for way in rng.sample(ways, rng.choice([1, 1, 2])):
        two.second = spoilt_labels(rng, two, way)
    return two if len(two.text()) <= MOST_BYTES else draft


PATCHED = 0.25  # the share of frames with a patch line
SPOILT = 0.25  # of those the share that is spoilt


def patcher(seed, patched):
    """The draws for a frame's patch, or None where it is to have none."""
    own = random.Random(f"patch {seed}")
    return own if own.random() < patched else None


def in_patches(own, draft, family):
    """The draft in two sets, by the draws of `own`, if any, and the family's name
    then."""
    if own is None:
        return draft, family
    two = split(own, draft)
    if own.random() < SPOILT:
        two = spoil(own, two)
    return two, family if two.second is None else f"patched_{family}"


# ---- Roles ----------------------------------------------------------------

ROLES = ["dealer", "depot", "plant"]
MOST_PASSES = 16


def runners(kind, numbers):
    """The roles that may run a pass."""
    return [role for role in ROLES if ref.may_run(role, kind, numbers is None)]


def with_bare_passes(rng, draft, behind):
    """Some passes made bare, or bare ones put in; with `behind` no pass is
    changed, and new ones stand behind all others."""
    draft.passes = list(draft.passes)
    way = rng.choice(["as they are"] * 3 + ["made bare"] * 2 + ["put in"] * 3 + ["all bare"])
    if way in ("made bare", "all bare") and not behind:
        share = 1.0 if way == "all bare" else rng.choice([0.3, 0.7])
        for k, (kind, _) in enumerate(draft.passes):
            if kind != "local" and rng.random() < share:
                draft.passes[k] = (kind, None)
    if way == "all bare" and not behind:
        draft.passes = [one for one in draft.passes if one[1] is None] or [("grow", None)]
    elif way == "put in" or behind and way != "as they are":
        for _ in range(rng.choice([1, 1, 2, 4])):
            if len(draft.passes) < MOST_PASSES:
                at = len(draft.passes) if behind else rng.randint(0, len(draft.passes))
                draft.passes.insert(at, (rng.choice(["grow", "fill"]), None))


def some_roles(rng, passes):
    """As lines, at least one, of roles that may run what stands behind them."""
    often = rng.choice([0.1, 0.3, 0.3, 0.6, 1.0])
    first = rng.randrange(len(passes)) if rng.random() < 0.5 else 0
    roles, role = [], "plant"
    for k, one in enumerate(passes):
        may = runners(*one)
        if role not in may or k == first or k > first and rng.random() < often:
            role = rng.choice([*may, may[0]])  # the least of them more often
            roles.append((k, role))
    return roles


def spoil_roles(rng, draft, way):
    """Spoils the as lines of a draft; leaves them where the way is not open."""
    barred = [(k, role) for k, one in enumerate(draft.passes) for role in ROLES if role not in runners(*one)]
    if way == "not its own" and barred:
        k, role = rng.choice(barred)
        draft.roles = sorted([one for one in draft.roles if one[0] != k] + [(k, role)])
    elif way == "holds on" and barred:  # over passes that it may run, to one that it may not
        k, role = rng.choice([one for one in barred if role_before(draft, *one) < one[0]] or barred)
        first = rng.randint(role_before(draft, k, role), k)
        draft.roles = sorted([one for one in draft.roles if not first <= one[0] <= k] + [(first, role)])
    elif way == "written out":  # a dealer's bare pass, its numbers as they are
        named = [(k, role) for k, role in draft.roles if role == "dealer" and k < len(draft.passes) and draft.passes[k][1] is None]
        if named:
            k, _ = rng.choice(named)
            kind, _ = draft.passes[k]
            draft.passes[k] = (kind, ref.BARE[kind])
    elif way == "at the end":
        draft.roles = draft.roles + [(len(draft.passes), rng.choice(ROLES))]
    elif way == "two" and draft.roles:
        at = rng.randrange(len(draft.roles))
        k, role = draft.roles[at]
        draft.roles = draft.roles[:at] + [(k, rng.choice([role, *ROLES]))] + draft.roles[at:]


def role_before(draft, k, role):
    """The first of the passes right before pass k that the role may run, or k."""
    while k > 0 and role in runners(*draft.passes[k - 1]):
        k -= 1
    return k


ROLED = 0.25  # the share of frames with as lines
SPOILT_ROLES = 0.2  # of those the share that is spoilt


def caster(seed, roled):
    """The draws for a frame's as lines, or None where it is to have none."""
    own = random.Random(f"roles {seed}")
    return own if own.random() < roled else None


OWN_NUMBERS = ("knife", "deciding", "horizon", "degenerate")  # families whose passes are made for their corners


def in_roles(own, draft, family, behind=False):
    """The draft with as lines, by the draws of `own`, if any, and the family's
    name then. With `behind`, and in some families, all its passes stay, and the
    first stay first."""
    if own is None:
        return draft, family
    acted = copy.copy(draft)
    with_bare_passes(own, acted, behind or family.endswith(OWN_NUMBERS))
    if acted.passes:
        acted.roles = some_roles(own, acted.passes)
    if own.random() < SPOILT_ROLES:
        ways = ["not its own"] * 3 + ["holds on"] * 3 + ["written out", "at the end", "two", "two"]
        for way in own.sample(ways, own.choice([1, 1, 2])):
            spoil_roles(own, acted, way)
    if not acted.roles or len(acted.text()) > MOST_BYTES:
        return draft, family
    return acted, f"roled_{family}"


# ---- Deciding values ------------------------------------------------------


def deciding(rng, shaded=lambda draft: draft):
    """Sets one number to the value that decides in one place, or one unit
    beside it. For the radius also to where the 65,536th part begins."""
    base = rng.choice(
        [panel] * 2 + [pairs] * 4 + [supports] * 2 + [equal, degenerate, scale, wild, horizon]
    )
    draft = shaded(base(rng))
    frame = ref.read(draft.text())
    sheet = frame.given()
    found = []
    for number in range(len(frame.passes)):
        decisions = []
        ref.run_pass(frame, sheet, number, ref.Watch(decisions))
        found += [(number, decision) for decision in decisions]
    kinds = sorted({decision[0] for _, decision in found})
    if not kinds:
        return draft
    kind = rng.choice(kinds + [k for k in kinds if k == "quotient"] * 2)
    number = rng.choice(sorted({n for n, decision in found if decision[0] == kind}))
    found = [decision for n, decision in found if (n, decision[0]) == (number, kind)]
    # The number that is set may change what the pass decides before: the first
    # decision of its kind still stands then.
    _, value, other = found[0] if rng.random() < 0.6 else rng.choice(found)
    if not math.isfinite(value):
        return draft
    beyond = rng.choice([-1, 0, 0, 1])
    pass_kind, _ = draft.passes[number]
    numbers = list(frame.passes[number][1])
    if kind == "radius":
        share = rng.choice([0.0, 0.5, 0.99, 1.01, 2.0, -0.5, -0.99, -1.01, -2.0])
        radius = math.sqrt(value * (1.0 + share / 65536))
        if pass_kind == "grow" and numbers[2] > 0 and rng.random() < 0.5:
            radius /= numbers[2]
        numbers[0] = beside(rnd(radius / frame.cell), beyond)
    elif kind == "quotient":
        numbers[1] = beside(value, beyond)
    elif kind == "gate":
        numbers[3] = beside(rnd(value / frame.cell), rng.choice([-2, -1, 0, 0, 1, 2]))
    elif kind == "edge":
        draft.band = beside(rnd(abs(1.0 - value)), beyond)
    else:  # the pitch at which the cell size is used
        x, y, _ = draft.corners[other]
        draft.corners[other] = (x, y, beside(ref.LEAST_PITCH, rng.choice([-1, 0, 1])))
        if rng.random() < 0.5:
            pitch = beside(ref.LEAST_PITCH, rng.choice([-1, 0, 1]))
            draft.corners = [(x, y, pitch) for x, y, _ in draft.corners]
    if kind in ("radius", "quotient", "gate"):
        draft.passes[number] = (pass_kind, tuple(numbers))
    return draft


FAMILIES = {
    "panel": (panel, 26),
    "edge": (edge, 9),
    "equal": (equal, 10),
    "pairs": (pairs, 5),
    "knife": (knife, 8),
    "supports": (supports, 14),
    "degenerate": (degenerate, 7),
    "horizon": (horizon, 6),
    "scale": (scale, 9),
    "wild": (wild, 6),
    "bare": (bare, 2),
    "dense": (dense, 0.6),
    "deciding": (deciding, 30),
}


SHADED = 0.45  # the share of frames with shades


def shader(seed, shaded):
    """The draws for a frame's shades, or None where it is to have none."""
    own = random.Random(f"shades {seed}")
    return own if own.random() < shaded else None


def drawn(rng, own, family):
    """A draft of a family, and the family's name. By the draws of `own`, if
    any, it has shades; a third of those are of SHADED_FAMILIES instead."""
    if family in SHADED_FAMILIES:
        return SHADED_FAMILIES[family](rng), family
    make, _ = FAMILIES[family]
    if own is None:
        return make(rng), family
    if own.random() < 0.33:
        family = own.choice(list(SHADED_FAMILIES))
        return SHADED_FAMILIES[family](own), family
    if make is deciding:
        return deciding(rng, lambda draft: shade(own, draft)), f"shaded_{family}"
    return shade(own, make(rng)), f"shaded_{family}"


def frames(seed, count, only=None, share=(0, 1), shaded=SHADED, patched=PATCHED, roled=ROLED):
    """Yields (name, bytes), each frame from its own seed. A share (K, N) is
    every Nth frame from number K on. With `shaded` 0 no frame has a shade, with
    `patched` 0 none a patch line, with `roled` 0 none an as line; the frames
    without one are the same whatever it is."""
    names = [only] if only else list(FAMILIES)
    weights = [FAMILIES[name][1] if name in FAMILIES else 1 for name in names]
    for k in range(share[0], count, share[1]):
        rng = random.Random(f"{seed} {k}")
        family = rng.choices(names, weights)[0]
        draft, family = drawn(rng, shader(f"{seed} {k}", shaded), family)
        draft, family = in_patches(patcher(f"{seed} {k}", patched), draft, family)
        draft, family = in_roles(caster(f"{seed} {k}", roled), draft, family)
        data = draft.text()
        try:
            ref.read(data)
        except (ref.NotJoined, ref.NotRun):
            pass  # a spoilt one
        except ref.Refused as refused:
            raise SystemExit(f"frame {k} ({family}) of seed {seed}: {refused}")
        yield f"{seed}-{k}-{family}", data


def main():
    parser = argparse.ArgumentParser(description=__doc__.splitlines()[0])
    parser.add_argument("--seed", type=int, default=1)
    parser.add_argument("--count", type=int, default=10)
    parser.add_argument("--only", choices=list(FAMILIES) + list(SHADED_FAMILIES))
    parser.add_argument("--shaded", type=float, default=SHADED)
    parser.add_argument("--patched", type=float, default=PATCHED)
    parser.add_argument("--roled", type=float, default=ROLED)
    parser.add_argument("--out")
    options = parser.parse_args()
    if options.out:
        os.makedirs(options.out, exist_ok=True)
    for name, data in frames(options.seed, options.count, options.only, shaded=options.shaded, patched=options.patched, roled=options.roled):
        if options.out:
            with open(os.path.join(options.out, name + ".frame"), "wb") as file:
                file.write(data)
        else:
            print(f"# {name}\n{data.decode()}")


if __name__ == "__main__":
    main()
