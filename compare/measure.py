#!/usr/bin/env python3
"""Compares the four-point fits with each other, and measures them.

    measure.py [frames] [--seed S] [--count N]
    measure.py kinds [--seed S] [--count N]
    measure.py plain [--seed S] [--count N]

Our fit (the one that the Rust's local calls: rust/out/fit says which), its copy
in rust/fit.rs and the fit of reference.py have to agree bit for bit, no fit
included; every command compares them.

frames    on the supports that local meets in N generated frames. The source's
          `homography_from_4pt`, over the stand-in elimination, is measured
          against ours: how often both answer, and how far apart they map the
          supports and the cells beside them, in parts of the corners' mean
          distance from their centre. Sound supports have no three cells in a
          line, and our fit meets each of their corners within a 1,000th of that
          distance; the others are counted apart.
kinds     on N generated quads, the kinds of quads.py in turn, degenerate ones
          and any bits among them.
plain     on N quads of each of four sorts, against a plain solve of the same
          equations in binary64 (plain.py): how far apart, in pixels, the
          supports are mapped and the cell that they were picked for. The plain
          solve is itself held to one in fractions. Of supports with three
          cells in a line only the residuals are looked at.
"""

import argparse
import math
import os
import random
import subprocess
import sys
from collections import Counter

import generate
import plain
import quads
import reference as ref

HERE = os.path.dirname(os.path.abspath(__file__))
OUT = os.path.join(HERE, "rust", "out")
STEPS = [0.0, 1e-7, 1e-6, 1e-5, 1e-4, 1e-3, 1e-2, 0.1, 1.0]
NONE = ["none"]


# ---- The three fits -------------------------------------------------------


def words(h):
    return [ref.to_hex(entry) for row in h for entry in row]


def matrix(digits):
    values = [ref.from_hex(d) for d in digits]
    return [values[0:3], values[3:6], values[6:9]]


def model(cells, corners):
    try:
        return words(ref.fit(cells, corners))
    except ref.NoFit:
        return NONE


def fits(found):
    """For each (cells, corners): our fit and the source's, as nine words or
    `none`; and how often ours, its copy and reference.py's differ."""
    text = "".join(" ".join(quads.words(*quad)) + "\n" for quad in found)
    done = subprocess.run(
        [os.path.join(OUT, "measure")], input=text.encode(), capture_output=True, check=True
    )
    lines = [line.split(" ") for line in done.stdout.decode().splitlines()]
    assert len(lines) == 3 * len(found)
    wrong, answers = 0, []
    for k, (cells, corners) in enumerate(found):
        ours, copy, source = (lines[3 * k + n][1:] for n in range(3))
        if not ours == copy == model(cells, corners):
            wrong += 1
            print("ours, copy and reference.py differ:", " ".join(quads.words(cells, corners)))
        answers.append((ours, source))
    return answers, wrong


def say(number, wrong):
    with open(os.path.join(OUT, "fit")) as file:
        which = file.read().strip()
    print(f"our fit is {which}")
    print(f"{number} quads; ours, copy and reference.py: {wrong} differ")


# ---- On the supports of generated frames ----------------------------------


def frame_supports(seed, count):
    """The distinct supports of every local pass: cells and corners."""
    seen = set()
    for _, data in generate.frames(seed, count, shaded=0, patched=0, roled=0):
        frame = ref.read(data)
        sheet = frame.given()
        for number in range(len(frame.passes)):
            ref.run_pass(frame, sheet, number)
        for supports, numbers in frame.fits:
            cells = [(float(i), float(j)) for i, j in supports]
            corners = [frame.position(n) for n in numbers]
            key = quads.words(cells, corners)
            if key not in seen:
                seen.add(key)
                yield cells, corners


def mean_distance(corners):
    cx = sum(x for x, _ in corners) / 4
    cy = sum(y for _, y in corners) / 4
    return sum(math.hypot(x - cx, y - cy) for x, y in corners) / 4 or 1.0


def sound(h, cells, corners):
    if quads.in_line(cells):
        return False
    mean = mean_distance(corners)
    for (i, j), (px, py) in zip(cells, corners):
        x, y = ref.map_point(h, i, j)
        if not math.hypot(x - px, y - py) <= 1e-3 * mean:
            return False
    return True


def apart(one, other, cells, corners):
    """The largest distance between what both map, at the supports and at the
    cells beside them, relative; None if one of them is not finite."""
    mean = mean_distance(corners)
    far = 0.0
    for i, j in cells:
        for di, dj in [(0, 0)] + ref.CARDINAL:
            a = ref.map_point(one, i + di, j + dj)
            b = ref.map_point(other, i + di, j + dj)
            d = math.hypot(a[0] - b[0], a[1] - b[1])
            if not math.isfinite(d):
                return None
            far = max(far, d / mean)
    return far


def on_frames(seed, count):
    found = list(frame_supports(seed, count))
    answers, wrong = fits(found)
    counts, distances = Counter(), Counter()
    for (cells, corners), (ours, source) in zip(found, answers):
        if NONE in (ours, source):
            which = "both" if ours == source else "ours" if ours == NONE else "source"
            counts[f"{which} none"] += 1
            continue
        counts["both answer"] += 1
        counts["of these bit for bit"] += ours == source
        d = apart(matrix(ours), matrix(source), cells, corners)
        step = "not finite" if d is None else next((s for s in STEPS if d <= s), "more")
        distances[sound(matrix(ours), cells, corners), step] += 1

    say(len(found), wrong)
    for key, number in counts.items():
        print(f"  {key}: {number}")
    print("both answer, apart by at most (sound supports; others):")
    for step in STEPS + ["more", "not finite"]:
        print(f"  {step}: {distances[True, step]}; {distances[False, step]}")
    return wrong


# ---- On quads of every kind -----------------------------------------------


def on_kinds(seed, count):
    kinds, found = [], []
    for kind, cells, corners in quads.quads(seed, count):
        kinds.append(kind)
        found.append((cells, corners))
    answers, wrong = fits(found)
    number, with_fit = Counter(kinds), Counter()
    for kind, (ours, _) in zip(kinds, answers):
        with_fit[kind] += ours != NONE
    say(len(found), wrong)
    print("kind, quads, with a fit, with none:")
    for kind in quads.KINDS:
        print(f"  {kind}: {number[kind]} {with_fit[kind]} {number[kind] - with_fit[kind]}")
    print(f"  all: {len(found)} {sum(with_fit.values())} {len(found) - sum(with_fit.values())}")
    return wrong


# ---- Against a plain solve ------------------------------------------------


def random_sound(rng, noise):
    """A sound quad and the cell nearest to the middle of its cells: no three
    cells in a line, and each triangle of corners has at least a 20th of the
    squared mean distance."""
    while True:
        cells = quads.some_cells(rng)
        corners = quads.pictured(rng, cells, noise)
        cells, corners = quads.quad(cells, corners)
        if least_triangle(corners) >= 0.1 * mean_distance(corners) ** 2:
            middle = tuple(round(sum(c[k] for c in cells) / 4) for k in (0, 1))
            return middle, cells, corners


def least_triangle(points):
    """Twice the smallest triangle's area."""
    return min(
        abs((b[0] - a[0]) * (c[1] - a[1]) - (c[0] - a[0]) * (b[1] - a[1]))
        for k in range(4)
        for a, b, c in [[p for n, p in enumerate(points) if n != k]]
    )


def panels(rng, noise, wanted):
    """Supports of panels, those with three cells in a line or the others."""
    while True:
        for cell, cells, corners in quads.panel_supports(rng, noise):
            if quads.in_line(cells) == wanted:
                yield cell, cells, corners


def sorts(rng, count):
    """Name, and count of (cell, cells, corners)."""
    for noise in (0.0, 0.3):
        free = panels(rng, noise, False)
        yield f"panel supports, no three in a line, noise {noise}", [next(free) for _ in range(count)]
    yield "random sound quads", [random_sound(rng, rng.choice([0.0, 0.3])) for _ in range(count)]


def distance(a, b):
    """None where one is missing or not finite."""
    if a is None or b is None:
        return None
    d = math.hypot(a[0] - b[0], a[1] - b[1])
    return d if math.isfinite(d) else None


def quantiles(values):
    values = sorted(values)
    at = lambda share: values[min(len(values) - 1, int(share * len(values)))]
    row = [at(0.5), at(0.9), at(0.99), at(0.999), values[-1]]
    return " ".join("%.2g" % v for v in row)


def on_plain(seed, count):
    rng = random.Random(f"plain {seed}")
    wrong = 0
    print("pixels apart: half, 90, 99 and 99.9 in a hundred are below, and the largest")
    for name, found in sorts(rng, count):
        answers, differ = fits([(cells, corners) for _, cells, corners in found])
        wrong += differ
        print(f"{name}: {len(found)} quads")
        measured(found, answers)
    line = panels(rng, 0.3, True)
    found = [next(line) for _ in range(count)]
    answers, differ = fits([(cells, corners) for _, cells, corners in found])
    wrong += differ
    print(f"panel supports, three in a line, noise 0.3: {count} quads, largest residual")
    three_in_a_line(found, answers)
    say(4 * count, wrong)
    return wrong


def measured(found, answers):
    """How far from the plain solution ours maps, and the source's, and one in
    fractions."""
    lists = {"ours": ([], []), "the source's": ([], []), "in fractions": ([], [])}
    counts = Counter()
    for (cell, cells, corners), (ours, source) in zip(found, answers):
        there = plain.solved(cells, corners)
        exact = plain.solved_exactly(cells, corners)
        if None in (there, exact) or NONE in (ours, source):
            counts["no fit or no solution"] += 1
            continue
        for other, at in (
            ("ours", lambda x, y: ref.map_point(matrix(ours), x, y)),
            ("the source's", lambda x, y: ref.map_point(matrix(source), x, y)),
            ("in fractions", lambda x, y: plain.mapped(exact, x, y)),
        ):
            apart = [
                distance(at(float(x), float(y)), plain.mapped(there, x, y)) for x, y in cells + [cell]
            ]
            if None in apart:
                counts[f"{other}: not finite"] += 1
                continue
            lists[other][0].append(max(apart[:4]))
            lists[other][1].append(apart[4])
    for key, number in sorted(counts.items()):
        print(f"  {key}: {number}")
    for other, (supports, predictions) in lists.items():
        print(f"  {other}, supports: {quantiles(supports)}")
        print(f"  {other}, cell: {quantiles(predictions)}")


def three_in_a_line(found, answers):
    """A matrix that takes three cells in a line to corners that are not has
    rank 1: it takes the three to 0/0, all other cells to the fourth corner. So
    what rounding leaves is looked at, and not how far apart it is."""
    counts = Counter()
    for (_, cells, corners), (ours, _) in zip(found, answers):
        there = plain.solved(cells, corners)
        for who, at in (
            ("ours", ours != NONE and (lambda x, y: ref.map_point(matrix(ours), x, y))),
            ("plain", there and (lambda x, y: plain.mapped(there, x, y))),
        ):
            if not at:
                counts[who, "no fit"] += 1
                continue
            residuals = [distance(at(x, y), corner) for (x, y), corner in zip(cells, corners)]
            if None in residuals:
                counts[who, "not finite"] += 1
            else:
                most = max(residuals)
                counts[who, next((f"at most {m} pixel" for m in (0.01, 1, 10) if most <= m), "more")] += 1
    for (who, what), number in sorted(counts.items()):
        print(f"  {who}, {what}: {number}")


def main():
    parser = argparse.ArgumentParser(
        description=__doc__, formatter_class=argparse.RawDescriptionHelpFormatter
    )
    parser.add_argument("on", nargs="?", choices=["frames", "kinds", "plain"], default="frames")
    parser.add_argument("--seed", type=int, default=1)
    parser.add_argument("--count", type=int)
    options = parser.parse_args()
    if not os.path.exists(os.path.join(OUT, "fit")):
        sys.exit("measure.py: compare/rust/out/measure is missing: compare/rust/build builds it")
    run, usual = {
        "frames": (on_frames, 300), "kinds": (on_kinds, 100000), "plain": (on_plain, 5000)
    }[options.on]
    wrong = run(options.seed, options.count if options.count is not None else usual)
    return 1 if wrong else 0


if __name__ == "__main__":
    sys.exit(main())
