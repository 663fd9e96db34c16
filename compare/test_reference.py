#!/usr/bin/env python3
"""Checks of reference.py against what 01 says in so many words: its example,
M1 to M9, and each refusal with its line; of shades against 02, 1/14, of bare
grow against 02, 2/14, of two patches against 02, 3/14, of the label box against
02, 5/14, of roles against 02, 6/14, and of their counts against 02, 7/14. Ends
with 'N passed, 0 failed'."""

import random
import sys

import cases
import generate
import permute
import reference as ref
import refusals as calls
import writers

EXAMPLE = b"""(frame 1)
(cell 41200000)
(axes (3f800000 00000000) (00000000 3f800000))
(band 3e800000)
(corner (41200000 41200000) 00000000)
(corner (41a00000 41200000) 00000000)
(corner (41f00000 41200000) 00000000)
(label 0 (0 0))
(label 1 (1 0))
(grow)
"""
RESULT = """(result 1)
(grow 1 8 0 0 no)
(role plant 1 8 0 0)
(role depot 0 0 0 0)
(role dealer 0 0 0 0)
(cell (0 0) 0)
(cell (1 0) 1)
(cell (2 0) 2)
(hole (-1 0))
(hole (0 -1))
(hole (0 1))
(hole (1 -1))
(hole (1 1))
(hole (2 -1))
(hole (2 1))
(hole (3 0))
"""
LINES = EXAMPLE.splitlines(keepends=True)
HEAD = b"".join(LINES[:4])
CORNER = LINES[4]


def with_line(number, text):
    """The example with line `number` (from 1) put in place of its own."""
    lines = list(LINES)
    lines[number - 1] = text
    return b"".join(lines)


def worked_examples():
    for argument, answer in [
        ("40800000", "40000000"),
        ("40000000", "3fb504f3"),
        ("00000001", "1a3504f3"),
    ]:
        yield "M1", ref.to_hex(ref.root(ref.from_hex(argument))), answer
    watch = ref.Watch()
    for raised in (False, True):
        yield "M2", ref.choose([(2.0, 7), (3.0, 8)], 1.5, raised, watch), 7
        yield "M3", ref.choose([(2.0, 7), (2.75, 8)], 1.5, raised, watch), ref.AMBIGUOUS
    yield "M4 grow", ref.choose([(0.0, 7), (5.0, 8)], 1.5, False, watch), ref.AMBIGUOUS
    yield "M4 fill", ref.choose([(0.0, 7), (5.0, 8)], 1.5, True, watch), 7
    for name, length, passes in [
        ("M5", 7.5, True),
        ("M5", 12.5, True),
        ("M6", 7.0, False),
    ]:
        f = ref.Frame()
        f.cell, f.band = 10.0, 0.25
        f.x, f.y, f.pitch = [0.0, length], [0.0, 0.0], [10.0, 10.0]
        yield name, ref.edge_accepted(f, 0, 1, watch), passes
        f.pitch = [ref.LEAST_PITCH, ref.LEAST_PITCH]
        yield "M7", ref.edge_accepted(f, 0, 1, watch), passes
    sheet = ref.Sheet()
    sheet.label((0, 0), 0)
    sheet.label((2, 0), 1)
    yield "M8", len(ref.fill_cells(sheet)), 9
    yield "M9", len(ref.local_cells(sheet, 1)), 11
    yield "example", ref.result(EXAMPLE), RESULT


def shaded(shades, passes=b"(grow)\n", corners=b"", labels=b""):
    """The example with more corners and labels, with shades, and with these
    passes. Corner 2 stands where cell (2, 0) is expected, which is even."""
    lines = b"".join(b"(shade %d %d)\n" % shade for shade in shades)
    return b"".join(LINES[:7]) + corners + b"".join(LINES[7:9]) + labels + lines + passes


# Corners 3, 4 and 5 at (10, 20), (20, 20) and (30, 20); then corner 2 and 5 are
# those of cells (2, 0) and (2, 1) beside the labelled square.
SQUARE = b"".join(b"(corner (%s 41a00000) 00000000)\n" % x for x in (b"41200000", b"41a00000", b"41f00000"))
SQUARE_LABELS = b"(label 3 (0 1))\n(label 4 (1 1))\n"


def local(shades, passes=b"(local 3eb33333 3fc00000 1 3e800000 1)\n"):
    return ref.result(shaded(shades, passes, SQUARE, SQUARE_LABELS)).split("\n")[1:3]


def shades():
    """02, 1/14, by hand."""

    def line(*shades):
        return ref.result(shaded(shades)).split("\n")[1]

    # Cell (2, 0) takes kind 0; the labels' own kinds are not tested.
    yield "its kind", line((2, 0)), "(grow 1 8 0 0 no)"
    yield "its kind, labels of the other", line((2, 0), (0, 1), (1, 0)), "(grow 1 8 0 0 no)"
    yield "the other kind", line((2, 1)), "(grow 0 6 0 0 no)"
    yield "without a shade", line((0, 0)), "(grow 0 6 0 0 no)"
    # A nearer corner of the other kind, or without a shade, is no candidate.
    near = b"(corner (41f00001 41200000) 00000000)\n"
    for more, expected in [([], "(grow 0 5 1 0 no)"), ([(2, 0)], "(grow 1 8 0 0 no)"), ([(3, 0)], "(grow 1 8 0 0 no)"),
                           ([(2, 0), (3, 1)], "(grow 1 8 0 0 no)"), ([(2, 0), (3, 0)], "(grow 0 5 1 0 no)")]:
        yield "two at one place", ref.result(shaded(more, corners=near)).split("\n")[1], expected
    # The parity of a whole number: -1 is odd.
    for cell, kind in [((0, 0), 0), ((-1, 0), 1), ((0, -1), 1), ((-1, -1), 0), ((-64, 63), 1), ((2, -1), 1)]:
        frame = ref.Frame()
        frame.shades = {0: kind, 1: 1 - kind}
        yield f"cell {cell}", [ref.takes(frame, cell, n) for n in (0, 1, 2)], [True, False, False]
    yield "no shade", [ref.takes(ref.Frame(), cell, 0) for cell in ((0, 0), (0, 1))], [True, True]
    yield from unmatched()


def unmatched():
    """Local's count, and its line. Of the twelve cells about the labelled
    square (2, 0) and (2, 1) have a corner at their place and the others none.
    Where (2, 1) is attached, three of the four supports of (2, 2) are in a line:
    it has no fit. Each other cell has one, with a residual of 0."""
    yield "no shade", local([]), ["(local 2 9 0 0 1 00000000 no)", "(role plant 2 9 0 0)"]
    yield "its kinds", local([(2, 0), (5, 1)]), ["(local 2 9 0 0 1 00000000 no)", "(unmatched 0)"]
    yield "the other kind", local([(2, 1), (5, 1)]), ["(local 1 10 0 0 1 00000000 no)", "(unmatched 1)"]
    yield "without a shade", local([(0, 0)]), ["(local 0 12 0 0 1 00000000 no)", "(unmatched 2)"]
    # A round that attaches nothing is the last.
    again = b"(local 3eb33333 3fc00000 3 3e800000 1)\n"
    yield "the last round", local([(0, 0)], again), ["(local 0 12 0 0 1 00000000 no)", "(unmatched 2)"]
    # Corner 5 is passed over at (2, 1) in both rounds.
    yield "at every visit", local([(2, 0)], again)[1], "(unmatched 2)"
    # Radius 12.5: corner 2 is passed over at (2, -1) and corner 5 at (2, 0); by (2, 1) corner 2 is labelled.
    wide = b"(local 3fa00000 3fc00000 1 3e800000 1)\n"
    yield "until it is labelled", local([(2, 0), (5, 1)], wide), ["(local 2 9 0 0 1 00000000 no)", "(unmatched 2)"]
    yield "0 rounds", local([(0, 0)], b"(local 3eb33333 3fc00000 0 3e800000 1)\n"), ["(local 0 0 0 0 0 none no)", "(unmatched 0)"]
    yield "under 4 labels", ref.result(shaded([(0, 0)], again)).split("\n")[1:3], ["(local 0 0 0 0 0 none no)", "(unmatched 0)"]
    # Nothing of it for grow and fill, and a line for each local.
    several = b"(grow)\n(local 3eb33333 3fc00000 0 3e800000 1)\n(fill)\n(local 3eb33333 3fc00000 0 3e800000 1)\n"
    lines = [line.split(" ")[0] for line in ref.result(shaded([(0, 0)], several)).split("\n")[1:7]]
    yield "where it stands", lines, ["(grow", "(local", "(unmatched", "(fill", "(local", "(unmatched"]


def lent():
    """02, 1/14: what is lent to a call; 01: a short buffer is 7."""
    for bytes_lent, n, expected in [
        ([], 0, {}),
        ([0, 0], 2, {}),
        ([1, 0, 2], 3, {0: 0, 2: 1}),
        ([1, 0, 2, 3], 3, {0: 0, 2: 1}),
        ([1, 0], 3, 7),
        ([3, 0], 3, 7),
        ([1, 0, 3], 3, 3),
        ([255, 0, 0], 3, 3),
    ]:
        yield f"{bytes_lent} for {n}", ref.lent_shades(bytes_lent, n), expected


def patched(first, second, rest=b"(grow)\n", corners=3):
    """The example's heading and corners, two sets of labels (corner, i, j), and
    what follows. With three corners and k labels in the first set the patch line
    is line 8 + k."""
    sets = [b"".join(b"(label %d (%d %d))\n" % label for label in labels) for labels in (first, second)]
    return HEAD + b"".join(LINES[4:7]) + CORNER * (corners - 3) + sets[0] + b"(patch)\n" + sets[1] + rest


def said(cells):
    """The result of a frame without a pass."""
    return f"(result 1)\n{cases.NO_COUNTS}" + "".join(f"(cell ({i} {j}) {corner})\n" for i, j, corner in cells)


def patches():
    """02, 3/14, by hand: what is joined, and to what."""
    for name, first, second, expected in [
        ("shift 0", [(0, 0, 0), (1, 1, 0)], [(1, 1, 0), (2, 2, 0)], [(0, 0, 0), (1, 0, 1), (2, 0, 2)]),
        ("its own origin", [(0, 0, 0), (1, 1, 0)], [(1, 0, 0), (2, 1, 0)], [(0, 0, 0), (1, 0, 1), (2, 0, 2)]),
        ("shifted by (-3 7)", [(0, 2, 7)], [(1, 6, 0), (0, 5, 0)], [(2, 7, 0), (3, 7, 1)]),
        ("the same set twice", [(0, 0, 0), (1, 1, 0)], [(1, 1, 0), (0, 0, 0)], [(0, 0, 0), (1, 0, 1)]),
        ("the same set, shifted", [(0, 0, 0), (1, 1, 0)], [(1, -4, 9), (0, -5, 9)], [(0, 0, 0), (1, 0, 1)]),
        ("the second inside the first", [(0, 0, 0), (1, 1, 0), (2, 2, 0)], [(1, 0, 0)], [(0, 0, 0), (1, 0, 1), (2, 0, 2)]),
        ("the first inside the second", [(1, 5, 5)], [(0, 0, 0), (1, 1, 0), (2, 2, 0)], [(4, 5, 0), (5, 5, 1), (6, 5, 2)]),
        ("a cell in both, not the same one", [(0, 0, 0)], [(0, 5, 5), (1, 0, 0)], [(-5, -5, 1), (0, 0, 0)]),
        ("as far as there is", [(0, -64, -64)], [(0, 63, 63)], [(-64, -64, 0)]),
        ("up to the sheet's last cell", [(0, 62, 0)], [(0, 0, 0), (1, 1, 63)], [(62, 0, 0), (63, 63, 1)]),
        ("up to the sheet's first cell", [(0, -63, 0)], [(0, 0, 0), (1, -1, -64)], [(-64, -64, 1), (-63, 0, 0)]),
    ]:
        yield name, ref.result(patched(first, second, b"")), said(expected)
    # Passes run on the union: the example's own result, its labels in two sets.
    yield "grow", ref.result(patched([(0, 0, 0)], [(0, 7, -7), (1, 8, -7)])), RESULT
    # What a shade line and more passes say comes after.
    yield "a shade", ref.result(patched([(0, 0, 0)], [(0, 7, -7), (1, 8, -7)], b"(shade 2 0)\n(grow)\n")), RESULT


def patch_refusals():
    """02, 3/14, by hand: 8, 9 and 4 at the patch line, after all else."""
    one, two = [(0, 0, 0)], [(0, 0, 0), (1, 1, 0)]
    for name, text, number, line in [
        ("both empty", patched([], []), 8, 8),
        ("the first empty", patched([], two), 8, 8),
        ("the second empty", patched(two, []), 8, 10),
        ("no corner in both", patched(one, [(1, 1, 0)]), 8, 9),
        ("no corner in both, cells in both", patched(one, [(1, 0, 0)]), 8, 9),
        ("no corner at all", HEAD + b"(patch)\n", 8, 5),
        ("no corner in both, one off the sheet if shifted", patched([(0, 63, 0)], [(1, 0, 0), (2, 1, 0)]), 8, 9),
        ("two shifts asked for", patched(two, [(0, 0, 0), (1, 2, 0)]), 9, 10),
        ("two shifts asked for, exchanged", patched(two, [(0, 1, 0), (1, 0, 0)]), 9, 10),
        ("a cell of another corner", patched(two, [(0, 5, 5), (2, 6, 5)]), 9, 10),
        ("a cell of another corner, shift 0", patched(two, [(0, 0, 0), (2, 1, 0)]), 9, 10),
        ("9 and 4: a cell of another corner", patched([(0, 63, 0), (1, 62, 0)], [(0, 0, 0), (2, -1, 0), (3, 1, 0)], b"", 4), 9, 11),
        ("9 and 4: two shifts asked for", patched([(0, 63, 0), (1, 60, 0)], [(0, 0, 0), (1, 1, 0), (2, 9, 0)]), 9, 10),
        ("one past the last i", patched([(0, 63, 0)], [(0, 0, 0), (1, 1, 0)]), 4, 9),
        ("one past the last j", patched([(0, 0, 63)], [(0, 0, 0), (1, 0, 1)]), 4, 9),
        ("one past the first i", patched([(0, -64, 0)], [(0, 0, 0), (1, -1, 0)]), 4, 9),
        ("one past the first j", patched([(0, 0, -64)], [(0, 0, 0), (1, 0, -1)]), 4, 9),
        ("as far past as there is", patched([(0, 63, 63)], [(0, -64, -64), (1, 63, 63)]), 4, 9),
        # The patch line's number where other lines stand behind it.
        ("behind it shades and passes", patched(one, [], b"(shade 0 0)\n(grow)\n(fill)\n"), 8, 9),
        # What any other line says comes first, a missing one too.
        ("8, and a shade of an unknown corner", patched(one, [], b"(shade 3 0)\n"), 5, 10),
        ("8, and a second shade", patched(one, [], b"(shade 0 0)\n(shade 0 0)\n"), 6, 11),
        ("8, and a kind of 2", patched(one, [], b"(shade 0 2)\n"), 1, 10),
        ("8, and a wild pass", patched(one, [], b"(grow 41800001 3fc00000 40000000)\n"), 3, 10),
        ("8, and a 17th pass", patched(one, [], b"(grow)\n" * 17), 2, 26),
        ("8, and a line without its end", patched(one, [], b"(grow)"), 1, 10),
        ("8, and an empty line", patched(one, [], b"\n"), 1, 10),
        ("9, and a line without its end", patched(two, [(0, 1, 0), (1, 0, 0)], b"(gro"), 1, 13),
        ("4, and a second shade", patched([(0, 63, 0)], [(0, 0, 0), (1, 1, 0)], b"(shade 0 0)\n(shade 0 0)\n"), 6, 13),
        # 4, 5 and 6 of a label are its own line's, in either set.
        ("4 of a label of the second set", patched(one, [(0, 64, 0)]), 4, 10),
        ("4 of one that the shift takes back", patched([(0, 0, 0)], [(0, 63, 0), (1, 64, 0)]), 4, 11),
        ("5 of a label of the second set", patched(one, [(3, 0, 0)]), 5, 10),
        ("6, a corner twice in the second set", patched(one, [(0, 0, 0), (0, 1, 0)]), 6, 11),
        ("6, a cell twice in the second set", patched(one, [(0, 0, 0), (1, 0, 0)]), 6, 11),
        ("6, a corner twice in the first set", patched(one + one, one), 6, 9),
        # Order, and form.
        ("a second patch", patched(one, one, b"(patch)\n"), 1, 11),
        ("a second patch at once", patched(one, [], b"(patch)\n"), 1, 10),
        ("a patch behind a shade", patched(one, one, b"(shade 0 0)\n(patch)\n"), 1, 12),
        ("a patch behind a pass", EXAMPLE + b"(patch)\n", 1, 11),
        ("a first patch behind a shade", with_line(10, b"(shade 0 0)\n(patch)\n"), 1, 11),
        ("a corner behind it", patched(one, [], CORNER), 1, 10),
        ("a corner behind its labels", patched(one, one, CORNER), 1, 11),
        ("a label behind a shade", patched(one, one, b"(shade 0 0)\n(label 1 (1 0))\n"), 1, 12),
        ("a label behind a pass", patched(one, one, b"(grow)\n(label 1 (1 0))\n"), 1, 12),
        ("a patch in the heading", with_line(4, b"(patch)\n"), 1, 4),
        ("before the corners", HEAD + b"(patch)\n" + CORNER, 1, 6),
        ("with a number", patched(one, one).replace(b"(patch)", b"(patch 1)"), 1, 9),
        ("with a space", patched(one, one).replace(b"(patch)", b"(patch )"), 1, 9),
        ("too many bytes", patched(one, [], b"\n" * 65536), 2, 0),
    ]:
        yield name, ref.result(text), f"(refused {number} {line})\n"


def wanted(first, second):
    """The rule without a way to find the shift: all shifts are looked at."""
    shared = [(a, b) for n, a in first for m, b in second if n == m]
    if not shared:
        return 8
    far = range(-127, 128)
    found = []
    for di in far:
        for dj in far:
            if (shared[0][0][0], shared[0][0][1]) != (shared[0][1][0] + di, shared[0][1][1] + dj):
                continue  # the first shared corner has two cells
            moved = {m: (i + di, j + dj) for m, (i, j) in second}
            corners = all(moved.get(n, cell) == cell for n, cell in first)
            cells = all(n == m for n, cell in first for m in moved if moved[m] == cell)
            if corners and cells:
                found.append({**moved, **dict(first)})
    if not found:
        return 9
    (joined,) = found
    return joined if all(-64 <= part <= 63 for cell in joined.values() for part in cell) else 4


def joins():
    """The model's join beside the rule, on small sets at random: of few cells,
    so that cells and corners meet, in the middle, at the rim, and cut off by it."""
    for k in range(400):
        rng = random.Random(f"joins {k}")
        at = [rng.choice([(-64, -64), (60, 60), (-64, 60), (62, 62), (-66, 0), (0, 62), (62, -65), (0, 0)]) for _ in (1, 2)]
        square = [(i, j) for i in range(4) for j in range(3)]
        labelled = list(zip(rng.sample(range(9), 6), rng.sample(square, 6)))
        sets = [rng.sample(labelled, rng.randint(0, 6)) for _ in (1, 2)]
        if rng.random() < 0.4 and sets[1]:  # a corner elsewhere, or another corner there
            n, cell = sets[1].pop()
            corner, other = rng.randrange(9), rng.choice(square)
            label = (corner, cell) if rng.random() < 0.5 else (n, other)
            sets[1] = [one for one in sets[1] if one[0] != label[0] and one[1] != label[1]] + [label]
        first, second = ([label for label in ref.shifted(labels, to) if ref.on_sheet(label[1])] for labels, to in zip(sets, at))
        joined = ref.join(first, second)
        if not isinstance(joined, int):
            yield f"joins {k}, one each", len(dict(joined)), len(joined)
            joined = dict(joined)
        yield f"joins {k}", joined, wanted(first, second)


def split():
    """A frame that generate.py has split in two, unspoilt, has the result of the
    whole one."""
    for k in range(60):
        rng = random.Random(f"split {k}")
        whole = generate.panel(rng)
        two = generate.split(rng, whole)
        if two.second is not None:
            yield f"split {k}", ref.result(two.text()), ref.result(whole.text())


BARE_GROW, BARE_FILL = b"(grow)\n", b"(fill)\n"
GROW = b"(grow 3eb33333 3fc00000 3fa00000)\n"
FILL = b"(fill 3eb33333 3fc00000 1)\n"
LOCAL = b"(local 3eb33333 3fc00000 1 3e800000 1)\n"
DEALER, DEPOT, PLANT = b"(as dealer)\n", b"(as depot)\n", b"(as plant)\n"


def acted(*lines):
    """The example with these lines in place of its pass: the first is line 10."""
    return b"".join(LINES[:9]) + b"".join(lines)


def roles():
    """02, 6/14, by hand: who runs each pass, and who may not."""
    for name, lines, expected in [
        ("none", [LOCAL, BARE_GROW], ["plant", "plant"]),
        ("at the first", [DEALER, BARE_GROW, BARE_FILL], ["dealer", "dealer"]),
        ("between", [LOCAL, DEPOT, GROW, FILL], ["plant", "depot", "depot"]),
        ("before each", [DEALER, BARE_GROW, DEPOT, FILL, PLANT, LOCAL], ["dealer", "depot", "plant"]),
        ("the same again", [DEALER, BARE_GROW, DEALER, BARE_GROW], ["dealer", "dealer"]),
        ("changed back", [GROW, DEALER, BARE_FILL, PLANT, LOCAL, LOCAL], ["plant", "dealer", "plant", "plant"]),
    ]:
        frame = ref.read(acted(*lines))
        kinds = [line[1:-2].split(b" ")[0].decode() for line in lines if not line.startswith(b"(as ")]
        yield name, frame.roles, expected
        yield f"{name}, passes", [kind for kind, _ in frame.passes], kinds
        for other in cases.in_place_of_roles(acted(*lines)):
            yield f"{name}, result", *(cases.without_role_lines(ref.result(one)) for one in (other, acted(*lines)))
    table = [(DEALER, "yynnn"), (DEPOT, "yyyyn"), (PLANT, "yyyyy"), (b"", "yyyyy")]
    for line, may in table:
        for one, answer in zip((BARE_GROW, BARE_FILL, GROW, FILL, LOCAL), may):
            said = ref.result(acted(line, one)).split("\n")[0]
            yield f"{line} {one}", said, "(result 1)" if answer == "y" else "(refused 10 11)"


def role_refusals():
    """02, 6/14, by hand: 10 at the pass line, after 1, 2 and 3; 1 for what
    stands behind an as line and is no pass, and for the end."""
    wild, wild_local = b"(grow 41800001 3fc00000 3fa00000)\n", b"(local 3eb33333 3fc00000 1 3e800000 5)\n"
    for name, text, number, line in [
        ("a dealer's full grow", acted(DEALER, GROW), 10, 11),
        ("it holds", acted(DEALER, BARE_GROW, BARE_FILL, BARE_GROW, FILL), 10, 14),
        ("of another line", acted(GROW, LOCAL, DEPOT, GROW, LOCAL, FILL), 10, 14),
        ("a depot's behind a dealer", acted(DEALER, BARE_GROW, DEPOT, LOCAL), 10, 13),
        ("a dealer's behind a depot", acted(DEPOT, GROW, DEALER, GROW), 10, 13),
        ("without corners", HEAD + DEALER + LOCAL, 10, 6),
        ("behind a shade", shaded([(2, 0)], DEPOT + LOCAL), 10, 12),
        ("the first of two", acted(DEALER, LOCAL, GROW), 10, 11),
        ("what stands behind it", acted(DEALER, LOCAL, b"x\n"), 10, 11),
        ("what stands before it", acted(b"(shade 3 0)\n", DEALER, LOCAL), 5, 10),
        ("3 and 10", acted(DEALER, wild), 3, 11),
        ("3 and 10, local", acted(DEPOT, wild_local), 3, 11),
        ("1 and 10", acted(DEALER, b"(local)\n"), 1, 11),
        ("1 and 10, no end", acted(DEALER, LOCAL[:-1]), 1, 11),
        ("2", acted(BARE_GROW * 16, PLANT, BARE_GROW), 2, 27),
        ("2 and 10", acted(BARE_GROW * 16, DEALER, GROW), 2, 27),
        ("2, 3 and 10", acted(BARE_GROW * 16, DEALER, wild), 2, 27),
        ("1, 2 and 10", acted(BARE_GROW * 16, DEALER, b"(local)\n"), 1, 27),
        ("17, each with an as line", acted((DEALER + BARE_GROW) * 17), 2, 43),
        ("16 and an as line", acted(BARE_GROW * 16, DEALER), 1, 27),
        ("the end", acted(PLANT), 1, 11),
        ("the end behind a pass", acted(GROW, PLANT), 1, 12),
        ("the end without corners", HEAD + DEPOT, 1, 6),
        ("half a line", acted(PLANT, b"(gro"), 1, 11),
        ("no end of the as line", acted(PLANT[:-1]), 1, 10),
        ("another", acted(DEALER, PLANT, LOCAL), 1, 11),
        ("the same", acted(PLANT, PLANT, LOCAL), 1, 11),
        ("a corner", acted(PLANT, CORNER), 1, 11),
        ("a label", acted(PLANT, b"(label 2 (5 5))\n"), 1, 11),
        ("a label of an unknown corner", acted(PLANT, b"(label 9 (5 5))\n"), 1, 11),
        ("a shade", acted(PLANT, b"(shade 2 0)\n", BARE_GROW), 1, 11),
        ("a patch", acted(PLANT, b"(patch)\n", BARE_GROW), 1, 11),
        ("an empty line", acted(PLANT, b"\n", BARE_GROW), 1, 11),
        ("a corner at once", HEAD + PLANT + CORNER, 1, 6),
        ("a label behind a pass", acted(PLANT, BARE_GROW, b"(label 2 (5 5))\n"), 1, 12),
        ("in the heading", with_line(4, PLANT), 1, 4),
        ("as nobody", acted(b"(as)\n", BARE_GROW), 1, 10),
        ("as another", acted(b"(as owner)\n", BARE_GROW), 1, 10),
        ("two roles", acted(b"(as dealer depot)\n", BARE_GROW), 1, 10),
        ("two spaces", acted(b"(as  dealer)\n", BARE_GROW), 1, 10),
        ("a space behind", acted(b"(as dealer )\n", BARE_GROW), 1, 10),
        ("upper case", acted(b"(as Dealer)\n", BARE_GROW), 1, 10),
        ("CR", acted(b"(as dealer)\r\n", BARE_GROW), 1, 10),
        ("10 and 8", patched([(0, 0, 0)], [(1, 1, 0)], DEALER + LOCAL), 10, 12),
        ("10 and 9", patched([(0, 0, 0), (1, 1, 0)], [(0, 0, 0), (1, 2, 0)], DEPOT + LOCAL), 10, 14),
        ("10 and 4", patched([(0, 63, 0)], [(0, 0, 0), (1, 1, 0)], DEALER + FILL), 10, 13),
        ("1 and 8", patched([(0, 0, 0)], [(1, 1, 0)], DEALER), 1, 12),
        ("8", patched([(0, 0, 0)], [(1, 1, 0)], DEALER + BARE_GROW), 8, 9),
        ("9", patched([(0, 0, 0), (1, 1, 0)], [(0, 0, 0), (1, 2, 0)], DEPOT + GROW), 9, 10),
        ("4", patched([(0, 63, 0)], [(0, 0, 0), (1, 1, 0)], PLANT + LOCAL), 4, 9),
    ]:
        yield name, ref.result(text), f"(refused {number} {line})\n"


def roled():
    """Frames of generate.py with as lines, and without. An accepted one has the
    result of the frame without its as lines, and of those with a depot's or the
    plant's line in a dealer's place, but for the role lines (02, 7/14). Without as
    lines the plant's are the sums of all. The share of frames with as lines changes
    no other frame."""
    plain = list(generate.frames(601, 120, roled=0))
    mixed = list(generate.frames(601, 120))
    yield "none", [name for name, _ in plain if "roled" in name], []
    yield "some", 15 < sum("roled" in name for name, _ in mixed) < 50, True
    for one, other in zip(plain, mixed):
        if "roled" not in other[0]:
            yield f"{one[0]}, the same", other, one
    tried = refused = 0
    for name, text in generate.frames(602, 100, roled=1):
        try:
            frame = ref.read(text)
        except ref.NotRun as why:
            refused += 1
            line = text.split(b"\n")[why.line - 1]
            passes = line.startswith((b"(grow", b"(fill", b"(local"))
            yield f"{name}, refused", (why.number, passes), (10, True) if passes else (1, False)
            continue
        except ref.NotJoined:
            continue
        result = ref.result(text)
        tried += text.count(DEALER)
        yield f"{name}, a role for each pass", len(frame.roles), len(frame.passes)
        whole = cases.without_role_lines(result)
        for other in cases.in_place_of_roles(text):
            yield f"{name}, in place", cases.without_role_lines(ref.result(other)), whole
        together = [sum(column) for column in zip(*said_of_roles(result).values())]
        yield f"{name}, without as lines", said_of_roles(ref.result(other)), {"plant": together, "depot": [0] * 4, "dealer": [0] * 4}
    yield "dealers' lines, refused frames", (tried > 20, 5 < refused < 40), (True, True)


def said_of_roles(result):
    """The four counts of each role line, in their order."""
    said = [line.strip("()").split(" ") for line in result.splitlines() if line.startswith("(role ")]
    return {role: [int(count) for count in counts] for _, role, *counts in said}


def counts():
    """02, 7/14, by hand: what is summed, and for whom."""
    for name, ran, expected in [
        ("none", [], [(0, 0, 0, 0)] * 3),
        ("a dealer's", [("dealer", (1, 2, 3, 4))], [(0, 0, 0, 0), (0, 0, 0, 0), (1, 2, 3, 4)]),
        ("two of one", [("depot", (1, 20, 0, 4)), ("depot", (5, 2, 3, 0))], [(0, 0, 0, 0), (6, 22, 3, 4), (0, 0, 0, 0)]),
        ("apart", [("plant", (1, 1, 1, 1)), ("depot", (9, 9, 9, 9)), ("plant", (2, 3, 4, 5))], [(3, 4, 5, 6), (9, 9, 9, 9), (0, 0, 0, 0)]),
        ("the most", [("plant", (2**20,) * 4)] * 16, [(16777216,) * 4, (0, 0, 0, 0), (0, 0, 0, 0)]),
    ]:
        lines = [f"(role {role} {a} {b} {c} {d})" for role, (a, b, c, d) in zip(("plant", "depot", "dealer"), expected)]
        yield name, ref.role_lines(ran), lines
    for line, expected in [
        (BARE_GROW, [1, 8, 0, 0]),
        (BARE_FILL, [1, 0, 0, 0]),
        (b"(fill 3eb33333 3fc00000 64)\n", [1, 0, 0, 0]),
        (LOCAL, [0, 0, 0, 0]),
    ]:
        result = ref.result(acted(line))
        yield f"line {line}", said_of_roles(result), {"plant": expected, "depot": [0] * 4, "dealer": [0] * 4}
        yield f"line {line}, where", [one[:5] for one in result.splitlines()[2:6]], ["(role"] * 3 + ["(cell"]
    for text in (HEAD, HEAD + CORNER, acted()):
        yield "no pass", ref.result(text).splitlines()[1:4], cases.NO_COUNTS.splitlines()
    for text in (acted(DEALER, LOCAL), acted(GROW, b"(as plant)\n"), patched([(0, 0, 0)], [(1, 1, 0)])):
        yield "refused", "(role" in ref.result(text), False


# How many of a pass line's words, from the first on, the sums of its role take.
COUNTED = {"grow": 4, "fill": 1, "local": 4}


def sums():
    """02, 7/14, on generated frames: the role lines stand behind the last pass line
    and before the cells; each is the sum over the role's pass lines, and the
    attached counts together equal the cells labelled at the end less those given,
    with two sets those of the union."""
    joined = refused = roles = 0
    for seed, more in ((701, {}), (702, {"roled": 1}), (703, {"patched": 1, "roled": 0.5}), (704, {"shaded": 1, "roled": 0.5})):
        for name, text in generate.frames(seed, 100, **more):
            result = ref.result(text)
            lines = result.splitlines()
            if lines[0] != "(result 1)":
                yield f"{name}, refused", len(lines), 1
                refused += 1
                continue
            frame = ref.read(text)
            at = 1
            expected = {role: [0] * 4 for role in ("plant", "depot", "dealer")}
            for role, (kind, _) in zip(frame.roles, frame.passes):
                words = lines[at].strip("()").split(" ")[1:]
                for k in range(COUNTED[kind]):
                    expected[role][k] += int(words[k])
                at += 2 if kind == "local" and frame.shades else 1
            said = said_of_roles(result)
            yield f"{name}, sums", said, expected
            yield f"{name}, order", list(said), ["plant", "depot", "dealer"]
            yield f"{name}, where", [k for k, line in enumerate(lines) if line.startswith("(role ")], [at, at + 1, at + 2]
            given = {corner for one in frame.sets for corner, _ in one}  # a corner in both sets once
            cells = sum(line.startswith("(cell ") for line in lines)
            yield f"{name}, attached", sum(counts[0] for counts in said.values()) + len(given), cells
            joined += frame.patch is not None
            roles += len(set(frame.roles)) > 1
    yield "joined, refused, of several roles", (joined > 80, refused > 20, roles > 50), (True, True, True)


def reordered():
    """Demand 3 on frames with two sets or as lines, every factor above 1: in another
    order of the corner lines the same role lines, and all else but the numbers of
    corners."""
    for k in range(40):
        rng = random.Random(f"reordered {k}")
        family, draft = permute.a_whole_draft(rng) if k % 2 else permute.a_patched_draft(rng)
        if draft is None:
            continue
        draft, family = generate.in_roles(generate.caster(f"reordered {k}", 0.7), draft, family)
        first = ref.result(draft.text())
        for order in permute.orders(rng, len(draft.corners), 2):
            other = ref.result(permute.reordered(draft, order).text())
            yield f"{k} {family}", permute.paired(other, order), first
            yield f"{k} {family}, role lines", said_of_roles(other), said_of_roles(first)


def written():
    """The writers' calls: their cases by hand; and what a frame's passes say, as
    words, is written as its result, whole and in pieces."""
    for name, lent, expected in writers.by_hand():
        yield name, lent.modelled(), expected
    for name, text in generate.frames(705, 40, roled=0.5):
        try:
            ran, sheet, corners, result = writers.of_frame(text)
        except ref.Refused:
            continue
        yield f"{name}, whole", writers.Lent(ran, sheet, len(result), corners).modelled(), result
        rng = random.Random(f"pieces {name}")
        pieces, start = "", 0
        while start < len(ran) + 49156:
            piece, start = writers.Lent(ran, sheet, rng.choice((128, 150, 300, 4096)), corners, start).modelled()
            pieces += piece
        yield f"{name}, pieces", pieces, result


def boxes():
    """02, 5/14, by hand: the box with one cell more, as it is handed, and as it
    is answered."""
    for around, cell, expected in [
        (None, (7, -9), (7, 7, -9, -9)),
        ((7, 7, -9, -9), (7, -9), (7, 7, -9, -9)),
        ((-1, 2, 3, 5), (0, 4), (-1, 2, 3, 5)),
        ((-1, 2, 3, 5), (-2, 4), (-2, 2, 3, 5)),
        ((-1, 2, 3, 5), (3, 4), (-1, 3, 3, 5)),
        ((-1, 2, 3, 5), (0, 1), (-1, 2, 1, 5)),
        ((-1, 2, 3, 5), (0, 6), (-1, 2, 3, 6)),
        ((-1, 2, 3, 5), (-64, 63), (-64, 2, 3, 63)),
    ]:
        yield f"{cell} in {around}", ref.widened(around, cell), expected
    for five, around, answered in [
        ((0, -1, 2, 3, 5), (-1, 2, 3, 5), (0, -1, 2, 3, 5)),
        ((0, 0, 0, 0, 0), (0, 0, 0, 0), (0, 0, 0, 0, 0)),
        ((1, 0, 0, 0, 0), None, (1, 0, 0, 0, 0)),
        ((1, -1, 2, 3, 5), None, (1, 0, 0, 0, 0)),
    ]:
        yield f"handed {five}", ref.box_handed(five), around
        yield f"answered {around}", ref.box_answered(around), answered
    for labels, second, expected in [
        ([], None, None),
        ([(0, 5, -7)], None, (5, 5, -7, -7)),
        ([(0, 0, 0), (1, -3, 9)], None, (-3, 0, 0, 9)),
        # Shifted by (-5 3); a shared label widens nothing.
        ([(0, 0, 0)], [(0, 5, -3), (1, 6, -3), (2, 5, -9)], (0, 1, -6, 0)),
        ([(0, 0, 0), (1, 4, 4)], [(1, 0, 0), (0, -4, -4)], (0, 4, 0, 4)),
    ]:
        if second is None:
            text = b"".join(LINES[:7]) + b"".join(b"(label %d (%d %d))\n" % label for label in labels)
        else:
            text = patched(labels, second, b"")
        yield f"read {labels} {second}", ref.read(text).around, expected


def found(sheet):
    """What a search finds, cell by cell."""
    box = None
    for i in range(-64, 64):
        for j in range(-64, 64):
            if (i, j) in sheet.corner:
                i0, i1, j0, j1 = box or (i, i, j, j)
                box = min(i0, i), i1 if i < i1 else i, j0 if j0 < j else j, max(j1, j)
    return box


def kept():
    """After reading, joining and every pass the kept box is what a search finds."""
    for seed, patched_share in ((501, 0), (502, 1)):
        for name, data in generate.frames(seed, 120, patched=patched_share):
            try:
                frame = ref.read(data)
            except (ref.NotJoined, ref.NotRun):
                continue
            sheet = frame.given()
            yield f"{name}, read", sheet.around, found(sheet)
            for number in range(len(frame.passes)):
                ref.run_pass(frame, sheet, number)
                yield f"{name}, pass {number + 1}", sheet.around, found(sheet)


def library():
    """The refusals of the library calls, and the boxes that they answer, by hand
    in refusals.py."""
    for kind, name in enumerate(calls.KINDS):
        for what, change, number in calls.cases(kind):
            call = calls.Call(kind)
            change(call)
            listed = call.modelled()
            yield f"{name}, {what}", ref.refusal(listed.frame(), listed.sheet(), *listed.calls), number
            yield f"{name}, {what}, words", listed.words(), call.words()
    for name, read, several, answers in calls.all_boxed():
        yield name, calls.said(calls.lines_of(several)), answers
        yield f"{name}, words", several.words(), read


def refusals():
    digits = b"9" * 5000
    many = HEAD + CORNER * 1024
    grows = b"(grow)\n"
    for text, number, line in [
        (b"", 1, 1),
        (b"x" * 65537, 2, 0),
        (b"x" * 65536, 1, 1),
        (b"(frame 1)", 1, 1),
        (b"(frame 1)\n", 1, 2),
        (b"".join(LINES[:2]), 1, 3),
        (b"".join(LINES[:3]), 1, 4),
        (b"".join(LINES[:3]) + LINES[3][:-1], 1, 4),
        (with_line(1, b"(frame 2)\n"), 1, 1),
        (with_line(1, b"(frame 1) \n"), 1, 1),
        (with_line(2, b"(cell 4120000)\n"), 1, 2),
        (with_line(2, b"(cell 4120000A)\n"), 1, 2),
        (with_line(2, b"(cell 41200000)\r\n"), 1, 2),
        (with_line(2, b"\n"), 1, 2),
        (with_line(2, b"(cell 7f800000)\n"), 3, 2),
        (with_line(2, b"(cell 7fc00000)\n"), 3, 2),
        (with_line(2, b"(cell 3a7fffff)\n"), 3, 2),
        (with_line(2, b"(cell 46800001)\n"), 3, 2),
        (with_line(2, b"(cell 00000000)\n"), 3, 2),
        (with_line(3, b"(axes (3f800000 00000000) (00000000 c0800001))\n"), 3, 3),
        (with_line(3, b"(axes (3f800000 00000000)  (00000000 3f800000))\n"), 1, 3),
        (with_line(4, b"(band be800000)\n"), 3, 4),
        (with_line(4, b"(band 40800001)\n"), 3, 4),
        (with_line(5, b"(corner (46800001 41200000) 00000000)\n"), 3, 5),
        (with_line(5, b"(corner (41200000 c6800001) 00000000)\n"), 3, 5),
        (with_line(5, b"(corner (41200000 41200000) bf800000)\n"), 3, 5),
        (with_line(5, b"(corner 41200000 41200000 00000000)\n"), 1, 5),
        (with_line(8, b"(label 0 (64 0))\n"), 4, 8),
        (with_line(8, b"(label 0 (0 -65))\n"), 4, 8),
        (with_line(8, b"(label 9 (64 0))\n"), 4, 8),
        (with_line(8, b"(label 0 (0 " + digits + b"))\n"), 4, 8),
        (with_line(8, b"(label 0 (0 -" + digits + b"))\n"), 4, 8),
        (with_line(8, b"(label 3 (0 0))\n"), 5, 8),
        (with_line(8, b"(label -1 (0 0))\n"), 5, 8),
        (with_line(8, b"(label " + digits + b" (0 0))\n"), 5, 8),
        (with_line(8, b"(label 00 (0 0))\n"), 1, 8),
        (with_line(8, b"(label 0 (-0 0))\n"), 1, 8),
        (with_line(8, b"(label 0 (+1 0))\n"), 1, 8),
        (with_line(8, b"(label 0 (01 0))\n"), 1, 8),
        (with_line(9, b"(label 0 (1 0))\n"), 6, 9),
        (with_line(9, b"(label 1 (0 0))\n"), 6, 9),
        (with_line(9, b"(label 3 (0 0))\n"), 5, 9),
        (EXAMPLE + CORNER, 1, 11),
        (EXAMPLE + LINES[8], 1, 11),
        (EXAMPLE + b"(band 3e800000)\n", 1, 11),
        (EXAMPLE + b"(grow)", 1, 11),
        (EXAMPLE + b"\n", 1, 11),
        (EXAMPLE + b"(local)\n", 1, 11),
        (EXAMPLE + b"(grow 3eb33333)\n", 1, 11),
        (EXAMPLE + b"(grow 41800001 3fc00000 40000000)\n", 3, 11),
        (EXAMPLE + b"(grow 3eb33333 447a0001 40000000)\n", 3, 11),
        (EXAMPLE + b"(grow 3eb33333 3fc00000 41800001)\n", 3, 11),
        (EXAMPLE + b"(fill 3eb33333 3fc00000 65)\n", 3, 11),
        (EXAMPLE + b"(fill 3eb33333 3fc00000 -1)\n", 3, 11),
        (EXAMPLE + b"(fill 3eb33333 3fc00000 " + digits + b")\n", 3, 11),
        (EXAMPLE + b"(local 3eb33333 3fc00000 8 3e99999a 5)\n", 3, 11),
        (EXAMPLE + b"(local 3eb33333 3fc00000 8 41800001 4)\n", 3, 11),
        (many + CORNER, 2, 1029),
        (many + b"(corner (7f800000 7f800000) 7f800000)\n", 2, 1029),
        (many + b"(corner (7f800000 7f800000) 7f80000)\n", 1, 1029),
        (HEAD + grows * 17, 2, 21),
        (HEAD + grows * 16 + b"(grow 7f800000 7f800000 7f800000)\n", 2, 21),
        (HEAD + grows * 16 + CORNER, 1, 21),
        # 02, 1/14: k 1, unknown corner 5, second shade 6, in this order.
        (shaded([(2, 2)]), 1, 10),
        (shaded([(2, -1)]), 1, 10),
        (shaded([(99, 2)]), 1, 10),
        (shaded([(0, 0), (0, 2)]), 1, 11),
        (with_line(10, b"(shade 2 00)\n"), 1, 10),
        (with_line(10, b"(shade 2 -0)\n"), 1, 10),
        (with_line(10, b"(shade 2 " + digits + b")\n"), 1, 10),
        (with_line(10, b"(shade 02 0)\n"), 1, 10),
        (with_line(10, b"(shade 2)\n"), 1, 10),
        (with_line(10, b"(shade 2 0 0)\n"), 1, 10),
        (shaded([(3, 0)]), 5, 10),
        (shaded([(-1, 1)]), 5, 10),
        (shaded([(99, 0), (99, 0)]), 5, 10),
        (with_line(10, b"(shade " + digits + b" 1)\n"), 5, 10),
        (shaded([(2, 0), (2, 0)]), 6, 11),
        (shaded([(2, 0), (1, 1), (2, 1)]), 6, 12),
        (shaded([(2, 0)]) + b"(shade 1 0)\n", 1, 12),
        (with_line(8, b"(shade 2 0)\n"), 1, 9),
        (with_line(7, b"(shade 0 0)\n"), 1, 8),
        (with_line(5, b"(shade 0 0)\n"), 5, 5),
        (with_line(4, b"(shade 0 0)\n"), 1, 4),
        # The first refusal from the top counts.
        (with_line(2, b"(cell 7f800000)\n") + b"x\n", 3, 2),
    ]:
        yield text[:40], ref.result(text), f"(refused {number} {line})\n"


def bare_grow():
    """02, 2/14; cases.py has what it finds, by hand."""
    for line, boundary in [
        (b"(grow)\n", 1.25),
        (b"(grow 3eb33333 3fc00000 3fa00000)\n", 1.25),
        (b"(grow 3eb33333 3fc00000 40000000)\n", 2.0),
    ]:
        yield line, ref.read(HEAD + line).passes, [("grow", (ref.rnd(0.35), 1.5, boundary))]


def acceptances():
    for text in [
        HEAD,
        EXAMPLE,
        HEAD + CORNER * 1024,
        HEAD + b"(grow)\n" * 16,
        HEAD + b"(fill)\n(fill 41800000 447a0000 64)\n(local 80000000 00000000 0 00000000 0)\n",
        with_line(2, b"(cell 3a800000)\n"),
        with_line(2, b"(cell 46800000)\n"),
        with_line(3, b"(axes (c0800000 40800000) (80000000 00000001))\n"),
        with_line(4, b"(band 80000000)\n"),
        with_line(5, b"(corner (c6800000 46800000) 80000000)\n"),
        with_line(8, b"(label 0 (-64 63))\n"),
        shaded([(2, 1), (0, 0), (1, 0)]),
        HEAD + CORNER + b"(shade 0 1)\n",
        HEAD + CORNER + b"(shade 0 1)\n(grow)\n",
    ]:
        yield text[:40], ref.result(text)[:11], "(result 1)\n"


def main():
    passed = failed = 0
    families = [worked_examples, shades, lent, bare_grow, patches, patch_refusals, joins, split, roles, role_refusals, roled, counts, sums]
    families += [reordered, written, boxes, kept, library, refusals, acceptances]
    for checks in families:
        for name, got, expected in checks():
            if got == expected:
                passed += 1
            else:
                failed += 1
                print(f"{checks.__name__}: {name!r}: {got!r} instead of {expected!r}")
    print(f"{passed} passed, {failed} failed")
    return 1 if failed else 0


if __name__ == "__main__":
    sys.exit(main())
