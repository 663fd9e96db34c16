#!/usr/bin/env python3
"""Runs every refusal of the library calls, and looks at every buffer.

    refusals.py            after `rt run` in crates/passes_main
    refusals.py --boxes    prints what passes_main reads of the cases of boxes
    refusals.py --answers  prints what the model answers them

Each case changes one thing of a good call, or two to show which is tried
first. The expected numbers are those of 01's table, written here by hand. A
refused call has to leave the sheet, the queue and the attached list as they
were, every place of them; the good calls are shown to change them. Then calls
that are lent shades (02, 1/14), with what they answer, by hand. Then calls that
are handed a label box (02, 5/14), right, wrong and empty ones, with the number
or the answered box by hand; and lists of calls that widen it. The whole answer
of these, every buffer included, is compared with the model's (call_lists.py). At last,
lists with a call of an unknown kind, which the program does not run.
"""

import os
import subprocess
import sys

import call_lists
import reference
import words

PROGRAM = os.path.join(os.path.dirname(os.path.abspath(__file__)), "..", "crates", "passes_main", "out", "passes_main")
GROW, FILL, LOCAL = 0, 1, 2
KINDS = ["grow", "fill", "local"]
UNKNOWN = "not run: a call of an unknown kind\n"

F = {
    "0": "00000000", "1": "3f800000", "0.25": "3e800000", "0.35": "3eb33333", "1.5": "3fc00000", "2": "40000000", "10": "41200000",
    "20": "41a00000", "30": "41f00000", "nan": "7fc00000", "inf": "7f800000", "16384": "46800000", "above 16384": "46800001",
    "below 0": "80000001", "minus 0": "80000000", "5": "40a00000", "1001": "447a4000", "tiny": "3a7fffff",
    "16": "41800000", "above 16": "41800001", "1000": "447a0000",
}


def whole(n):
    return "%08x" % n


def place(i, j):
    return (i + 64) * 128 + j + 64


class Call:
    """One call. For grow and fill 01's example: three corners, two labels.
    For local four corners of a square, labelled, and one beside it."""

    def __init__(self, kind):
        self.kind = kind
        self.x = [F["10"], F["20"], F["30"]]
        self.y = [F["10"]] * 3
        self.labels = [(0, place(0, 0)), (1, place(1, 0))]
        self.numbers = [F["0.35"], F["1.5"], F["2"], whole(0), whole(0)]
        if kind == FILL:
            self.numbers[2] = whole(1)
        if kind == LOCAL:
            self.x = [F["10"], F["20"], F["10"], F["20"], F["30"]]
            self.y = [F["10"], F["10"], F["20"], F["20"], F["10"]]
            self.labels += [(2, place(0, 1)), (3, place(1, 1))]
            self.numbers[2:] = [whole(1), F["0.25"], whole(1)]
        self.pitch = [F["0"]] * len(self.x)
        self.shades = [0] * len(self.x)  # the byte that is lent
        self.cell = F["10"]
        self.axes = [F["1"], F["0"], F["0"], F["1"]]
        self.band = F["0.25"]
        self.lend = {}
        self.around = None  # the box that is handed, or None in a list without boxes

    def corners(self, n):
        self.x, self.y, self.pitch, self.shades = [F["10"]] * n, [F["10"]] * n, [F["0"]] * n, [0] * n

    def lengths(self):
        n = len(self.x)
        lengths = {"ys": n, "pitches": n, "sheet": 16384, "queue": 4 * n, "attached": n, "shades": n}
        lengths.update(self.lend)
        return lengths

    def words(self):
        n = len(self.x)
        lengths = self.lengths()
        out = [whole(n), whole(len(self.labels)), whole(1), whole(2 if self.around is None else 6)]
        for x, y, pitch, shade in zip(self.x, self.y, self.pitch, self.shades):
            out += [x, y, pitch, whole(shade)]  # the first call's bits
        for corner, at in self.labels:
            out += [whole(corner), whole(at)]
        out += [whole(self.kind), self.cell, *self.axes, self.band, *self.numbers]
        out += [whole(lengths[name]) for name in ("ys", "pitches", "sheet", "queue", "attached", "shades")]
        if self.around == reference.AS_LEFT:
            out += [whole(1)] + [whole(0)] * 5
        elif self.around is not None:
            out += [whole(0)] + [whole(part % 2**32) for part in self.around]
        return "\n".join(out) + "\n"

    def modelled(self):
        """The same as a list for the model."""
        a, b, c, d = (reference.from_hex(part) for part in self.axes)
        settings = (reference.from_hex(self.cell), ((a, b), (c, d)), reference.from_hex(self.band))
        kind = KINDS[self.kind]
        floats = {"grow": [0, 1, 2], "fill": [0, 1], "local": [0, 1, 3]}[kind]
        count = {"grow": 3, "fill": 3, "local": 5}[kind]
        numbers = [reference.from_hex(word) if k in floats else int(word, 16) for k, word in enumerate(self.numbers[:count])]
        corners = [tuple(reference.from_hex(part) for part in corner) for corner in zip(self.x, self.y, self.pitch)]
        labels = [(corner, (at // 128 - 64, at % 128 - 64)) for corner, at in self.labels]
        around = reference.AS_LEFT if self.around is None else self.around
        call = reference.Call(kind, settings, numbers, self.lengths(), self.shades, around)
        return call_lists.List(corners, labels, [call], self.around is not None)


def run(text):
    return subprocess.run([PROGRAM], input=text.encode(), stdout=subprocess.PIPE, check=True).stdout.decode()


def untouched(call, out):
    """Whether sheet, queue and list are as they were."""
    given = {at: corner for corner, at in call.labels}
    cells = ["cell %d %d %d" % (p // 128 - 64, p % 128 - 64, c) for p, c in sorted(given.items())]
    sheet = [line for line in out if line.startswith(("cell", "hole", "ambiguous"))]
    sums = [line for line in out if line.startswith(("queue", "list"))]
    expected = ["%s %s" % (name, call_lists.total([call_lists.UNTOUCHED] * length)) for name, length in call_lists.PLACES.items()]
    return sheet == cells and sums == expected


def cases(kind):
    """(name, what to change, the number expected, or None)."""
    def lend(name, by):
        return lambda c: c.lend.__setitem__(name, by(len(c.x)))

    def put(field, index, value):
        return lambda c: getattr(c, field).__setitem__(index, F.get(value, value))

    def several(*changes):
        return lambda c: [change(c) for change in changes]

    yield "good", lambda c: None, None
    yield "short ys", lend("ys", lambda n: n - 1), 7
    yield "short pitches", lend("pitches", lambda n: n - 1), 7
    yield "short sheet", lend("sheet", lambda n: 16383), 7
    yield "short list", lend("attached", lambda n: n - 1), 7
    yield "short queue", lend("queue", lambda n: 4 * n - 1), 7 if kind == GROW else None
    yield "short shades", lend("shades", lambda n: n - 1), 7
    yield "no shades lent", lend("shades", lambda n: 0), 7
    yield "long shades", lend("shades", lambda n: n + 1), None
    for corner, byte in ((0, 1), (1, 2), (2, 1), (-1, 2)):
        yield "corner %d lent %d" % (corner, byte), put("shades", corner, byte), None
    for corner in (0, 1, -1):
        yield "corner %d lent 3" % corner, put("shades", corner, 3), 3
    yield "1,025 corners", lambda c: c.corners(1025), 2
    yield "1,024 corners", lambda c: c.corners(1024), None
    for field in ("x", "y"):
        yield field + " above", put(field, 2, "above 16384"), 3
        yield field + " nan", put(field, 0, "nan"), 3
        yield field + " infinite", put(field, 1, "inf"), 3
        yield field + " at the end", put(field, 2, "16384"), None
    yield "pitch below 0", put("pitch", 1, "below 0"), 3
    yield "pitch -0", put("pitch", 1, "minus 0"), None
    yield "cell too small", lambda c: setattr(c, "cell", F["tiny"]), 3
    for part in range(4):
        yield "axis part %d" % part, put("axes", part, "5"), 3
    yield "band", lambda c: setattr(c, "band", F["5"]), 3
    yield "cell 0", lambda c: setattr(c, "cell", F["0"]), 3
    for number, name in enumerate(("search", "factor")):
        yield name + " nan", put("numbers", number, "nan"), 3
        yield name + " below 0", put("numbers", number, "below 0"), 3
        yield name + " -0", put("numbers", number, "minus 0"), None
    yield "search above", put("numbers", 0, "above 16"), 3
    yield "search at the end", put("numbers", 0, "16"), None
    yield "factor above", put("numbers", 1, "1001"), 3
    yield "factor at the end", put("numbers", 1, "1000"), None
    yield from own_cases(kind, put)
    yield "unknown corner", lambda c: c.labels.__setitem__(1, (len(c.x), place(1, 0))), 5
    yield "doubled corner", lambda c: c.labels.__setitem__(1, (0, place(1, 0))), 6
    yield "7 before 2", several(lambda c: c.corners(1025), lend("ys", lambda n: n - 1)), 7
    yield "7 before 3", several(put("x", 0, "nan"), lend("attached", lambda n: n - 1)), 7
    yield "2 before 3", several(lambda c: c.corners(1025), put("x", 0, "nan")), 2
    yield "3 before 5", several(put("x", 0, "nan"), lambda c: c.labels.__setitem__(1, (len(c.x), place(1, 0)))), 3
    stranger = lambda c: c.labels.__setitem__(1, (len(c.x), place(1, 0)))
    yield "7 before 3, both of shades", several(put("shades", 0, 3), lend("shades", lambda n: n - 1)), 7
    yield "7 before 3, a shade", several(put("shades", 0, 3), lend("ys", lambda n: n - 1)), 7
    yield "7 of shades before 2", several(lambda c: c.corners(1025), lend("shades", lambda n: n - 1)), 7
    yield "7 of shades before 3", several(put("x", 0, "nan"), lend("shades", lambda n: n - 1)), 7
    yield "2 before 3, a shade", several(lambda c: c.corners(1025), put("shades", 0, 3)), 2
    yield "3, a shade and a number", several(put("x", 0, "nan"), put("shades", 1, 3)), 3
    yield "3, a shade, before 5", several(put("shades", 0, 3), stranger), 3
    yield "3, a shade, before 6", several(put("shades", 0, 3), lambda c: c.labels.__setitem__(1, (0, place(1, 0)))), 3
    yield "7 of shades before 5", several(lend("shades", lambda n: n - 1), stranger), 7
    yield "5 before 6", lambda c: c.labels.extend([(0, 9000), (len(c.x), 9001)]), 5


def own_cases(kind, put):
    """The numbers that not every pass has."""
    if kind == GROW:
        yield "boundary above", put("numbers", 2, "above 16"), 3
        yield "boundary nan", put("numbers", 2, "nan"), 3
        yield "boundary at the end", put("numbers", 2, "16"), None
        return
    yield "65 rounds", put("numbers", 2, whole(65)), 3
    yield "64 rounds", put("numbers", 2, whole(64)), None
    if kind == LOCAL:
        yield "residual above", put("numbers", 3, "above 16"), 3
        yield "residual below 0", put("numbers", 3, "below 0"), 3
        yield "residual nan", put("numbers", 3, "nan"), 3
        yield "residual infinite", put("numbers", 3, "inf"), 3
        yield "residual at the end", put("numbers", 3, "16"), None
        yield "depth 5", put("numbers", 4, whole(5)), 3
        yield "depth 4", put("numbers", 4, whole(4)), None


def shaded(kind):
    """(shades lent, the lines that stand behind the heading). The last corner
    stands where cell (2, 0) is expected, which takes kind 0, lent as 1."""
    if kind == GROW:
        yield [0, 0, 0], ["(grow 1 8 0 0 no)", "visited"]
        yield [0, 0, 1], ["(grow 1 8 0 0 no)", "visited"]
        yield [2, 1, 1], ["(grow 1 8 0 0 no)", "visited"]  # labels are not tested
        yield [0, 0, 2], ["(grow 0 6 0 0 no)", "visited"]
        yield [1, 0, 0], ["(grow 0 6 0 0 no)", "visited"]
    elif kind == FILL:
        yield [0, 0, 0], ["(fill 1 1 no)", "attached"]
        yield [0, 0, 1], ["(fill 1 1 no)", "attached"]
        yield [0, 0, 2], ["(fill 0 1 no)", "cell"]
        yield [1, 0, 0], ["(fill 0 1 no)", "cell"]
    else:
        yield [0, 0, 0, 0, 0], ["(local 1", "attached"]
        yield [0, 0, 0, 0, 1], ["(local 1", "(unmatched 0)", "attached"]
        yield [2, 1, 1, 2, 1], ["(local 1", "(unmatched 0)", "attached"]
        yield [0, 0, 0, 0, 2], ["(local 0 12 0 0 1 ", "(unmatched 1)", "cell"]
        yield [1, 0, 0, 0, 0], ["(local 0 12 0 0 1 ", "(unmatched 1)", "cell"]


def shaded_is_fine(kind, shades, expected):
    call = Call(kind)
    call.shades = shades
    out = run(call.words()).split("\n")[1:]
    return all(line.startswith(front) for line, front in zip(out, expected)), out[: len(expected)]


# ---- The label box (02, 5/14) ---------------------------------------------

WILD = [7, -7, 2**31 - 1, -(2**31)]  # numbers that are no box's
APART = [-3, 2, 5, 9]  # the box of two labels, four different numbers


def off(box):
    """The box with one of its numbers moved: by one, and by what 16 bits do not
    show."""
    for k, name in enumerate(("low i", "high i", "low j", "high j")):
        for by in (-1, 1, 65536):
            yield "%s %+d" % (name, by), [part + by * (k == at) for at, part in enumerate(box)]


def boxed(kind):
    """(name, what to change, the number or the answered box)."""
    def handed(mark, numbers):
        return lambda c: setattr(c, "around", [mark, *numbers])

    def as_left(c):
        c.around = reference.AS_LEFT

    def labelled(*labels):
        return lambda c: setattr(c, "labels", [(corner, place(i, j)) for corner, i, j in labels])

    def several(*changes):
        return lambda c: [change(c) for change in changes]

    # The good call attaches (2, 0).
    good = [0, 1, 0, 1 if kind == LOCAL else 0]
    yield "good, as left", as_left, [0, 0, 2, *good[2:]]
    yield "good", handed(0, good), [0, 0, 2, *good[2:]]
    yield "good, the box that it leaves", handed(0, [0, 2, *good[2:]]), 3
    apart = labelled((0, -3, 5), (1, 2, 9))
    # Cell (3, 9) is expected where corner 2 lies; local has too few labels.
    after = [0, -3, 2 if kind == LOCAL else 3, 5, 9]
    yield "as left", several(apart, as_left), after
    yield "the right box", several(apart, handed(0, APART)), after
    for name, numbers in off(APART):
        yield name, several(apart, handed(0, numbers)), 3
    low_i, high_i, low_j, high_j = APART
    yield "high for low", several(apart, handed(0, [high_i, low_i, high_j, low_j])), 3
    yield "j for i", several(apart, handed(0, [low_j, high_j, low_i, high_i])), 3
    yield "all zeros", several(apart, handed(0, [0] * 4)), 3
    yield "wild numbers", several(apart, handed(0, WILD)), 3
    for mark in (1, 2, -1):
        yield "mark %d, right numbers" % mark, several(apart, handed(mark, APART)), 3
    yield "mark 1, zeros", several(apart, handed(1, [0] * 4)), 3
    yield "mark 1, wild numbers", several(apart, handed(1, WILD)), 3

    none = labelled()
    empty = [1, 0, 0, 0, 0]
    yield "empty, as left", several(none, as_left), empty
    yield "empty, zeros", several(none, handed(1, [0] * 4)), empty
    for mark in (1, 2, -1, 256):
        yield "empty, mark %d, wild numbers" % mark, several(none, handed(mark, WILD)), empty
    yield "empty, no mark, zeros", several(none, handed(0, [0] * 4)), 3
    yield "empty, no mark, low above high", several(none, handed(0, [0, -1, 0, -1])), 3
    yield "empty, no mark, the sheet's ends reversed", several(none, handed(0, [63, -64, 63, -64])), 3
    yield "empty, no mark, wild numbers", several(none, handed(0, WILD)), 3

    ends = labelled((0, -64, -64), (1, 63, 63))
    yield "the sheet's ends", several(ends, handed(0, [-64, 63, -64, 63])), [0, -64, 63, -64, 63]
    yield "one inside the sheet's ends", several(ends, handed(0, [-63, 62, -63, 62])), 3
    # Grow takes corners 1 and 2, fill's one round corner 1.
    one = labelled((0, 7, -7))
    yield "one label", several(one, handed(0, [7, 7, -7, -7])), [0, 7, {GROW: 9, FILL: 8, LOCAL: 7}[kind], -7, -7]
    yield "one label, empty", several(one, handed(1, [7, 7, -7, -7])), 3
    yield from boxed_order(kind, handed, as_left, labelled, several)


def boxed_order(kind, handed, as_left, labelled, several):
    """Two faults, one of them the box: 7, 2, 3, 5, 6."""
    right = [0, 0, 2, 0, 1 if kind == LOCAL else 0]  # which the good call answers
    def short(name):
        return lambda c: c.lend.__setitem__(name, c.lengths()[name] - 1)

    wrong = handed(0, [9, 9, 9, 9])
    marked = handed(1, [0] * 4)
    for name in ("ys", "pitches", "sheet", "attached", "shades"):
        yield "7, %s, before the box" % name, several(short(name), wrong), 7
    yield "7 before an empty box", several(short("ys"), marked), 7
    yield "a short queue and the box", several(short("queue"), wrong), 7 if kind == GROW else 3
    yield "a short queue, as left", several(short("queue"), as_left), 7 if kind == GROW else right
    yield "3, x, and the box", several(lambda c: c.x.__setitem__(0, F["nan"]), wrong), 3
    yield "3, x, as left", several(lambda c: c.x.__setitem__(0, F["nan"]), as_left), 3
    yield "3, a shade, and the box", several(lambda c: c.shades.__setitem__(0, 3), wrong), 3
    yield "3, search, and the box", several(lambda c: c.numbers.__setitem__(0, F["nan"]), wrong), 3
    # A label of an unknown corner is one of the box.
    stranger = labelled((0, 0, 0), (9, 1, 0))
    yield "the box before 5", several(stranger, wrong), 3
    yield "an empty box before 5", several(stranger, marked), 3
    yield "the box without the stranger, before 5", several(stranger, handed(0, [0, 0, 0, 0])), 3
    yield "5, the right box", several(stranger, handed(0, [0, 1, 0, 0])), 5
    yield "5, as left", several(stranger, as_left), 5
    doubled = labelled((0, 0, 0), (0, 1, 0))
    yield "the box before 6", several(doubled, wrong), 3
    yield "an empty box before 6", several(doubled, marked), 3
    yield "6, the right box", several(doubled, handed(0, [0, 1, 0, 0])), 6
    yield "6, as left", several(doubled, as_left), 6
    both = labelled((0, 0, 0), (0, 1, 0), (9, 2, 0))
    yield "the box before 5 and 6", several(both, wrong), 3
    yield "5 before 6, the right box", several(both, handed(0, [0, 2, 0, 0])), 5


def a_call(kind, n, around, **lend):
    """A good call of one round on n corners without shades."""
    numbers = {"grow": [reference.rnd(0.35), 1.5, 2.0], "fill": [reference.rnd(0.35), 1.5, 1], "local": [reference.rnd(0.35), 1.5, 1, 0.25, 1]}
    settings = (10.0, ((1.0, 0.0), (0.0, 1.0)), 0.25)
    return reference.Call(kind, settings, numbers[kind], words.lengths(n, lend), [0] * n, around)


def boxed_lists():
    """(name, list, for each call the number or the answered box)."""
    cells = [(i, j) for i in range(-2, 2) for j in range(-1, 4)]
    corners = [(10.0 * i + 40, 10.0 * j + 40, 0.0) for i, j in cells]
    n = len(corners)
    for kind, given, after in [
        ("grow", [(0, 0)], [-2, 1, -1, 3]),
        ("fill", [(0, 0)], [-1, 1, -1, 1]),
        # For i = 1 three of the four supports are in a line, so that there is no fit.
        ("local", [(-1, 0), (-1, 1), (0, 0), (0, 1)], [-2, 0, -1, 2]),
    ]:
        before = [0, 0, 0, 0] if kind != "local" else [-1, 0, 0, 1]
        tried = [(a_call(kind, n, reference.AS_LEFT), [0, *after])]
        tried += [(a_call(other, n, [0, *before]), 3) for other in KINDS]
        tried += [(a_call(KINDS[k % 3], n, [0, *wrong]), 3) for k, (_, wrong) in enumerate(off(after))]
        tried += [(a_call(other, n, [1, *after]), 3) for other in KINDS]
        last = [0, -2, 1, -1, 3]
        # Grow takes what is left; the box that it leaves is right for all.
        tried += [(a_call("grow", n, [0, *after]), last), (a_call("fill", n, last), last)]
        tried += [(a_call("local", n, [0, *before]), 3), (a_call("local", n, reference.AS_LEFT), last)]
        labels = [(cells.index(cell), cell) for cell in given]
        yield "%s widens it" % kind, call_lists.List(corners, labels, [call for call, _ in tried], True), [answer for _, answer in tried]
    # 1,025 corners: 7 and 2 before the box.
    corners = [(10.0, 10.0, 0.0)] * 1025
    wrong, right = [0, 1, 1, 0, 0], [0, 0, 0, 0, 0]
    tried = []
    for kind in KINDS:
        tried += [(a_call(kind, 1025, wrong, pitches=1024), 7), (a_call(kind, 1025, wrong), 2), (a_call(kind, 1025, right), 2)]
        tried += [(a_call(kind, 1025, reference.AS_LEFT), 2)]
    yield "1,025 corners", call_lists.List(corners, [(0, (0, 0))], [call for call, _ in tried], True), [answer for _, answer in tried]


def all_boxed():
    """(name, what passes_main reads, the list for the model, the answers)."""
    for kind, name in enumerate(KINDS):
        for what, change, answer in boxed(kind):
            call = Call(kind)
            change(call)
            yield "%s, %s" % (name, what), call.words(), call.modelled(), [answer]
    for name, several, answers in boxed_lists():
        yield name, several.words(), several, answers


def lines_of(several, model=reference):
    return [line for block in several.answers(model) for line in block]


def said(lines):
    """For each call the number, or the answered box."""
    out = []
    for line in lines:
        if line.startswith("(refused "):
            out.append(int(line.strip("()").split(" ")[1]))
        elif line.startswith("box "):
            out.append([int(part) for part in line.split(" ")[1:]])
    return out


def is_fine(call, what, number):
    """Whether the call is answered as expected, and what was answered."""
    out = run(call.words()).split("\n")
    if number is None:
        fine = not any(line.startswith("(refused") for line in out)
        if what == "good":
            fine = fine and not untouched(call, out)
    else:
        fine = out[1] == "(refused %s)" % number and untouched(call, out)
    return fine, out[1]


def refused():
    """(name, whether it is fine, expected, got) of each case of one call."""
    for kind, name in enumerate(KINDS):
        for what, change, number in cases(kind):
            call = Call(kind)
            change(call)
            fine, answer = is_fine(call, what, number)
            yield "%s, %s" % (name, what), fine, number, answer
        for shades, expected in shaded(kind):
            fine, answer = shaded_is_fine(kind, shades, expected)
            yield "%s, lent %s" % (name, shades), fine, expected, answer
    for name, read, several, answers in all_boxed():
        lines = run(read).splitlines()
        yield name, said(lines) == answers and lines == lines_of(several), answers, said(lines)
    for kind in (3, 4, 65536, 2**32 - 1):
        call = Call(GROW)
        call.kind = kind
        answer = run(call.words())
        yield "a call of kind %d" % kind, answer == UNKNOWN, UNKNOWN, answer


def main():
    if sys.argv[1:] == ["--boxes"]:
        sys.stdout.write("".join(read for _, read, _, _ in all_boxed()))
        return
    if sys.argv[1:] == ["--answers"]:
        sys.stdout.write("".join(line + "\n" for _, _, several, _ in all_boxed() for line in lines_of(several)))
        return
    if not os.path.exists(PROGRAM):
        sys.exit("refusals.py: crates/passes_main/out/passes_main is missing: rt run in crates/passes_main builds it")
    wrong = count = 0
    for name, fine, expected, got in refused():
        count += 1
        if not fine:
            wrong += 1
            print("wrong: %s: expected %s, got %s" % (name, expected, got))
    print("%d cases, %d wrong" % (count, wrong))
    sys.exit(1 if wrong else 0)


if __name__ == "__main__":
    main()
