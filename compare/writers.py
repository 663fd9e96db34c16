#!/usr/bin/env python3
"""The library's calls that write a result's text, projective_grid_write_result and
projective_grid_write_result_piece of c/projective_grid.h, with the role of each
pass as its twelfth word and three role lines (02, 7/14).

    writers.py                    the cases below, their answers by hand
    writers.py --count N          and N lists of words, from a seed, and what the
                                  passes of as many generated frames say, beside
                                  reference.py
    writers.py --seed S           another seed
    writers.py --library PATH     another archive than that of crates/grid_export
                                  (rt lib there makes it); x86-64 and gcc

Of every call its answer is compared, and every place of every buffer: a refused
call changes none, and one that is done writes the front of the text and one or
two numbers, and nothing else.
"""

import argparse
import ctypes
import os
import random
import subprocess
import sys
import tempfile

import cases
import generate
import reference as ref
import words as written

LIBRARY = os.path.join(os.path.dirname(os.path.abspath(__file__)), "..", "crates", "grid_export", "out", "libgrid_export.a")
PLANT, DEPOT, DEALER = range(3)
MOST = 2**32 - 1
MORE = 3  # places of a buffer that are not lent
UNTOUCHED = 0xA5
CELL_LINES = 3 * 16384


# ---- Words and sheets, by hand --------------------------------------------


def grow(attached, none, ambiguous, edge, rim=0, role=PLANT):
    return [0, attached, none, ambiguous, edge, 0, 0, 0, rim, 0, 0, role]


def fill(added, rounds, rim=0, role=PLANT):
    return [1, added, 0, 0, 0, rounds, 0, 0, rim, 0, 0, role]


def local(attached, none, ambiguous, edge, rounds, residual=None, rim=0, unmatched=None, role=PLANT):
    recorded = (0, 0) if residual is None else (1, int(residual, 16))
    shaded = (0, 0) if unmatched is None else (1, unmatched)
    return [2, attached, none, ambiguous, edge, rounds, *recorded, rim, *shaded, role]


def places(cells=(), holes=(), ambiguous=()):
    """A sheet: cells (i, j, corner), marks (i, j)."""
    sheet = [0] * 16384
    for i, j, corner in cells:
        sheet[written.place((i, j))] |= corner + 1
    for cell in holes:
        sheet[written.place(cell)] |= 0x4000
    for cell in ambiguous:
        sheet[written.place(cell)] |= 0x8000
    return sheet


EMPTY = places()
EXAMPLE = places([(0, 0, 0), (1, 0, 1), (2, 0, 2)], [(-1, 0), (0, -1), (0, 1), (1, -1), (1, 1), (2, -1), (2, 1), (3, 0)])


class Lent:
    """A call: from a line on, or the whole text without one. `room` is how many
    places there are for the text, `out` how many for the numbers."""

    def __init__(self, ran, sheet, room, corners=3, start=None, passes=None, out=None):
        self.words = [word for outcome in ran for word in outcome]
        self.passes = len(ran) if passes is None else passes
        self.sheet, self.room, self.corners, self.start = sheet, room, corners, start
        self.out = (1 if start is None else 2) if out is None else out

    def modelled(self, model=ref):
        """The model's answer: a number, or the text, or the text and the next line."""
        if self.start is None:
            return model.write_result(self.corners, self.passes, self.words, self.sheet, self.room, self.out)
        return model.write_piece(self.corners, self.passes, self.words, self.sheet, self.start, self.room, self.out)


def both(name, ran, sheet, room, number, **more):
    """A refusal of the whole text, and of a piece with the same room."""
    yield name, Lent(ran, sheet, room, **more), number
    yield f"{name}, piece", Lent(ran, sheet, max(room, 128), start=0, **more), number


# ---- Whole texts ----------------------------------------------------------


def texts():
    """(name, outcomes, sheet, text)."""
    heading, none = "(result 1)\n", cases.NO_COUNTS
    yield "no pass", [], EMPTY, heading + none
    yield "no pass, a label", [], places([(-64, 63, 2)]), heading + none + "(cell (-64 63) 2)\n"
    for name, role in (("(as plant)", PLANT), ("(as depot)", DEPOT), ("(as dealer)", DEALER)):
        yield f"the example, {name}", [grow(1, 8, 0, 0, role=role)], EXAMPLE, cases.run_by(name, cases.TAKEN)
    yield (
        "two of each, mixed",
        [grow(1, 20, 300, 4000, role=DEALER), fill(5, 2, role=DEPOT), grow(6, 7, 8, 9), fill(10, 64, 1, DEALER),
         local(100, 200, 300, 400, 7, "3f800000", unmatched=5), fill(1, 1, role=DEPOT)],
        EMPTY,
        heading + "(grow 1 20 300 4000 no)\n(fill 5 2 no)\n(grow 6 7 8 9 no)\n(fill 10 64 yes)\n(local 100 200 300 400 7 3f800000 no)\n"
        "(unmatched 5)\n(fill 1 1 no)\n(role plant 106 207 308 409)\n(role depot 6 0 0 0)\n(role dealer 11 20 300 4000)\n",
    )
    # Words that a pass has not are not summed, though they may be other than 0.
    yield (
        "more words of fill and grow",
        [[1, 5, 6, 7, 8, 9, 1, 0x3F800000, 0, 0, 0, DEPOT], [0, 1, 2, 3, 4, 64, 1, 0x3F800000, 1, 0, 0, DEPOT]],
        EMPTY,
        heading + "(fill 5 9 no)\n(grow 1 2 3 4 yes)\n(role plant 0 0 0 0)\n(role depot 6 2 3 4)\n(role dealer 0 0 0 0)\n",
    )
    # Any pass may be any role's here: the writers ask nothing of who may run what.
    yield (
        "a dealer's local",
        [local(1, 2, 3, 4, 5, unmatched=6, role=DEALER)],
        EMPTY,
        heading + "(local 1 2 3 4 5 none no)\n(unmatched 6)\n(role plant 0 0 0 0)\n(role depot 0 0 0 0)\n(role dealer 1 2 3 4)\n",
    )
    most = 1048576
    for name, role in (("plant", PLANT), ("depot", DEPOT), ("dealer", DEALER)):
        sums = {other: "0 0 0 0" for other in ("plant", "depot", "dealer")}
        sums[name] = " ".join(["16777216"] * 4)
        roles = "".join(f"(role {other} {four})\n" for other, four in sums.items())
        line = f"(local {most} {most} {most} {most} 64 7f7fffff yes)\n(unmatched 1073741824)\n"
        yield f"the most, {name}", [local(most, most, most, most, 64, "7f7fffff", 1, 1073741824, role)] * 16, EMPTY, heading + line * 16 + roles


def whole_texts():
    """Each with exactly its room, with one place less (7), and with more."""
    for name, ran, sheet, text in texts():
        yield name, Lent(ran, sheet, len(text)), text
        yield f"{name}, room more", Lent(ran, sheet, len(text) + 200), text
        yield f"{name}, one less", Lent(ran, sheet, len(text) - 1), 7
        yield f"{name}, no number", Lent(ran, sheet, len(text), out=0), 7
        if ran:
            yield f"{name}, a word less", Lent([outcome for outcome in ran[:-1]] + [ran[-1][:-1]], sheet, len(text), passes=len(ran)), 7
        # A word behind the last outcome's is not looked at.
        yield f"{name}, a word more", Lent(ran + [[MOST]], sheet, len(text), passes=len(ran)), text
        yield f"{name}, as one piece", Lent(ran, sheet, len(text) + 200, start=0), (text, len(ran) + 49156)


# ---- Refusals -------------------------------------------------------------


def refusals():
    """3 for a role above 2, and its place in the order 7, 2, 3, 5, 6."""
    ran = [grow(1, 8, 0, 0), fill(0, 1, role=DEALER), local(0, 0, 0, 0, 0, role=DEPOT)]
    room = 4000
    for role in (3, 4, 16, 255, 256, 257, 65535, 65536, 65538, 2**31, MOST - 1, MOST):
        for k in range(3):
            bad = [outcome[:-1] + [role] if k == at else outcome for at, outcome in enumerate(ran)]
            yield from both(f"role {role} of pass {k}", bad, EXAMPLE, room, 3)
    wild = [ran[0], ran[1][:-1] + [3], ran[2]]
    last = [ran[0][:-1] + [MOST]] * 16
    length = len("(result 1)\n(grow 1 8 0 0 no)\n(fill 0 1 no)\n(local 0 0 0 0 0 none no)\n")
    length += len("(role plant 1 8 0 0)\n(role depot 0 0 0 0)\n(role dealer 0 0 0 0)\n")
    yield "role 3, exact room", Lent(wild, EMPTY, length), 3
    yield "role 3, a place too few", Lent(wild, EMPTY, length - 1), 7
    yield "role 3, no room", Lent(wild, EMPTY, 0), 7
    yield "role 3, no number", Lent(wild, EMPTY, length, out=0), 7
    yield "role 3, piece, 127 places", Lent(wild, EMPTY, 127, start=0), 7
    yield "role 3, piece, 128 places", Lent(wild, EMPTY, 128, start=0), 3
    yield "role 3, piece, one number", Lent(wild, EMPTY, 128, start=0, out=1), 7
    yield "role 3, piece, behind the last line", Lent(wild, EMPTY, 128, start=49159), 3
    yield "role 3, a short sheet", Lent(wild, EMPTY[:-1], room), 7
    yield from both("16 of role 2^32 - 1", last, EMPTY, room, 3)
    yield from both("17 of role 2^32 - 1", last + last[:1], EMPTY, room, 2)
    yield "17 of role 2^32 - 1, no room", Lent(last + last[:1], EMPTY, 100), 7
    yield "17 of role 2^32 - 1, piece, 127 places", Lent(last + last[:1], EMPTY, 127, start=0), 7
    yield from both("1,025 corners and role 3", wild, EMPTY, room, 2, corners=1025)
    stranger, doubled = places([(0, 0, 3)]), places([(0, 0, 1), (5, 5, 1)])
    yield from both("role 3 before 5", wild, stranger, room, 3)
    yield from both("role 3 before 6", wild, doubled, room, 3)
    yield from both("5", ran, stranger, room, 5)
    yield from both("6", ran, doubled, room, 6)
    for name, outcome in (
        ("kind 3", [3] + ran[0][1:]),
        ("a count", [0, 1048577] + ran[0][2:]),
        ("an edge count", ran[0][:4] + [MOST] + ran[0][5:]),
        ("rounds", fill(0, 65)),
        ("rim 2", grow(0, 0, 0, 0, 2)),
        ("a residual", local(0, 0, 0, 0, 0, "7f800000")),
        ("unmatched", local(0, 0, 0, 0, 0, unmatched=1073741825)),
        ("unmatched and no shade", grow(0, 0, 0, 0)[:10] + [1, 0]),
        ("a shade of fill", fill(0, 1)[:9] + [1, 0, 0]),
    ):
        for role in (PLANT, DEALER, 3):
            yield from both(f"{name}, role {role}", [outcome[:-1] + [role]], EMPTY, room, 3)


def exact(name, ran, length, number):
    """Words that no outcome has: 7 while the room is below the text's length."""
    yield f"{name}, exact room", Lent(ran, EMPTY, length), number
    yield f"{name}, a place too few", Lent(ran, EMPTY, length - 1), 7
    yield f"{name}, 4,000 places more", Lent(ran, EMPTY, length + 4000), number
    yield f"{name}, piece", Lent(ran, EMPTY, 128, start=0), number


def lengths():
    """The text of words that no outcome has: its role lines have the sums, however
    long they are, and a role above 2 is the dealer's there. All lengths by hand."""
    heading, zeros = len("(result 1)\n"), len("(role plant 0 0 0 0)\n(role depot 0 0 0 0)\n(role dealer 0 0 0 0)\n")
    # Each of four sums is 16 or 17 times 4,294,967,295, with 11 digits in place of one.
    four = [MOST] * 4
    line = len("(grow 4294967295 4294967295 4294967295 4294967295 no)\n")
    assert len(str(16 * MOST)) == len(str(17 * MOST)) == len("68719476720") == 11
    for count, number in ((16, 3), (17, 2)):
        for role in (PLANT, DEPOT, DEALER, 3, MOST):
            yield from exact(f"{count} grows, role {role}", [grow(*four, role=role)] * count, heading + count * line + zeros + 4 * 10, number)
        added = len("(fill 4294967295 4294967295 no)\n")
        yield from exact(f"{count} fills", [fill(MOST, MOST)] * count, heading + count * added + zeros + 10, number)
        every = [1] + [MOST] * 4 + [MOST] + [MOST] * 6
        added = len("(fill 4294967295 4294967295 yes)\n")
        yield from exact(f"{count} fills, every word", [every] * count, heading + count * added + zeros + 10, number)
        every = [MOST] * 12
        whole = len("(local 4294967295 4294967295 4294967295 4294967295 4294967295 ffffffff yes)\n(unmatched 4294967295)\n")
        yield from exact(f"{count} of 2^32 - 1 in every word", [every] * count, heading + count * whole + zeros + 4 * 10, number)
    # Two passes whose sum is 2^32 - 1, or 2^32, or has a digit more than either.
    for one, other in ((MOST - 1, 1), (MOST, 1), (MOST, MOST), (5 * 10**9 - MOST, MOST), (10**10 - 2 * MOST, MOST)):
        digits = len(str(one)) + len(str(other)) + len(str(one + other)) - 3
        line = len("(grow 0 0 0 0 no)\n")
        ran = [grow(one, 0, 0, 0, role=DEPOT), grow(other, 0, 0, 0, role=DEPOT)]
        yield from exact(f"{one} and {other}", ran, heading + 2 * line + zeros + digits, 3)
    # 9 and 1 are 10, a digit more, if both are the dealer's.
    line = len("(grow 9 0 0 0 no)\n")
    for roles, more in (((3, DEALER), 1), ((DEALER, 3), 1), ((MOST, 3), 1), ((3, PLANT), 0), ((3, DEPOT), 0), ((MOST, PLANT), 0)):
        ran = [grow(9, 0, 0, 0, role=roles[0]), grow(1, 0, 0, 0, role=roles[1])]
        yield from exact("9 and 1, roles %d and %d" % roles, ran, heading + 2 * line + zeros + more, 3)
    other = len("(local 1 0 0 0 0 none no)\n")  # any other kind is local
    yield from exact("2 outcomes, the second's kind 3", [grow(9, 0, 0, 0), [3] + grow(1, 0, 0, 0)[1:]], heading + line + other + zeros + 1, 3)
    # More outcomes than can be lent: 12 times their number is not cut off.
    for passes in (1, 2, 17, 2**32, 2**62, 2**63, 2**64 // 12 + 1, 2**64 - 1):
        yield f"{passes} outcomes and no word", Lent([], EMPTY, 4000, passes=passes), 7
        yield f"{passes} outcomes and no word, piece", Lent([], EMPTY, 4000, start=0, passes=passes), 7
    yield from exact("100 outcomes", [grow(1, 1, 1, 1)] * 100, heading + 100 * line + zeros + 4 * 2, 2)


# ---- Pieces ---------------------------------------------------------------


def pieces():
    """A border before each line of the front: with 128 places left before a line it
    is written, with 127 it is not. The lines are counted: the heading, one for each
    pass, three for the roles, 3 times 16,384."""
    ran = [local(1, 20, 300, 4000, 7, "3f800000", unmatched=5), grow(1, 8, 0, 0, role=DEALER), fill(0, 1, role=DEPOT)]
    front = [
        "(result 1)\n",
        "(local 1 20 300 4000 7 3f800000 no)\n(unmatched 5)\n",
        "(grow 1 8 0 0 no)\n",
        "(fill 0 1 no)\n",
        "(role plant 1 20 300 4000)\n",
        "(role depot 0 0 0 0)\n",
        "(role dealer 1 8 0 0)\n",
    ]
    most = 16 * [local(1048576, 1048576, 1048576, 1048576, 64, "7f7fffff", 1, 1073741824, DEALER)]
    long = ["(result 1)\n"] + 16 * ["(local 1048576 1048576 1048576 1048576 64 7f7fffff yes)\n(unmatched 1073741824)\n"]
    long += ["(role plant 0 0 0 0)\n", "(role depot 0 0 0 0)\n", "(role dealer 16777216 16777216 16777216 16777216)\n"]
    # The first cell line that is not empty, by its number behind the role lines, and which line comes behind it.
    for name, some, lines, sheet, place, cell in (
        ("no cell", ran, front, EMPTY, CELL_LINES, ""),
        ("the first place", ran, front, places([(-64, -64, 0)]), 1, "(cell (-64 -64) 0)\n"),
        ("the example", ran, front, EXAMPLE, written.place((0, 0)) + 1, "(cell (0 0) 0)\n"),
        ("a hole", ran, front, places([], [(0, 0)]), 16384 + written.place((0, 0)) + 1, "(hole (0 0))\n"),
        ("the last line", ran, front, places([], [], [(63, 63)]), CELL_LINES, "(ambiguous (63 63))\n"),
        ("no pass", [], front[:1] + cases.NO_COUNTS.splitlines(keepends=True), EXAMPLE, written.place((0, 0)) + 1, "(cell (0 0) 0)\n"),
        ("16 passes", most, long, EXAMPLE, written.place((0, 0)) + 1, "(cell (0 0) 0)\n"),
    ):
        lines = lines + [cell]
        for first in range(len(lines)):
            for behind in range(first + 1, len(lines) + 1):
                text = "".join(lines[first:behind])
                room = len(text) - len(lines[behind - 1]) + 128
                following = behind if behind < len(lines) else len(lines) - 1 + place
                said = f"{name}, lines {first} to {behind}"
                yield said, Lent(some, sheet, room, start=first), (text, following)
                if behind < len(lines):
                    yield f"{said}, 127 left", Lent(some, sheet, len(text) + 127, start=first), (text, behind)
        if cell == "(cell (0 0) 0)\n":
            yield f"{name}, behind the role lines", Lent(some, sheet, 128, start=len(lines) - 1), (cell, len(lines) - 1 + place)
    last = 3 + 49156
    for start, answer in (
        (last, ("", last)),
        (last - 1, ("", last)),
        (last - 3, ("", last)),
        (last - 4, ("", last)),
        (last + 1, 3),
        (last + 2, 3),
        (2**32, 3),
        (2**32 + 4, 3),
        (2**63, 3),
        (2**64 - 1, 3),
    ):
        yield f"from {start}", Lent(ran, EMPTY, 128, start=start), answer
        yield f"from {start}, 127 places", Lent(ran, EMPTY, 127, start=start), 7
    yield "from behind the last line, 17 passes", Lent(ran[1:2] * 17, EMPTY, 128, start=2**64 - 1), 2
    yield "from behind the last line before 5", Lent(ran, places([(0, 0, 3)]), 128, start=last + 1), 3
    yield "from the last line on, 5", Lent(ran, places([(0, 0, 3)]), 128, start=last), 5
    for passes in (0, 1, 16):
        end = passes + 49156
        yield f"the last line, {passes} passes", Lent([grow(0, 0, 0, 0)] * passes, EMPTY, 128, start=end), ("", end)
        yield f"behind it, {passes} passes", Lent([grow(0, 0, 0, 0)] * passes, EMPTY, 128, start=end + 1), 3
    # The three lines of the sheet's last place of each kind, and the numbers of the lines.
    sheet = places([(-64, -64, 0), (63, 63, 1)], [(-64, -64), (63, 63)], [(-64, -64), (63, 63)])
    at = 1 + 3 + 3
    for line, text in (
        (at, "(cell (-64 -64) 0)\n"),
        (at + 16383, "(cell (63 63) 1)\n"),
        (at + 16384, "(hole (-64 -64))\n"),
        (at + 32767, "(hole (63 63))\n"),
        (at + 32768, "(ambiguous (-64 -64))\n"),
        (at + 49151, "(ambiguous (63 63))\n"),
    ):
        yield f"line {line}", Lent(ran, sheet, 128, start=line), (text, line + 1)


def by_hand():
    """All of these: (name, the call, its answer)."""
    for family in (whole_texts(), refusals(), lengths(), pieces()):
        yield from family


# ---- From a seed ----------------------------------------------------------

COUNTS = (0, 1, 9, 10, 99, 1000, 65535, 65536, 999999, 1048575, 1048576)
WILD_COUNTS = (1048577, 2**31 - 1, 2**31, MOST - 1, MOST)


def some_outcome(rng, wild):
    """Twelve words of a pass, or, if wild, with one or two that none has."""
    count = lambda: rng.choice((rng.choice(COUNTS), rng.randrange(1048577), rng.randrange(20)))
    residual = rng.choice((None, "00000000", "3f800000", "7f7fffff", "80000001"))
    unmatched = rng.choice((None, 0, 5, 1073741824))
    role, rim = rng.randrange(3), rng.randrange(2)
    outcome = rng.choice((
        grow(count(), count(), count(), count(), rim, role),
        fill(count(), rng.randrange(65), rim, role),
        local(count(), count(), count(), count(), rng.randrange(65), residual, rim, unmatched, role),
    ))
    for _ in range(wild and rng.choice((1, 1, 2))):
        at = rng.choice((0, 1, 2, 3, 4, 5, 6, 7, 8, 9, 10, 11, 11, 11))
        outcome[at] = rng.choice((3, MOST, 2**31, 65, 256)) if at in (0, 5, 6, 8, 9, 11) else rng.choice(WILD_COUNTS)
    return outcome


def some_sheet(rng, corners):
    cells = rng.sample(range(16384), rng.choice((0, 1, 5, 30)))
    sheet = list(EMPTY)
    numbers = list(range(corners))
    rng.shuffle(numbers)
    for cell in cells:
        if numbers and rng.random() < 0.7:
            sheet[cell] = numbers.pop() + 1
        sheet[cell] |= rng.choice((0, 0x4000, 0x8000, 0xC000))
    if cells and rng.random() < 0.1:
        sheet[cells[0]] = rng.choice((corners + 1, 1024, 0x3FFF, sheet[cells[-1]]))
    return sheet


def drawn(rng):
    """Calls over one list of words: the whole text with its room, one less and
    more, and pieces of some size until the end or a refusal."""
    count = rng.choice((0, 1, 2, 3, 5, 15, 16, 16, 17, 20))
    wild = rng.random() < 0.4
    ran = [some_outcome(rng, wild and rng.random() < 0.4) for _ in range(count)]
    corners = rng.choice((0, 1, 3, 50, 1024, 1024, 1025))
    sheet = some_sheet(rng, corners)
    length = len("".join(ref.counted_lines(ref.outcomes(count, [word for outcome in ran for word in outcome]), sheet)))
    for room in (length, length - 1, length + rng.randrange(200)):
        yield Lent(ran, sheet, room, corners)
    room, start = rng.choice((127, 128, 129, 200, 1000, 4096)), 0
    for _ in range(40):
        piece = Lent(ran, sheet, room, corners, start)
        yield piece
        answer = piece.modelled()
        if isinstance(answer, int) or answer[1] == start or not rng.random() < 0.9:
            break
        start = answer[1]
    start = rng.choice((0, 1, *(count + more for more in (0, 1, 2, 3, 4, 49155, 49156, 49157))))
    yield Lent(ran, sheet, room, corners, start)


def words_of(line, unmatched, role):
    """The twelve words of a pass from its line."""
    kind, *parts = line.strip("()").split(" ")
    rim = int(parts.pop() == "yes")
    if kind == "grow":
        return grow(*map(int, parts), rim, role)
    if kind == "fill":
        return fill(*map(int, parts), rim, role)
    *numbers, residual = parts
    return local(*map(int, numbers), None if residual == "none" else residual, rim, unmatched, role)


def of_frame(data):
    """What a frame's passes say, as words, and its result."""
    frame = ref.read(data)
    sheet, ran = frame.given(), []
    for number, role in enumerate(frame.roles):
        answer = ref.run_pass(frame, sheet, number)
        ran.append(words_of(answer.line, answer.unmatched, ref.ROLES.index(role)))
    cells = [(i, j, corner) for (i, j), corner in sheet.corner.items()]
    return ran, places(cells, sheet.holes, sheet.ambiguous), len(frame.x), ref.result(data)


# ---- The library ----------------------------------------------------------


class Library:
    def __init__(self, archive, folder):
        shared = os.path.join(folder, "writers.so")
        subprocess.run(["gcc", "-shared", "-o", shared, "-Wl,--whole-archive", archive, "-Wl,--no-whole-archive"], check=True)
        loaded = ctypes.CDLL(shared)
        size, start = ctypes.c_size_t, ctypes.c_void_p
        self.whole, self.piece = loaded.projective_grid_write_result, loaded.projective_grid_write_result_piece
        self.whole.argtypes = [size, size, start, size, start, size, start, size, start, size]
        self.piece.argtypes = [size, size, start, size, start, size, size, start, size, start, size]
        self.whole.restype = self.piece.restype = ctypes.c_uint32

    def answer(self, lent):
        """The answer as the model's; raises ValueError where a place is other than it has to be."""
        words = (ctypes.c_uint32 * (len(lent.words) + MORE))(*lent.words, *[UNTOUCHED] * MORE)
        sheet = (ctypes.c_uint16 * (len(lent.sheet) + MORE))(*lent.sheet, *[UNTOUCHED] * MORE)
        text = (ctypes.c_uint8 * (lent.room + MORE))(*[UNTOUCHED] * (lent.room + MORE))
        out = (ctypes.c_uint32 * (lent.out + MORE))(*[UNTOUCHED] * (lent.out + MORE))
        before = [bytes(buffer) for buffer in (words, sheet, text, out)]
        lists = [ctypes.addressof(words), len(lent.words), ctypes.addressof(sheet), len(lent.sheet)]
        rest = [ctypes.addressof(text), lent.room, ctypes.addressof(out), lent.out]
        if lent.start is None:
            number = self.whole(lent.corners, lent.passes, *lists, *rest)
        else:
            number = self.piece(lent.corners, lent.passes, *lists, lent.start, *rest)
        after = [bytes(buffer) for buffer in (words, sheet, text, out)]
        bytes_out, numbers = (0, 0) if number else (out[0], 1 if lent.start is None else 2)
        if bytes_out > lent.room:
            raise ValueError(f"{bytes_out} bytes in {lent.room} places")
        for kept, now, front in zip(before, after, (0, 0, bytes_out, 4 * numbers)):
            if kept[front:] != now[front:]:
                raise ValueError("a place that is not written was changed")
        if number:
            return number
        said = after[2][:bytes_out].decode("latin-1")
        return said if lent.start is None else (said, out[1])


class Run:
    def __init__(self, library):
        self.library = library
        self.count = self.refused = self.wrong = 0

    def call(self, name, lent, expected):
        try:
            got = self.library.answer(lent)
        except ValueError as why:
            got = str(why)
        self.count += 1
        self.refused += isinstance(expected, int)
        if got != expected:
            self.wrong += 1
            print(f"wrong: {name}: expected {expected!r}, got {got!r}"[:600])

    def say(self, what):
        print(f"{what}: {self.count} calls, {self.refused} refused, {self.wrong} wrong", flush=True)
        self.count = self.refused = 0


def main():
    options = argparse.ArgumentParser(description=__doc__, formatter_class=argparse.RawDescriptionHelpFormatter)
    options.add_argument("--count", type=int, default=0)
    options.add_argument("--seed", type=int, default=1)
    options.add_argument("--library", default=LIBRARY)
    options = options.parse_args()
    if not os.path.exists(options.library):
        sys.exit("writers.py: crates/grid_export/out/libgrid_export.a is missing: rt lib in crates/grid_export makes it")
    with tempfile.TemporaryDirectory() as folder:
        run = Run(Library(options.library, folder))
        for name, lent, expected in by_hand():
            run.call(name, lent, expected)
        run.say("by hand")
        for number in range(options.count):
            for k, lent in enumerate(drawn(random.Random(f"writers {options.seed} {number}"))):
                run.call(f"{options.seed}-{number}, call {k}", lent, lent.modelled())
        if options.count:
            run.say("from a seed")
        for name, data in generate.frames(options.seed, options.count):
            try:
                ran, sheet, corners, text = of_frame(data)
            except ref.Refused:
                continue
            run.call(name, Lent(ran, sheet, len(text), corners), text)
            run.call(f"{name}, one less", Lent(ran, sheet, len(text) - 1, corners), 7)
        if options.count:
            run.say("generated frames")
    return 1 if run.wrong else 0


if __name__ == "__main__":
    sys.exit(main())
