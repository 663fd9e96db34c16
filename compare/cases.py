#!/usr/bin/env python3
"""Frames that try the reader and the printer: every refusal, the order of the
checks, exact limits, damage, shades (02, 1/14), bare grow (02, 2/14), two patches
(02, 3/14), roles (02, 6/14) and their counts (02, 7/14), and results longer than
the output buffer.

    cases.py               checks reference.py against the refusals written here
    cases.py --out FOLDER  writes each case as NAME.frame and NAME.result

A refusal that is written beside its frame comes from 01's table by hand, or from
02's, as do a few whole results; where none is written, the result is that of
reference.py.
"""

import argparse
import os
import random
import re

import generate
import reference

HEAD = [
    "(frame 1)",
    "(cell 41200000)",
    "(axes (3f800000 00000000) (00000000 3f800000))",
    "(band 3e800000)",
]
CORNERS = [
    "(corner (41200000 41200000) 00000000)",
    "(corner (41a00000 41200000) 00000000)",
    "(corner (41f00000 41200000) 00000000)",
]
LABELS = ["(label 0 (0 0))", "(label 1 (1 0))"]
PASSES = ["(grow)"]
EXAMPLE = HEAD + CORNERS + LABELS + PASSES
# 01's example with shades, on lines 10 and 11; corner 2 stands where cell (2, 0)
# is expected, which takes kind 0.
SHADES = ["(shade 2 0)", "(shade 0 1)"]
LOCAL = "(local 3eb33333 3fc00000 1 3e800000 1)"
SHADED = HEAD + CORNERS + LABELS + SHADES + PASSES + [LOCAL]

# 01's example with its labels in two sets, the patch line being line 9, and with
# shades on lines 12 and 13. The join moves the second set by (-5 3).
SECOND = ["(label 0 (5 -3))", "(label 1 (6 -3))"]
PATCHED = HEAD + CORNERS + LABELS[:1] + ["(patch)"] + SECOND + SHADES + PASSES + [LOCAL]

# By hand: the role lines of a result whose passes count nothing; 01's result of its example with the role lines that 02, 7/14,
# says there, and that of the example where corner 2 is no candidate.
NO_COUNTS = """(role plant 0 0 0 0)
(role depot 0 0 0 0)
(role dealer 0 0 0 0)
"""
TAKEN = """(result 1)
(grow 1 8 0 0 no)
(role plant 1 8 0 0)
(role depot 0 0 0 0)
(role dealer 0 0 0 0)
(cell (0 0) 0)
(cell (1 0) 1)
(cell (2 0) 2)
(hole (-1 0))
(hole (0 -1))
(hole (0 1))
(hole (1 -1))
(hole (1 1))
(hole (2 -1))
(hole (2 1))
(hole (3 0))
"""
NOT_TAKEN = """(result 1)
(grow 0 6 0 0 no)
(role plant 0 6 0 0)
(role depot 0 0 0 0)
(role dealer 0 0 0 0)
(cell (0 0) 0)
(cell (1 0) 1)
(hole (-1 0))
(hole (0 -1))
(hole (0 1))
(hole (1 -1))
(hole (1 1))
(hole (2 0))
"""

# 01's example with a pass of each role, the as lines being lines 10, 12 and 14. The
# full lines mean what the bare ones mean.
FRONT = HEAD + CORNERS + LABELS
GROW, FILL = "(grow 3eb33333 3fc00000 3fa00000)", "(fill 3eb33333 3fc00000 1)"
ROLES = DEALER, DEPOT, PLANT = "(as dealer)", "(as depot)", "(as plant)"
ROLED = FRONT + [DEALER, "(grow)", DEPOT, FILL, PLANT, LOCAL]

BUFFER = 4096  # the program's output buffer
LEAST = 128  # it is written out when fewer bytes are left
MOST_BYTES = 65536  # of a frame


def text(lines):
    return "".join(line + "\n" for line in lines).encode()


def run_by(role, result):
    """The result whose passes are the plant's, with another role in its place."""
    line = result.split("(role plant ")[1].split("\n")[0]
    ours = NO_COUNTS.replace(f"{role[4:-1]} 0 0 0 0)", f"{role[4:-1]} {line}")
    return result.replace(NO_COUNTS.replace("plant 0 0 0 0)", f"plant {line}"), ours)


def refused(number, line):
    return f"(refused {number} {line})\n"


def changed(number, line, lines=EXAMPLE):
    """The frame with one line put in place of another, counted from 1."""
    return text(lines[: number - 1] + [line] + lines[number:])


def put_in(number, line, lines=EXAMPLE):
    """The frame with a line more, before the one of that number."""
    return text(lines[: number - 1] + [line] + lines[number - 1 :])


def corner(x="41200000", y="41200000", pitch="00000000"):
    return f"(corner ({x} {y}) {pitch})"


# ---- 1, bent


def bent():
    yield "bent-empty", b"", refused(1, 1)
    yield "bent-one-lf", b"\n", refused(1, 1)
    for number, line in enumerate(EXAMPLE, 1):
        cut = text(EXAMPLE[: number - 1])
        if number <= 4:
            yield f"bent-stops-before-{number}", cut, refused(1, number)
        yield f"bent-no-lf-{number}", cut + line.encode(), refused(1, number)
        yield f"bent-half-{number}", cut + line[:5].encode(), refused(1, number)
        yield f"bent-empty-line-{number}", put_in(number, ""), refused(1, number)
        yield f"bent-cr-{number}", changed(number, line + "\r"), refused(1, number)
        yield f"bent-space-behind-{number}", changed(number, line + " "), refused(1, number)
        yield f"bent-space-before-{number}", changed(number, " " + line), refused(1, number)
        yield f"bent-nul-{number}", changed(number, line + "\0"), refused(1, number)
        if number > 1:
            yield f"bent-two-spaces-{number}", changed(number, line.replace(" ", "  ", 1) if " " in line else line + "  "), refused(1, number)
            yield f"bent-tab-{number}", changed(number, line.replace(" ", "\t", 1) if " " in line else line + "\t"), refused(1, number)
        yield f"bent-bracket-{number}", changed(number, line[:-1]), refused(1, number)
        yield f"bent-bracket-more-{number}", changed(number, line + ")"), refused(1, number)
        yield f"bent-high-byte-{number}", changed(number, line).replace(line.encode(), line.encode()[:-1] + b"\xff"), refused(1, number)
    yield "bent-trailing", text(EXAMPLE) + b"x", refused(1, 11)
    yield "bent-trailing-lf", text(EXAMPLE) + b"\n", refused(1, 11)
    yield "bent-frame-2", changed(1, "(frame 2)"), refused(1, 1)
    yield "bent-frame-01", changed(1, "(frame 01)"), refused(1, 1)
    yield "bent-upper-word", changed(2, "(Cell 41200000)"), refused(1, 2)
    yield "bent-upper-hex", changed(2, "(cell 4120000A)"), refused(1, 2)
    yield "bent-seven-digits", changed(2, "(cell 4120000)"), refused(1, 2)
    yield "bent-nine-digits", changed(2, "(cell 412000000)"), refused(1, 2)
    yield "bent-digit-g", changed(2, "(cell 4120000g)"), refused(1, 2)
    yield "bent-axes-three", changed(3, "(axes (3f800000 00000000) (00000000))"), refused(1, 3)
    yield "bent-two-cells", put_in(3, HEAD[1]), refused(1, 3)
    yield "bent-swapped-head", text([HEAD[0], HEAD[2], HEAD[1], HEAD[3]] + EXAMPLE[4:]), refused(1, 2)
    yield "bent-no-band", text(HEAD[:3] + EXAMPLE[4:]), refused(1, 4)
    yield "bent-frame-twice", put_in(5, HEAD[0]), refused(1, 5)
    yield "bent-band-twice", put_in(5, HEAD[3]), refused(1, 5)
    yield "bent-corner-after-label", put_in(9, CORNERS[0]), refused(1, 9)
    yield "bent-corner-after-pass", put_in(11, CORNERS[0]), refused(1, 11)
    yield "bent-label-after-pass", put_in(11, "(label 2 (5 5))"), refused(1, 11)
    yield "bent-bare-local", changed(10, "(local)"), refused(1, 10)
    yield "bent-unknown-pass", changed(10, "(shrink)"), refused(1, 10)
    yield "bent-grow-two", changed(10, "(grow 3eb33333 3fc00000)"), refused(1, 10)
    yield "bent-fill-float-rounds", changed(10, "(fill 3eb33333 3fc00000 3f800000 )"), refused(1, 10)
    yield "bent-local-four", changed(10, "(local 3eb33333 3fc00000 1 3e800000)"), refused(1, 10)
    for name, number in (("zero-zero", "00"), ("leading-zero", "01"), ("plus", "+1"), ("minus-zero", "-0"), ("minus-zero-one", "-01"), ("minus", "-"), ("two-minus", "--1"), ("none", ""), ("hex", "a"), ("point", "1.0")):
        yield f"bent-corner-number-{name}", changed(8, f"(label {number} (0 0))"), refused(1, 8)
        yield f"bent-cell-i-{name}", changed(8, f"(label 0 ({number} 0))"), refused(1, 8)
        yield f"bent-cell-j-{name}", changed(8, f"(label 0 (0 {number}))"), refused(1, 8)
        yield f"bent-rounds-{name}", changed(10, f"(fill 3eb33333 3fc00000 {number})"), refused(1, 10)
        yield f"bent-depth-{name}", changed(10, f"(local 3eb33333 3fc00000 1 3e800000 {number})"), refused(1, 10)


# ---- 2, overfull


def many_corners(count):
    return [corner(x=reference.to_hex(float(k)), y=reference.to_hex(float(k % 7))) for k in range(count)]


def overfull():
    for size, answer in ((65536, None), (65537, refused(2, 0))):
        lines = HEAD + many_corners(1024)
        data = text(lines)
        row = 0
        while True:  # labels, as long as they fit
            line = f"(label {row} ({row // 128 - 64} {row % 128 - 64}))\n".encode()
            if len(data) + len(line) > size - 200 or row == 1024:
                break
            data += line
            row += 1
        left = size - len(data)
        # a pass whose rounds are a number of many digits would be wild: fill up with passes, then with one long corner number
        yield f"bytes-{size}-digits", data + b"(label " + b"9" * (left - 15) + b" (0 0))\n", answer or refused(5, 5 + 1024 + row)
    yield "bytes-65537-junk", b"x" * 65537, refused(2, 0)
    yield "bytes-65536-junk", b"x" * 65536, refused(1, 1)
    yield "bytes-65537-lf", b"\n" * 65537, refused(2, 0)
    yield "bytes-200000", text(EXAMPLE) + b"\n" * 200000, refused(2, 0)
    yield "corners-1024", text(HEAD + many_corners(1024) + ["(label 1023 (0 0))", "(fill)"]), None
    yield "corners-1025", text(HEAD + many_corners(1025)), refused(2, 1029)
    yield "corners-1025-wild", text(HEAD + many_corners(1024) + [corner(x="7f800000")]), refused(2, 1029)
    yield "corners-1025-bent", text(HEAD + many_corners(1024) + [corner(x="7F800000")]), refused(1, 1029)
    yield "corners-1024-wild", text(HEAD + many_corners(1023) + [corner(x="7f800000")] + many_corners(9)), refused(3, 1028)
    yield "passes-16", text(EXAMPLE + PASSES * 15), None
    yield "passes-17", text(EXAMPLE + PASSES * 16), refused(2, 26)
    yield "passes-17-wild", text(EXAMPLE + PASSES * 15 + ["(grow 7fc00000 3fc00000 40000000)"]), refused(2, 26)
    yield "passes-17-bent", text(EXAMPLE + PASSES * 15 + ["(local)"]), refused(1, 26)
    yield "passes-17-rounds", text(EXAMPLE + PASSES * 15 + ["(fill 3eb33333 3fc00000 65)"]), refused(2, 26)
    yield "passes-16-mixed", text(EXAMPLE + ["(fill)", "(local 3eb33333 3fc00000 1 3e800000 1)", "(grow)"] * 5), None


# ---- 3, wild

NOT_FINITE = ("7f800000", "ff800000", "7fc00000", "7f800001", "ffffffff")


def wild():
    ranges = {  # in range, and out of it
        "cell": (2, lambda v: f"(cell {v})", ("3a800000", "46800000"), ("3a7fffff", "46800001", "00000000", "80000000", "c1200000")),
        "axis-ix": (3, lambda v: f"(axes ({v} 00000000) (00000000 3f800000))", ("40800000", "c0800000", "80000000"), ("40800001", "c0800001")),
        "axis-iy": (3, lambda v: f"(axes (3f800000 {v}) (00000000 3f800000))", ("40800000", "c0800000"), ("40800001", "c0800001")),
        "axis-jx": (3, lambda v: f"(axes (3f800000 00000000) ({v} 3f800000))", ("40800000", "c0800000"), ("40800001", "c0800001")),
        "axis-jy": (3, lambda v: f"(axes (3f800000 00000000) (00000000 {v}))", ("40800000", "c0800000"), ("40800001", "c0800001")),
        "band": (4, lambda v: f"(band {v})", ("00000000", "80000000", "40800000"), ("40800001", "80000001", "bf800000")),
        "x": (6, lambda v: corner(x=v), ("46800000", "c6800000", "80000000", "00000001"), ("46800001", "c6800001")),
        "y": (6, lambda v: corner(y=v), ("46800000", "c6800000", "80000000"), ("46800001", "c6800001")),
        "pitch": (6, lambda v: corner(pitch=v), ("00000000", "80000000", "46800000", "00000001"), ("46800001", "80000001", "c1200000")),
        "grow-search": (10, lambda v: f"(grow {v} 3fc00000 40000000)", ("00000000", "41800000", "80000000"), ("41800001", "80000001")),
        "grow-factor": (10, lambda v: f"(grow 3eb33333 {v} 40000000)", ("00000000", "447a0000"), ("447a0001", "80000001")),
        "grow-boundary": (10, lambda v: f"(grow 3eb33333 3fc00000 {v})", ("00000000", "41800000"), ("41800001", "bf800000")),
        "fill-search": (10, lambda v: f"(fill {v} 3fc00000 1)", ("00000000", "41800000"), ("41800001", "80000001")),
        "fill-factor": (10, lambda v: f"(fill 3eb33333 {v} 1)", ("00000000", "447a0000"), ("447a0001", "80000001")),
        "local-search": (10, lambda v: f"(local {v} 3fc00000 1 3e800000 1)", ("00000000", "41800000"), ("41800001", "80000001")),
        "local-factor": (10, lambda v: f"(local 3eb33333 {v} 1 3e800000 1)", ("00000000", "447a0000"), ("447a0001", "80000001")),
        "local-residual": (10, lambda v: f"(local 3eb33333 3fc00000 1 {v} 1)", ("00000000", "41800000"), ("41800001", "80000001")),
    }
    for name, (number, line, inside, outside) in ranges.items():
        for v in inside:
            yield f"fine-{name}-{v}", changed(number, line(v)), None
        for v in outside + NOT_FINITE:
            yield f"wild-{name}-{v}", changed(number, line(v)), refused(3, number)
    counts = {
        "fill-rounds": (lambda v: f"(fill 3eb33333 3fc00000 {v})", 64),
        "local-rounds": (lambda v: f"(local 3eb33333 3fc00000 {v} 3e800000 1)", 64),
        "local-depth": (lambda v: f"(local 3eb33333 3fc00000 1 3e800000 {v})", 4),
    }
    for name, (line, most) in counts.items():
        for v in (0, 1, most):
            yield f"fine-{name}-{v}", changed(10, line(v)), None
        for v in (-1, most + 1, 2**32, 2**32 + 1, 2**64, 2**64 + 1, -(2**64)):
            yield f"wild-{name}-{v}", changed(10, line(v)), refused(3, 10)
        yield f"wild-{name}-long", changed(10, line("1" + "0" * 9999)), refused(3, 10)


# ---- 4, 5 and 6: off sheet, stranger, doubled


def labels():
    for i, j in ((-64, -64), (63, 63), (-64, 63), (63, -64)):
        yield f"fine-cell-{i}-{j}", changed(8, f"(label 0 ({i} {j}))"), None
    for i, j in ((-65, 0), (64, 0), (0, -65), (0, 64), (2**32, 0), (0, 2**32), (2**64, 0), (-(2**64), 0), (0, -(2**31))):
        yield f"off-sheet-{i}-{j}", changed(8, f"(label 0 ({i} {j}))"), refused(4, 8)
    yield "off-sheet-long", changed(8, f"(label 0 ({'7' * 10000} 0))"), refused(4, 8)
    yield "off-sheet-long-minus", changed(8, f"(label 0 (0 -{'7' * 10000}))"), refused(4, 8)
    for k in (3, -1, 1024, 2**16, 2**32, 2**32 + 1, 2**64, 2**64 + 1, -(2**32)):
        yield f"stranger-{k}", changed(9, f"(label {k} (5 5))"), refused(5, 9)
    yield "stranger-long", changed(9, f"(label {'1' * 10000} (5 5))"), refused(5, 9)
    yield "stranger-no-corners", text(HEAD + ["(label 0 (0 0))"]), refused(5, 5)
    yield "off-sheet-before-stranger", changed(9, "(label 3 (64 0))"), refused(4, 9)
    yield "off-sheet-before-doubled", changed(9, "(label 0 (64 0))"), refused(4, 9)
    yield "stranger-before-doubled", changed(9, "(label 3 (0 0))"), refused(5, 9)
    yield "doubled-cell", changed(9, "(label 1 (0 0))"), refused(6, 9)
    yield "doubled-corner", changed(9, "(label 0 (1 0))"), refused(6, 9)
    yield "doubled-both", changed(9, "(label 0 (0 0))"), refused(6, 9)
    yield "doubled-far", put_in(10, "(label 0 (63 63))"), refused(6, 10)
    yield "doubled-then-bent", text(EXAMPLE[:8] + ["(label 1 (0 0))", "(nonsense)"]), refused(6, 9)
    yield "bent-then-doubled", text(EXAMPLE[:8] + ["(label 1 (0 0)", "(label 1 (0 0))"]), refused(1, 9)
    yield "wild-then-stranger", text(HEAD + [corner(x="7f800000")] + CORNERS + ["(label 9 (0 0))"]), refused(3, 5)


# ---- shades: 1, 5 and 6


def spoilt(line):
    """Ways to spoil a line's form."""
    yield "cr", line + "\r"
    yield "space-behind", line + " "
    yield "space-before", " " + line
    yield "nul", line + "\0"
    yield "two-spaces", line.replace(" ", "  ", 1)
    yield "two-spaces-last", "  ".join(line.rsplit(" ", 1))
    yield "tab", line.replace(" ", "\t", 1)
    yield "bracket", line[:-1]
    yield "bracket-more", line + ")"
    yield "bracket-before", "(" + line
    yield "one-number", line.rsplit(" ", 1)[0] + ")"
    yield "three-numbers", line[:-1] + " 0)"
    yield "cell", "(shade (0 0) 0)"
    yield "upper", line.replace("s", "S")
    yield "plural", line.replace("shade", "shades")
    yield "high-byte", line[:-1] + "\u0101"


def bent_shades():
    for number in (10, 11):
        line, cut = SHADED[number - 1], text(SHADED[: number - 1])
        yield f"shade-no-lf-{number}", cut + line.encode(), refused(1, number)
        yield f"shade-half-{number}", cut + line[:5].encode(), refused(1, number)
        yield f"shade-empty-line-{number}", put_in(number, "", SHADED), refused(1, number)
        for name, bad in spoilt(line):
            yield f"shade-{name}-{number}", changed(number, bad, SHADED), refused(1, number)
    for name, k in (("zero-zero", "00"), ("leading-zero", "01"), ("plus", "+1"), ("minus-zero", "-0"), ("minus", "-"), ("none", ""), ("hex", "a"), ("point", "1.0"), ("float", "3f800000")):
        yield f"shade-kind-{name}", changed(11, f"(shade 0 {k})", SHADED), refused(1, 11)
        yield f"shade-corner-{name}", changed(11, f"(shade {k} 0)", SHADED), refused(1, 11)
    for k in (2, 3, -1, -2, 10, 255, 256, 2**16, 2**32, 2**32 + 1, 2**64, 2**64 + 1, -(2**32)):
        yield f"shade-kind-{k}", changed(11, f"(shade 0 {k})", SHADED), refused(1, 11)
    yield "shade-kind-long", changed(11, f"(shade 0 {'1' * 10000})", SHADED), refused(1, 11)
    yield "shade-kind-first-line", changed(10, "(shade 2 2)", SHADED), refused(1, 10)


def misplaced_shades():
    for number in range(2, 5):
        yield f"shade-in-heading-{number}", put_in(number, "(shade 0 0)"), refused(1, number)
    yield "shade-before-corners", put_in(5, "(shade 0 0)"), refused(5, 5)
    yield "shade-for-heading", changed(4, "(shade 0 0)"), refused(1, 4)
    yield "corner-after-shade", put_in(6, "(shade 0 0)"), refused(1, 7)
    yield "label-after-shade", put_in(8, "(shade 0 0)"), refused(1, 9)
    yield "label-between-shades", put_in(11, "(label 2 (5 5))", SHADED), refused(1, 11)
    yield "corner-between-shades", put_in(11, CORNERS[0], SHADED), refused(1, 11)
    yield "label-behind-shades", put_in(12, "(label 2 (5 5))", SHADED), refused(1, 12)
    yield "wild-corner-behind-shades", put_in(12, corner(x="7f800000"), SHADED), refused(1, 12)
    yield "shade-after-pass", put_in(11, "(shade 0 0)"), refused(1, 11)
    yield "shade-between-passes", put_in(13, "(shade 1 0)", SHADED), refused(1, 13)
    yield "shade-twice-after-pass", put_in(14, "(shade 2 0)", SHADED), refused(1, 14)
    yield "stranger-after-pass", put_in(14, "(shade 99 0)", SHADED), refused(1, 14)
    yield "shade-and-17-passes", text(SHADED + PASSES * 15), refused(2, 28)


def strange_shades():
    """5 and 6, and which of two faults on one line counts."""
    for k in (3, -1, 99, 1024, 2**16, 2**32, 2**32 + 1, 2**64, 2**64 + 1, -(2**32)):
        for number in (10, 11):
            yield f"shade-stranger-{k}-{number}", changed(number, f"(shade {k} {number % 2})", SHADED), refused(5, number)
    yield "shade-stranger-long", changed(11, f"(shade {'1' * 10000} 0)", SHADED), refused(5, 11)
    yield "shade-stranger-no-corners", text(HEAD + ["(shade 0 0)"]), refused(5, 5)
    yield "shade-1024-of-1024", text(HEAD + many_corners(1024) + ["(shade 1023 1)", "(shade 1024 1)"]), refused(5, 1030)
    yield "shade-doubled", changed(11, "(shade 2 0)", SHADED), refused(6, 11)
    yield "shade-doubled-other-kind", changed(11, "(shade 2 1)", SHADED), refused(6, 11)
    yield "shade-doubled-far", put_in(12, "(shade 2 1)", SHADED), refused(6, 12)
    yield "shade-doubled-last-corner", text(HEAD + many_corners(1024) + ["(shade 1023 1)", "(shade 1023 1)"]), refused(6, 1030)
    yield "shade-1-before-5", changed(11, "(shade 99 2)", SHADED), refused(1, 11)
    yield "shade-1-before-5-minus", changed(11, "(shade -1 -1)", SHADED), refused(1, 11)
    yield "shade-1-before-6", changed(11, "(shade 2 2)", SHADED), refused(1, 11)
    yield "shade-5-twice", text(SHADED[:9] + ["(shade 99 0)"] * 2), refused(5, 10)
    yield "shade-5-then-1", text(SHADED[:9] + ["(shade 99 0)", "(shade 0 2)"]), refused(5, 10)
    yield "shade-1-then-5", text(SHADED[:9] + ["(shade 0 2)", "(shade 99 0)"]), refused(1, 10)
    yield "shade-6-then-1", text(SHADED[:10] + ["(shade 2 0)", "(nonsense)"]), refused(6, 11)
    yield "shade-1-then-6", text(SHADED[:10] + ["(shade 2 0", "(shade 2 0)"]), refused(1, 11)
    yield "label-6-then-shade-1", text(EXAMPLE[:8] + ["(label 0 (5 5))", "(shade 0 2)"]), refused(6, 9)
    yield "shade-bytes-65537", (text(HEAD + many_corners(1024)) + b"(shade 0 0)\n" * 2500)[:65537], refused(2, 0)
    yield "shade-bytes-65536", (text(HEAD + many_corners(1024)) + b"(shade 0 0)\n" * 2500)[:65536], refused(6, 1030)


def whole_shades():
    """Accepted frames with shades; a few results by hand."""
    front = HEAD + CORNERS + LABELS
    yield "shades", text(SHADED), None
    yield "shade-own-kind", text(front + ["(shade 2 0)"] + PASSES), TAKEN
    yield "shade-labels-not-tested", text(front + ["(shade 1 0)", "(shade 0 1)", "(shade 2 0)"] + PASSES), TAKEN
    yield "shade-other-kind", text(front + ["(shade 2 1)"] + PASSES), NOT_TAKEN
    yield "shade-on-label-only", text(front + ["(shade 0 0)"] + PASSES), NOT_TAKEN
    yield "shade-on-label-only-other", text(front + ["(shade 0 1)"] + PASSES), NOT_TAKEN
    yield "shade-no-labels", text(HEAD + CORNERS + ["(shade 1 0)"] + PASSES), "(result 1)\n(grow 0 0 0 0 no)\n" + NO_COUNTS
    yield "shade-no-passes", text(front + SHADES), f"(result 1)\n{NO_COUNTS}(cell (0 0) 0)\n(cell (1 0) 1)\n"
    local = "(local 0 0 0 0 0 none no)\n(unmatched 0)\n"
    yield "shade-local-few-labels", text(front + SHADES + [LOCAL]), f"(result 1)\n{local}{NO_COUNTS}(cell (0 0) 0)\n(cell (1 0) 1)\n"
    yield "shade-local-16", text(front + SHADES + [LOCAL] * 16), f"(result 1)\n{local * 16}{NO_COUNTS}(cell (0 0) 0)\n(cell (1 0) 1)\n"
    yield "shade-falling", text(front + ["(shade 2 0)", "(shade 1 1)", "(shade 0 0)"] + PASSES), TAKEN
    square = [corner(x, "41a00000") for x in ("41200000", "41a00000", "41f00000")]
    labels = ["(label 3 (0 1))", "(label 4 (1 1))"]
    for shades in ((), ((2, 0),), ((2, 1),), ((5, 1),), ((5, 0), (2, 0)), ((0, 0),), ((2, 0), (5, 1))):
        for search in ("3eb33333", "3fa00000"):
            for rounds in (0, 1, 3):
                lines = HEAD + CORNERS + square + LABELS + labels + [f"(shade {n} {k})" for n, k in shades]
                name = "-".join(f"{n}-{k}" for n, k in shades) or "none"
                passes = [f"(local {search} 3fc00000 {rounds} 3e800000 1)", "(fill)"]
                yield f"shade-local-{name}-{search}-{rounds}", text(lines + passes), None
    kinds = [f"(shade {n} {n % 2})" for n in range(1024)]
    yield "shades-1024", text(HEAD + many_corners(1024) + ["(label 0 (0 0))"] + kinds + ["(fill)"]), None
    for size in range(len(text(SHADED))):
        yield f"shades-cut-{size}", text(SHADED)[:size], None


# ---- bare grow


def bare_grow():
    """The example with corner 2 beside (30, 10), where cell (2, 0) is expected, past
    the labels: search 0.35 in cells of 10 is 3.5 in binary32, so 4.375 with boundary
    1.25 and 7 with 2.0. All results by hand."""
    full = "(grow 3eb33333 3fc00000 {})".format
    for name, y, narrow, wide in (
        ("there", "41200000", TAKEN, TAKEN),
        ("by-4.375", "41660000", TAKEN, TAKEN),
        ("past-4.375", "41660001", NOT_TAKEN, TAKEN),
        ("by-5", "41700000", NOT_TAKEN, TAKEN),
        ("by-7", "41880000", NOT_TAKEN, TAKEN),
        ("past-7", "41880001", NOT_TAKEN, NOT_TAKEN),
    ):
        front = HEAD + CORNERS[:2] + [corner("41f00000", y)] + LABELS
        yield f"grow-bare-{name}", text(front + ["(grow)"]), narrow
        yield f"grow-written-{name}", text(front + [full("3fa00000")]), narrow
        yield f"grow-old-{name}", text(front + [full("40000000")]), wide
    # Each line has its own meaning: the second grow finds the corner, and the hole of the first stays.
    both = TAKEN.replace("(grow 1 8", "(grow 0 6 0 0 no)\n(grow 1 8").replace("(hole (2 1))\n", "(hole (2 0))\n(hole (2 1))\n")
    both = both.replace("(role plant 1 8", "(role plant 1 14")
    front = HEAD + CORNERS[:2] + [corner("41f00000", "41700000")] + LABELS
    yield "grow-bare-then-old", text(front + ["(grow)", full("40000000")]), both


# ---- two patches: 8, 9 and 4 at the patch line


def patched(first, second, rest=(), corners=CORNERS):
    """A frame with two sets of labels (corner, i, j). With three corners the
    patch line is line 8 and as many more as the first set has labels."""
    sets = [[f"(label {n} ({i} {j}))" for n, i, j in labels] for labels in (first, second)]
    return text(HEAD + list(corners) + sets[0] + ["(patch)"] + sets[1] + list(rest))


def given(labels):
    """The result of a frame without passes: its labels (corner, i, j)."""
    cells = sorted((i, j, n) for n, i, j in labels)
    return f"(result 1)\n{NO_COUNTS}" + "".join(f"(cell ({i} {j}) {n})\n" for i, j, n in cells)


ONE, TWO = [(0, 0, 0)], [(0, 0, 0), (1, 1, 0)]
THREE = TWO + [(2, 2, 0)]


def joined_patches():
    """Two sets that are joined; results by hand, but for the last."""
    for name, first, second, labels in (
        ("shift-0", TWO, [(1, 1, 0), (2, 2, 0)], THREE),
        ("shift-0-same", TWO, TWO, TWO),
        ("shift-0-falling", TWO, TWO[::-1], TWO),
        ("shift-i", TWO, [(1, 0, 0), (2, 1, 0)], THREE),
        ("shift-j", TWO, [(1, 1, 9), (2, 2, 9)], THREE),
        ("shift-both", TWO, [(2, -3, 12), (1, -4, 12)], THREE),
        ("second-inside-first", THREE, [(1, 0, 0)], THREE),
        ("first-inside-second", [(1, 1, 0)], [(0, 7, 7), (1, 8, 7), (2, 9, 7)], THREE),
        ("three-shared", THREE, [(2, 9, 7), (0, 7, 7), (1, 8, 7)], THREE),
        ("cell-in-both", ONE, [(0, 5, 5), (1, 0, 0)], [(0, 0, 0), (1, -5, -5)]),
        ("farthest-up", [(0, 63, 63)], [(0, -64, -64)], [(0, 63, 63)]),
        ("farthest-down", [(0, -64, -64)], [(0, 63, 63)], [(0, -64, -64)]),
        ("farthest-mixed", [(0, 63, -64)], [(0, -64, 63)], [(0, 63, -64)]),
        ("across", [(0, -64, -64), (1, 0, 0)], [(1, 0, 0), (2, 63, 63)], [(0, -64, -64), (1, 0, 0), (2, 63, 63)]),
    ):
        yield f"patch-{name}", patched(first, second), given(labels)
    yield from rim_patches()
    # The passes run on the union.
    yield "patch-grow", patched(ONE, [(0, 5, -3), (1, 6, -3)], PASSES), TAKEN
    yield "patch-grow-second-first", patched([(1, 1, 0)], [(1, 6, -3), (0, 5, -3)], PASSES), TAKEN
    yield "patch-grow-own-kind", patched(ONE, [(0, 5, -3), (1, 6, -3)], ["(shade 2 0)"] + PASSES), TAKEN
    # By its cell in the first set's numbers corner 2 is odd.
    yield "patch-grow-other-kind", patched(ONE, [(0, 6, -3), (1, 7, -3)], ["(shade 2 1)"] + PASSES), NOT_TAKEN
    yield "patch", text(PATCHED), None
    for size in range(len(text(PATCHED))):
        yield f"patch-cut-{size}", text(PATCHED)[:size], None


def rim_patches():
    """Each side of the sheet. In the first set corner 0 stands one step inside
    the rim, in the second corner 1 stands one step further that way: moved, it is
    on the rim. With corner 0 on the rim it is off the sheet."""
    for name, (i, j), (di, dj) in (("high-i", (62, 9), (1, 0)), ("low-i", (-63, 9), (-1, 0)), ("high-j", (9, 62), (0, 1)), ("low-j", (9, -63), (0, -1))):
        for where, far in (("", 0), ("-from-afar", -60), ("-from-near", 60)):
            at = (far * di, far * dj)
            outside, beside = (at[0] + di, at[1] + dj), (at[0] + dj, at[1] + di)
            yield f"patch-rim-{name}{where}", patched([(0, i, j)], [(0, *at), (1, *outside)]), given([(0, i, j), (1, i + di, j + dj)])
            yield f"patch-past-{name}{where}", patched([(0, i + di, j + dj)], [(0, *at), (1, *outside)]), refused(4, 9)
            last = [(1, *beside), (0, *at), (2, *outside)]
            yield f"patch-past-{name}{where}-last", patched([(0, i + di, j + dj)], last), refused(4, 9)


def unjoined_patches():
    """8, 9 and 4 of the join, and what comes before them."""
    for name, frame, number, line in (
        ("both-empty", patched([], []), 8, 8),
        ("both-empty-passes", patched([], [], PASSES), 8, 8),
        ("first-empty", patched([], TWO), 8, 8),
        ("second-empty", patched(TWO, []), 8, 10),
        ("no-corners", text(HEAD + ["(patch)"]), 8, 5),
        ("no-corners-passes", text(HEAD + ["(patch)"] + PASSES * 16), 8, 5),
        ("no-shared", patched(ONE, [(1, 1, 0)]), 8, 9),
        ("no-shared-same-cells", patched(ONE, [(1, 0, 0)]), 8, 9),
        ("no-shared-three", patched([(0, 0, 0), (2, 2, 0)], [(1, 1, 0)]), 8, 10),
        ("no-shared-far", patched([(0, 63, 63)], [(1, -64, -64), (2, 63, 63)]), 8, 9),
        ("two-shifts", patched(TWO, [(0, 0, 0), (1, 2, 0)]), 9, 10),
        ("two-shifts-j", patched(TWO, [(0, 0, 0), (1, 1, 1)]), 9, 10),
        ("two-shifts-exchanged", patched(TWO, [(0, 1, 0), (1, 0, 0)]), 9, 10),
        ("two-shifts-last", patched(THREE, [(0, 7, 7), (1, 8, 7), (2, 9, 8)]), 9, 11),
        ("two-shifts-first", patched(THREE, [(0, 7, 8), (1, 8, 7), (2, 9, 7)]), 9, 11),
        ("two-shifts-mirrored", patched(THREE, [(0, 0, 0), (1, -1, 0), (2, -2, 0)]), 9, 11),
        ("two-shifts-turned", patched(TWO, [(0, 0, 0), (1, 0, 1)]), 9, 10),
        ("held", patched(TWO, [(0, 5, 5), (2, 6, 5)]), 9, 10),
        ("held-shift-0", patched(TWO, [(0, 0, 0), (2, 1, 0)]), 9, 10),
        ("held-before-shared", patched(TWO, [(2, 6, 5), (0, 5, 5)]), 9, 10),
        ("held-and-two-shifts", patched(TWO, [(0, 5, 5), (1, 7, 5), (2, 6, 5)]), 9, 10),
        ("9-before-4-two-shifts", patched([(0, 63, 0), (1, 60, 0)], [(0, 0, 0), (1, 1, 0), (2, 9, 0)]), 9, 10),
        ("9-before-4-held", patched([(0, 63, 0), (1, 62, 0)], [(0, 0, 0), (2, -1, 0), (3, 1, 0)], corners=many_corners(4)), 9, 11),
        ("9-before-4-held-last", patched([(0, 63, 0), (1, 62, 0)], [(3, 1, 0), (0, 0, 0), (2, -1, 0)], corners=many_corners(4)), 9, 11),
        ("9-off-the-sheet", patched([(0, 63, 0), (1, -64, 0)], [(0, -64, 0), (1, 63, 0)]), 9, 10),
        ("past-farthest-up", patched([(0, 63, 63)], [(0, -64, -64), (1, 63, 63)]), 4, 9),
        ("past-farthest-down", patched([(0, -64, -64)], [(0, 63, 63), (1, -64, -64)]), 4, 9),
        ("4-passes", patched([(0, 63, 0)], TWO, SHADES + PASSES + [LOCAL]), 4, 9),
        ("8-shades-passes", patched(ONE, [(1, 1, 0)], SHADES + PASSES + [LOCAL]), 8, 9),
        ("9-shades-passes", patched(TWO, [(0, 0, 0), (1, 2, 0)], SHADES + PASSES + [LOCAL]), 9, 10),
        # 8, 9 or 4, and a fault on a later line: that line's own number.
        ("8-then-bent", patched(ONE, [], ["(nonsense)"]), 1, 10),
        ("8-then-empty-line", patched(ONE, [], [""]), 1, 10),
        ("8-then-no-lf", patched(ONE, []) + b"(grow)", 1, 10),
        ("8-then-half-line", patched(ONE, [], PASSES) + b"(gro", 1, 11),
        ("8-then-trailing", patched(ONE, []) + b"x", 1, 10),
        ("8-then-kind-2", patched(ONE, [], ["(shade 0 2)"]), 1, 10),
        ("8-then-overfull", patched(ONE, [], PASSES * 17), 2, 26),
        ("8-then-wild", patched(ONE, [], ["(grow 41800001 3fc00000 40000000)"]), 3, 10),
        ("8-then-wild-rounds", patched(ONE, [], PASSES + ["(fill 3eb33333 3fc00000 65)"]), 3, 11),
        ("8-then-off-sheet", patched(ONE, [(1, 1, 0), (2, 64, 0)]), 4, 11),
        ("8-then-stranger", patched(ONE, [(1, 1, 0), (3, 2, 0)]), 5, 11),
        ("8-then-stranger-shade", patched(ONE, [], ["(shade 3 0)"]), 5, 10),
        ("8-then-doubled", patched(ONE, [(1, 1, 0), (2, 1, 0)]), 6, 11),
        ("8-then-doubled-shade", patched(ONE, [], ["(shade 0 0)", "(shade 0 1)"]), 6, 11),
        ("9-then-bent", patched(TWO, [(0, 1, 0), (1, 0, 0)], ["(nonsense)"]), 1, 13),
        ("9-then-half-line", patched(TWO, [(0, 1, 0), (1, 0, 0)], PASSES) + b"(", 1, 14),
        ("9-then-overfull", patched(TWO, [(0, 1, 0), (1, 0, 0)], PASSES * 17), 2, 29),
        ("9-then-wild", patched(TWO, [(0, 1, 0), (1, 0, 0)], ["(fill 7fc00000 3fc00000 1)"]), 3, 13),
        ("9-then-stranger", patched(TWO, [(0, 1, 0), (1, 0, 0), (3, 5, 5)]), 5, 13),
        ("4-then-half-line", patched([(0, 63, 0)], TWO, PASSES) + b"(grow)", 1, 13),
        ("4-then-doubled", patched([(0, 63, 0)], TWO, SHADES + ["(shade 2 1)"]), 6, 14),
    ):
        yield f"patch-{name}", frame, refused(number, line)


def strange_patches():
    """4, 5 and 6 are each set's own, at the label's line."""
    for name, frame, number, line in (
        ("off-sheet-second", patched(ONE, [(0, 64, 0)]), 4, 10),
        ("off-sheet-second-j", patched(ONE, [(0, 0, -65)]), 4, 10),
        ("off-sheet-back-on-it", patched(ONE, [(0, 63, 0), (1, 64, 0)]), 4, 11),
        ("off-sheet-before-stranger", patched(ONE, [(3, 64, 0)]), 4, 10),
        ("stranger-second", patched(ONE, [(3, 0, 0)]), 5, 10),
        ("stranger-second-minus", patched(ONE, [(-1, 0, 0)]), 5, 10),
        ("stranger-in-both", patched([(3, 0, 0)], [(3, 0, 0)]), 5, 8),
        ("stranger-no-corners", text(HEAD + ["(patch)", "(label 0 (0 0))"]), 5, 6),
        ("stranger-before-doubled", patched(ONE, [(0, 0, 0), (3, 0, 0)]), 5, 11),
        ("doubled-corner-second", patched(ONE, [(0, 0, 0), (0, 1, 0)]), 6, 11),
        ("doubled-cell-second", patched(ONE, [(0, 0, 0), (1, 0, 0)]), 6, 11),
        ("doubled-both-second", patched(ONE, [(0, 0, 0), (0, 0, 0)]), 6, 11),
        ("doubled-corner-first", patched([(0, 0, 0), (0, 1, 0)], ONE), 6, 9),
        ("doubled-cell-first", patched([(0, 0, 0), (1, 0, 0)], ONE), 6, 9),
        ("doubled-far-second", patched(TWO, [(1, 0, 0), (0, 5, 5), (1, 63, 63)]), 6, 13),
        ("doubled-before-8", patched(ONE, [(1, 1, 0), (1, 2, 0)]), 6, 11),
    ):
        yield f"patch-{name}", frame, refused(number, line)


def misplaced_patches():
    for number in range(1, 5):
        yield f"patch-in-heading-{number}", put_in(number, "(patch)"), refused(1, number)
        yield f"patch-for-heading-{number}", changed(number, "(patch)"), refused(1, number)
    yield "patch-before-corners", put_in(5, "(patch)"), refused(1, 6)
    yield "patch-among-corners", put_in(6, "(patch)"), refused(1, 7)
    yield "patch-then-corner", patched(ONE, [], CORNERS[:1]), refused(1, 10)
    yield "patch-then-wild-corner", patched(ONE, [], [corner(x="7f800000")]), refused(1, 10)
    yield "patch-corner-behind-second", patched(ONE, ONE, CORNERS[:1]), refused(1, 11)
    yield "patch-corner-behind-shade", patched(ONE, ONE, ["(shade 0 0)"] + CORNERS[:1]), refused(1, 12)
    yield "patch-twice", patched(ONE, ONE, ["(patch)"]), refused(1, 11)
    yield "patch-twice-at-once", patched(ONE, [], ["(patch)"]), refused(1, 10)
    yield "patch-three-times", patched(ONE, [], ["(patch)", "(patch)"]), refused(1, 10)
    yield "patch-twice-third-set", patched(ONE, ONE, ["(patch)", "(label 0 (0 0))"]), refused(1, 11)
    yield "patch-twice-behind-shade", patched(ONE, ONE, SHADES + ["(patch)"]), refused(1, 13)
    yield "patch-behind-shade", text(HEAD + CORNERS + LABELS + ["(shade 0 0)", "(patch)"] + LABELS), refused(1, 11)
    yield "patch-behind-shade-no-labels", text(HEAD + CORNERS + ["(shade 0 0)", "(patch)"] + LABELS), refused(1, 9)
    yield "patch-behind-pass", put_in(11, "(patch)"), refused(1, 11)
    yield "patch-between-passes", text(EXAMPLE + ["(patch)"] + PASSES), refused(1, 11)
    yield "patch-label-behind-shade", patched(ONE, ONE, ["(shade 0 0)", "(label 1 (1 0))"]), refused(1, 12)
    yield "patch-label-behind-pass", patched(ONE, ONE, PASSES + ["(label 1 (1 0))"]), refused(1, 12)
    yield "patch-bad-label-behind-shade", patched(ONE, ONE, ["(shade 0 0)", "(label 9 (99 0))"]), refused(1, 12)
    yield "patch-shade-behind-pass", patched(ONE, ONE, PASSES + ["(shade 0 0)"]), refused(1, 12)
    yield "patch-frame-behind", patched(ONE, ONE, HEAD[:1]), refused(1, 11)
    yield "patch-1-before-17-passes", patched(ONE, ONE, PASSES * 16 + ["(patch)"]), refused(1, 27)
    yield "patch-and-17-passes", patched(ONE, ONE, PASSES * 17), refused(2, 27)
    for name, bad in (
        ("cr", "(patch)\r"), ("space-behind", "(patch) "), ("space-before", " (patch)"), ("nul", "(patch)\0"), ("space-inside", "(patch )"),
        ("bracket", "(patch"), ("bracket-more", "(patch))"), ("bracket-before", "((patch)"), ("no-brackets", "patch"), ("number", "(patch 1)"),
        ("cell", "(patch (0 0))"), ("upper", "(Patch)"), ("plural", "(patches)"), ("short", "(patc)"), ("nothing", "()"), ("high-byte", "(patch\u0101"), ("pass", "(pass)"),
    ):
        yield f"patch-bent-{name}", changed(9, bad, PATCHED), refused(1, 9)


def short_cells():
    """Cells whose numbers have few digits, those of fewest first."""
    cells = [(i, j) for i in range(64) for j in range(64)]
    return sorted(cells, key=lambda cell: (len(f"{cell[0]}{cell[1]}"), cell))


def that_fit(labels, room):
    """As many labels as have room."""
    count = 0
    for n, i, j in labels:
        room -= len(f"(label {n} ({i} {j}))\n")
        if room < 0:
            break
        count += 1
    return labels[:count]


def large_patches():
    """As many labels as there can be: 1,024 in one set and some 390 in the other,
    860 in both. Results by hand."""
    corners = many_corners(1024)
    labels = [(n, i, j) for n, (i, j) in enumerate(short_cells()[:1024])]
    later = [(n, i + 1, j) for n, i, j in labels]
    some = that_fit(later, MOST_BYTES - len(patched(labels, [], corners=corners)))
    if not 380 < len(some) < 400 or max(i for _, i, _ in labels) != 48:
        raise SystemExit(f"cases: {len(some)} labels beside 1,024")
    amiss = some[:-1] + [(some[-1][0], some[-1][1] + 1, some[-1][2])]
    yield "patch-1024-and-some", patched(labels, some, corners=corners), given(labels)
    yield "patch-1024-and-some-9", patched(labels, amiss, corners=corners), refused(9, 2053)
    yield "patch-some-and-1024", patched(some, labels, corners=corners), given(later)
    yield "patch-some-and-1024-9", patched(amiss, labels, corners=corners), refused(9, 1029 + len(some))
    up, past = ([(n, i + far, j) for n, i, j in labels[: len(some) - 50]] for far in (15, 16))
    yield "patch-some-and-1024-rim", patched(up, labels, corners=corners), given([(n, i + 15, j) for n, i, j in labels])
    yield "patch-some-and-1024-4", patched(past, labels, corners=corners), refused(4, 1029 + len(past))
    yield "patch-1024-halves", patched(labels[:512], labels[512:], corners=corners), refused(8, 1541)
    corners, labels, later = corners[:860], labels[:860], later[:860]
    yield "patch-860-both", patched(labels, labels, corners=corners), given(labels)
    yield "patch-860-both-shifted", patched(labels, later[::-1], corners=corners), given(labels)
    yield "patch-860-both-9", patched(labels, later[:-1] + [(859, 63, 63)], corners=corners), refused(9, 1725)


# ---- roles: 10, and 1 for what stands behind an as line


def told(*passes, shades=()):
    """By hand: the result of FRONT with these passes, and as lines among them. The
    first grow or fill finds corner 2 at (2, 0), where it is expected; after that no
    corner is free. Grow looks at the 8 cells around these three and finds nothing
    there, and local has fewer than 4 labels. So a role has attached 1 if it ran the
    first of these, and 8 cells without a candidate for each of its grows."""
    lines, found, marked, role = [], False, False, "plant"
    new, grown = dict.fromkeys(("plant", "depot", "dealer"), 0), dict.fromkeys(("plant", "depot", "dealer"), 0)
    for line in passes:
        kind = line.strip("()").split(" ")[0]
        if kind == "as":
            role = line[4:-1]
        elif kind == "grow":
            lines.append("(grow 0 8 0 0 no)" if found else "(grow 1 8 0 0 no)")
            new[role] += not found
            grown[role] += 1
            found = marked = True
        elif kind == "fill":
            lines.append("(fill 0 1 no)" if found else "(fill 1 1 no)")
            new[role] += not found
            found = True
        elif kind == "local":
            lines.append("(local 0 0 0 0 0 none no)")
            lines += ["(unmatched 0)"] * (len(shades) > 0)
    lines += [f"(role {role} {new[role]} {8 * grown[role]} 0 0)" for role in new]
    lines += ["(cell (0 0) 0)", "(cell (1 0) 1)"] + ["(cell (2 0) 2)"] * found
    if marked:
        lines += [f"(hole ({i} {j}))" for i, j in ((-1, 0), (0, -1), (0, 1), (1, -1), (1, 1), (2, -1), (2, 1), (3, 0))]
    return "".join(line + "\n" for line in ["(result 1)"] + lines)


def who_may_run():
    """Every role with every form of pass, and each form before any as line."""
    forms = {"grow": "(grow)", "fill": "(fill)", "full-grow": GROW, "full-fill": FILL, "local": LOCAL}
    for role, may in (("dealer", "yynnn"), ("depot", "yyyyn"), ("plant", "yyyyy")):
        for (name, line), answer in zip(forms.items(), may):
            yield f"as-{role}-{name}", text(FRONT + [f"(as {role})", line]), told(f"(as {role})", line) if answer == "y" else refused(10, 11)
    for name, line in forms.items():
        yield f"as-none-{name}", text(FRONT + [line]), told(line)
    yield "as-each", text(ROLED), told(*ROLED[9:])
    # Bare is the text: the numbers of bare grow, written out, in any way that has their values.
    yield "as-dealer-old-grow", text(FRONT + [DEALER, "(grow 3eb33333 3fc00000 40000000)"]), refused(10, 11)
    yield "as-dealer-other-fill", text(FRONT + [DEALER, "(fill 3eb33333 3fc00000 2)"]), refused(10, 11)
    yield "as-dealer-zero-grow", text(FRONT + [DEALER, "(grow 00000000 00000000 80000000)"]), refused(10, 11)
    yield "as-dealer-zero-local", text(FRONT + [DEALER, "(local 00000000 00000000 0 00000000 0)"]), refused(10, 11)
    yield "as-depot-zero-local", text(FRONT + [DEPOT, "(local 00000000 00000000 0 00000000 0)"]), refused(10, 11)
    for name, y, answer in (("by-4.375", "41660000", TAKEN), ("past-4.375", "41660001", NOT_TAKEN)):
        for role in ROLES:
            front = HEAD + CORNERS[:2] + [corner("41f00000", y)] + LABELS
            yield f"as-{role[4:-1]}-bare-{name}", text(front + [role, "(grow)"]), run_by(role, answer)


WILD_PASSES = {
    "grow-search": "(grow 41800001 3fc00000 3fa00000)",
    "grow-factor": "(grow 3eb33333 7fc00000 3fa00000)",
    "grow-boundary": "(grow 3eb33333 3fc00000 80000001)",
    "fill-search": "(fill ff800000 3fc00000 1)",
    "fill-factor": "(fill 3eb33333 447a0001 1)",
    "fill-rounds": "(fill 3eb33333 3fc00000 65)",
    "local-search": "(local bf800000 3fc00000 1 3e800000 1)",
    "local-rounds": "(local 3eb33333 3fc00000 -1 3e800000 1)",
    "local-residual": "(local 3eb33333 3fc00000 1 41800001 1)",
    "local-depth": "(local 3eb33333 3fc00000 1 3e800000 5)",
}
BENT_PASSES = {
    "bare-local": "(local)",
    "grow-two": "(grow 3eb33333 3fc00000)",
    "grow-four": GROW[:-1] + " 3f800000)",
    "grow-space": "(grow )",
    "grow-upper": GROW.replace("e", "E"),
    "fill-float": "(fill 3eb33333 3fc00000 3f800000)",
    "local-four": LOCAL[:-3] + ")",
    "local-bracket": LOCAL[:-1],
    "local-space-behind": LOCAL + " ",
    "local-cr": LOCAL + "\r",
    "local-zero": LOCAL.replace(" 1)", " 01)"),
    "unknown": "(shrink)",
}


def order_of_roles():
    """1, 2 and 3 come before 10. The pass stands on line 11, or on line 27 behind 16 others."""
    for role in ROLES:
        for name, line in WILD_PASSES.items():
            yield f"as-wild-{role[4:-1]}-{name}", text(FRONT + [role, line]), refused(3, 11)
        for name, line in BENT_PASSES.items():
            yield f"as-bent-{role[4:-1]}-{name}", text(FRONT + [role, line]), refused(1, 11)
    yield "as-wild-dealer-long", text(FRONT + [DEALER, f"(fill 3eb33333 3fc00000 1{'0' * 9999})"]), refused(3, 11)
    sixteen = FRONT + PASSES * 16
    for name, lines, number, line in (
        ("17", [PLANT, "(grow)"], 2, 27),
        ("17-not-its-own", [DEALER, LOCAL], 2, 27),
        ("17-full", [DEALER, GROW], 2, 27),
        ("17-depot", [DEPOT, LOCAL], 2, 27),
        ("17-own", [DEALER, "(fill)"], 2, 27),
        ("17-wild", [PLANT, WILD_PASSES["fill-rounds"]], 2, 27),
        ("17-wild-not-its-own", [DEALER, WILD_PASSES["local-depth"]], 2, 27),
        ("17-bent-not-its-own", [DEALER, "(local)"], 1, 27),
        ("17-bent", [PLANT, "(grow )"], 1, 27),
        ("17-nothing", [PLANT], 1, 27),
        ("17-nothing-dealer", [DEALER], 1, 27),
        ("17-as", [DEALER, PLANT, "(grow)"], 1, 27),
        ("17-corner", [PLANT, CORNERS[0]], 1, 27),
        ("17-half", [PLANT, ""], 1, 27),
    ):
        yield f"as-{name}", text(sixteen + lines), refused(number, line)
    yield "as-17-no-lf", text(sixteen + [PLANT]) + b"(grow)", refused(1, 27)
    # As lines are no passes.
    yield "as-16-passes", text(FRONT + [DEALER, "(grow)"] * 16), told(*[DEALER, "(grow)"] * 16)
    yield "as-17-passes", text(FRONT + [DEALER, "(grow)"] * 17), refused(2, 43)
    yield "as-16-passes-one", text(FRONT + PASSES * 15 + [DEALER, "(fill)"]), told(*["(grow)"] * 15, DEALER, "(fill)")
    yield "as-16-passes-last", text(FRONT + [DEALER] + PASSES * 15 + [LOCAL]), refused(10, 26)
    yield "as-bytes-65537", (text(HEAD + many_corners(1024)) + b"(as plant)\n(grow)\n" * 2000)[:65537], refused(2, 0)
    yield "as-bytes-65536", (text(HEAD + many_corners(1024)) + b"(as plant)\n(grow)\n" * 2000)[:65536], refused(2, 1062)


def behind_as_lines():
    """What is no pass, on the line behind an as line; and the end."""
    others = {
        "corner": CORNERS[0],
        "label": "(label 2 (5 5))",
        "shade": "(shade 2 0)",
        "patch": "(patch)",
        "dealer": DEALER,
        "depot": DEPOT,
        "plant": PLANT,
        "empty": "",
        "frame": HEAD[0],
        "cell": HEAD[1],
        "axes": HEAD[2],
        "band": HEAD[3],
        "nonsense": "(nonsense)",
        "wild-corner": corner(x="7f800000"),
        "stranger": "(label 3 (5 5))",
        "off-sheet": "(label 2 (64 0))",
        "doubled": "(label 0 (5 5))",
        "stranger-shade": "(shade 3 0)",
        "kind-2": "(shade 0 2)",
        "almost": "(as dealers)",
        "result": "(grow 1 8 0 0 no)",
    }
    for role in ROLES:
        word = role[4:-1]
        for name, line in others.items():
            yield f"as-{word}-then-{name}", text(FRONT + [role, line, "(grow)"]), refused(1, 11)
        yield f"as-{word}-then-end", text(FRONT + [role]), refused(1, 11)
        yield f"as-{word}-then-half", text(FRONT + [role]) + b"(gro", refused(1, 11)
        yield f"as-{word}-then-no-lf", text(FRONT + [role]) + b"(grow)", refused(1, 11)
        yield f"as-{word}-no-lf", text(FRONT) + role.encode(), refused(1, 10)
        yield f"as-{word}-end-behind-pass", text(EXAMPLE + [role]), refused(1, 12)
        yield f"as-{word}-end-behind-two", text(FRONT + [role, "(grow)", role]), refused(1, 13)
        yield f"as-{word}-end-no-corners", text(HEAD + [role]), refused(1, 6)
    yield "as-twice-at-end", text(EXAMPLE + [DEALER, DEALER]), refused(1, 12)
    yield "as-three-times", text(FRONT + [PLANT, PLANT, PLANT, "(grow)"]), refused(1, 11)
    yield "as-twice-not-its-own", text(FRONT + [DEALER, DEALER, LOCAL]), refused(1, 11)


def misplaced_as_lines():
    """An as line ends all lines before the passes, and may stand right behind any of them."""
    for number in range(1, 5):
        yield f"as-in-heading-{number}", put_in(number, PLANT), refused(1, number)
        yield f"as-for-heading-{number}", changed(number, PLANT), refused(1, number)
    none = "(result 1)\n(grow 0 0 0 0 no)\n" + NO_COUNTS
    yield "as-behind-band", text(HEAD + [DEALER, "(grow)"]), none
    yield "as-behind-band-10", text(HEAD + [DEALER, GROW]), refused(10, 6)
    yield "as-behind-band-local", text(HEAD + [PLANT, LOCAL]), "(result 1)\n(local 0 0 0 0 0 none no)\n" + NO_COUNTS
    yield "as-behind-corners", text(HEAD + CORNERS + [DEPOT, GROW]), none
    yield "as-behind-shades", text(FRONT + SHADES + [DEALER, "(grow)"]), told(DEALER, "(grow)")
    yield "as-behind-shades-10", text(FRONT + SHADES + [DEPOT, LOCAL]), refused(10, 13)
    yield "as-behind-shades-local", text(FRONT + SHADES + [PLANT, LOCAL]), told(LOCAL, shades=SHADES)
    yield "as-before-corners", put_in(5, PLANT), refused(1, 6)
    yield "as-among-corners", put_in(6, PLANT), refused(1, 7)
    yield "as-before-labels", put_in(8, PLANT), refused(1, 9)
    yield "as-among-labels", put_in(9, PLANT), refused(1, 10)
    yield "as-among-shades", put_in(11, PLANT, SHADED), refused(1, 12)
    for name, line in (("corner", CORNERS[0]), ("label", "(label 2 (5 5))"), ("shade", "(shade 2 0)"), ("patch", "(patch)"), ("frame", HEAD[0])):
        yield f"as-pass-then-{name}", text(FRONT + [PLANT, "(grow)", line]), refused(1, 12)
    yield "as-bare-then-label", text(FRONT + [DEALER, "(grow)", "(label 2 (5 5))"]), refused(1, 12)
    yield "as-patch-then-label", patched(ONE, [], [PLANT, "(label 0 (0 0))"]), refused(1, 11)
    yield "as-second-then-patch", patched(ONE, ONE, [PLANT, "(patch)"]), refused(1, 12)


def roles_that_hold():
    """A role holds over all passes until the next as line; before the first it is the plant's."""
    for name, lines in (
        ("three", [DEALER, "(grow)", "(fill)", "(grow)"]),
        ("four", [DEPOT, GROW, FILL, "(grow)", "(fill)"]),
        ("again", [DEALER, "(grow)", DEALER, "(fill)"]),
        ("plant-again", [PLANT, GROW, PLANT, LOCAL]),
        ("rising", [DEALER, "(grow)", DEPOT, GROW, PLANT, LOCAL]),
        ("falling", [PLANT, LOCAL, DEPOT, FILL, DEALER, "(fill)"]),
        ("back", [LOCAL, DEALER, "(fill)", PLANT, LOCAL]),
        ("back-twice", [DEALER, "(grow)", PLANT, LOCAL, DEALER, "(fill)", PLANT, GROW, LOCAL]),
        ("first-two", [LOCAL, GROW, DEALER, "(grow)", "(fill)"]),
        ("last", [GROW, FILL, LOCAL, DEPOT, FILL]),
    ):
        yield f"as-hold-{name}", text(FRONT + lines), told(*lines)
    for name, lines, line in (
        ("third", [DEALER, "(grow)", "(fill)", GROW], 13),
        ("second", [DEALER, "(grow)", LOCAL], 12),
        ("depot-fourth", [DEPOT, GROW, FILL, "(grow)", LOCAL], 14),
        ("depot-behind-dealer", [DEALER, "(grow)", DEPOT, LOCAL], 13),
        ("dealer-behind-depot", [DEPOT, GROW, DEALER, GROW], 13),
        ("default-then-dealer", [GROW, LOCAL, DEALER, "(grow)", FILL], 14),
        ("behind-plant", [PLANT, LOCAL, DEPOT, FILL, LOCAL], 14),
        ("back-to-depot", [DEALER, "(grow)", PLANT, LOCAL, DEPOT, GROW, LOCAL], 16),
        ("again", [DEALER, "(grow)", DEALER, "(fill)", FILL], 14),
        ("first-of-two", [DEALER, GROW, LOCAL], 11),
        ("plant-too-late", [DEALER, LOCAL, PLANT, LOCAL], 11),
        ("then-nonsense", [DEALER, GROW, "(nonsense)"], 11),
        ("then-wild", [DEALER, GROW, WILD_PASSES["fill-rounds"]], 11),
        ("then-17", [DEALER, GROW] + PASSES * 16, 11),
        ("then-end", [DEALER, GROW, DEALER], 11),
        ("then-label", [DEPOT, LOCAL, "(label 2 (5 5))"], 11),
    ):
        yield f"as-10-{name}", text(FRONT + lines), refused(10, line)
    yield "as-10-then-no-lf", text(FRONT + [DEALER, GROW]) + b"(grow)", refused(10, 11)
    yield "as-10-no-lf", text(FRONT + [DEALER]) + GROW.encode(), refused(1, 11)
    yield "as-doubled-then-10", text(FRONT[:8] + ["(label 0 (5 5))", DEALER, GROW]), refused(6, 9)
    yield "as-wild-then-10", text(FRONT + [WILD_PASSES["grow-search"], DEALER, GROW]), refused(3, 10)
    # Each dealer's line with a depot's or the plant's in its place.
    lines = [LOCAL, DEALER, "(grow)", PLANT, GROW, DEALER, "(fill)", "(grow)", DEPOT, FILL, DEALER, "(fill)"]
    for first in ROLES:
        for second in ROLES:
            for third in ROLES:
                lines[1], lines[5], lines[10] = first, second, third
                name = "-".join(role[4:-1] for role in (first, second, third))
                yield f"as-in-place-{name}", text(FRONT + lines), told(*lines)
    bare = [line for line in lines if not line.startswith("(as ")]
    yield "as-in-place-none", text(FRONT + bare), told(*lines)


def almost_as_lines():
    """Lines that are nearly as lines, before a bare grow: 1 at their own line."""
    for name, line in (
        ("upper", "(as Dealer)"), ("upper-as", "(As dealer)"), ("all-upper", "(AS DEALER)"), ("two-spaces", "(as  dealer)"), ("space-inside", "(as dealer )"),
        ("space-first", "( as dealer)"), ("space-behind", "(as dealer) "), ("space-before", " (as dealer)"), ("nothing", "(as)"), ("nothing-space", "(as )"),
        ("owner", "(as owner)"), ("number", "(as 1)"), ("zero", "(as 0)"), ("two", "(as dealer depot)"), ("two-same", "(as plant plant)"), ("plural", "(as dealers)"),
        ("short", "(as deale)"), ("depo", "(as depo)"), ("depots", "(as depots)"), ("plan", "(as plan)"), ("plants", "(as plants)"), ("mixed", "(as plantdealer)"),
        ("cr", "(as dealer)\r"), ("tab", "(as\tdealer)"), ("tab-behind", "(as dealer)\t"), ("nul", "(as dealer\0)"), ("nul-behind", "(as dealer)\0"),
        ("bracket", "(as dealer"), ("bracket-more", "(as dealer))"), ("bracket-before", "((as dealer)"), ("no-brackets", "as dealer"), ("inner", "(as (dealer))"),
        ("joined", "(asdealer)"), ("no-word", "(dealer)"), ("role", "(role dealer)"), ("ash", "(ash dealer)"), ("a", "(a dealer)"), ("pass-behind", "(as dealer)(grow)"),
        ("pass-inside", "(as dealer (grow))"), ("high-byte", "(as plan\u0163)"), ("empty", "()"),
    ):
        yield f"as-form-{name}", text(FRONT + [line, "(grow)"]), refused(1, 10)
        yield f"as-form-{name}-later", text(FRONT + [PLANT, LOCAL, line, "(grow)"]), refused(1, 12)
    yield "as-form-long", text(FRONT + ["(as " + "dealer" * 2000 + ")", "(grow)"]), refused(1, 10)
    yield "as-form-crlf", "\r\n".join(ROLED).encode() + b"\r\n", refused(1, 1)
    # Every truncation. Whole are the heading, each line behind it, and each pass behind an as line.
    whole_to = (4, 5, 6, 7, 8, 9, 11, 13, 15)
    for size in range(len(text(ROLED))):
        cut = text(ROLED)[:size]
        number = cut.count(b"\n")
        if cut.endswith(b"\n") and number in whole_to:
            answer = told(*ROLED[9:number]) if number > 8 else None
        else:
            answer = refused(1, number + 1)
        yield f"as-cut-{size}", cut, answer


def roles_and_joins():
    """10 and 1 come before 8, 9 and 4 of the join, which come after all lines are read."""
    eight, nine, four = (ONE, [(1, 1, 0)]), (TWO, [(0, 0, 0), (1, 2, 0)]), ([(0, 63, 0)], TWO)
    for name, sets, lines, number, line in (
        ("8", eight, [DEALER, "(grow)"], 8, 9),
        ("10-before-8", eight, [DEALER, GROW], 10, 12),
        ("1-before-8", eight, [DEALER], 1, 12),
        ("1-before-8-twice", eight, [DEALER, PLANT, LOCAL], 1, 12),
        ("2-before-8", eight, [DEALER] + PASSES * 17, 2, 28),
        ("3-before-8", eight, [DEPOT, WILD_PASSES["local-depth"]], 3, 12),
        ("8-empty", ([], []), [DEPOT, FILL], 8, 8),
        ("10-before-8-empty", ([], []), [DEALER, FILL], 10, 10),
        ("8-all", eight, [DEALER, "(grow)", DEPOT, FILL, PLANT, LOCAL], 8, 9),
        ("10-before-8-last", eight, [DEALER, "(grow)", DEPOT, FILL, DEALER, LOCAL], 10, 16),
        ("9", nine, [DEPOT, GROW], 9, 10),
        ("10-before-9", nine, [DEALER, LOCAL], 10, 14),
        ("1-before-9", nine, [PLANT], 1, 14),
        ("4", four, [PLANT, LOCAL], 4, 9),
        ("10-before-4", four, [DEPOT, LOCAL], 10, 13),
        ("1-before-4", four, [PLANT, "(patch)"], 1, 13),
    ):
        yield f"as-join-{name}", patched(*sets, lines), refused(number, line)
    joined = (ONE, [(0, 5, -3), (1, 6, -3)])
    yield "as-joined", patched(*joined, [DEALER, "(grow)", DEPOT, FILL, PLANT, LOCAL]), told(*ROLED[9:])
    yield "as-joined-10", patched(*joined, [DEALER, "(grow)", FILL]), refused(10, 14)


def in_place_of_roles(data):
    """02, 6/14: the same frame with each dealer's line in turn, and with all of them,
    a depot's or the plant's, and without any as line. Where it is accepted, these are,
    with the same result but for its role lines (02, 7/14)."""
    parts = data.split(text([DEALER]))
    for role in (DEPOT, PLANT):
        for k in range(1, len(parts)):
            yield text([DEALER]).join(parts[:k]) + text([role]) + text([DEALER]).join(parts[k:])
        if len(parts) > 2:
            yield text([role]).join(parts)
    yield b"".join(line for line in data.splitlines(keepends=True) if not line.startswith(b"(as "))


def without_role_lines(result):
    """A result but for them; a refusal as it is."""
    return "".join(line for line in result.splitlines(keepends=True) if not line.startswith("(role "))


def roles():
    """All of these, each with an answer by hand, but for the shortest truncations."""
    for family in (who_may_run(), order_of_roles(), behind_as_lines(), misplaced_as_lines(), roles_that_hold(), almost_as_lines(), roles_and_joins()):
        yield from family


# Those that the gate replays (store_cases), without "as-".
STORED_ROLES = """
dealer-grow dealer-fill dealer-full-grow dealer-full-fill dealer-local depot-grow depot-fill depot-full-grow depot-full-fill depot-local
plant-grow plant-fill plant-full-grow plant-full-fill plant-local each hold-three hold-back in-place-depot-plant-dealer 10-third 10-depot-fourth
10-default-then-dealer 10-then-nonsense wild-dealer-grow-factor wild-dealer-fill-rounds wild-dealer-local-depth wild-depot-local-residual
bent-dealer-bare-local bent-dealer-grow-two bent-depot-local-bracket 17 17-not-its-own 17-wild-not-its-own 17-bent-not-its-own 17-nothing 17-as
16-passes dealer-then-corner dealer-then-label depot-then-shade plant-then-patch dealer-then-dealer dealer-then-plant depot-then-end
plant-then-half behind-band behind-shades-local before-corners bare-then-label in-heading-4 form-upper form-two-spaces form-nothing form-owner
form-cr join-8 join-10-before-8 join-10-before-9 join-10-before-4 joined
""".split()


# ---- counts for each role


def counted(passes, roles, cells, holes=(), ambiguous=()):
    """A whole result: its pass lines, the sums of each role that has any, and its
    sheet. RESIDUAL stands for a residual, which no hand works out."""
    lines = ["(result 1)"] + list(passes)
    lines += [f"(role {role} {roles.get(role, '0 0 0 0')})" for role in ("plant", "depot", "dealer")]
    lines += [f"(cell ({i} {j}) {n})" for i, j, n in cells]
    lines += [f"(hole ({i} {j}))" for i, j in holes]
    lines += [f"(ambiguous ({i} {j}))" for i, j in ambiguous]
    return "".join(line + "\n" for line in lines)


# Two labels. Where cell (2, 0) is expected lie two corners, at one distance; two more, 4 past where cells (-1, 0) and (0, 1) are
# expected, have too long an edge. Every grow visits the six cells beside the labels.
TWO_AT_2_0 = [corner("41f00000", "41100000"), corner("41f00000", "41300000")]
MARKED = HEAD + CORNERS[:2] + TWO_AT_2_0 + [corner("c0800000"), corner("41200000", "41c00000")] + LABELS
MARKED_GROW = "(grow 0 3 1 2 no)"
MARKED_SHEET = [(0, 0, 0), (1, 0, 1)], [(-1, 0), (0, -1), (0, 1), (1, -1), (1, 1)], [(2, 0)]

# Four labels, and a corner 4.5 past where cell (2, 0) is expected: neither fill's 3.5 nor bare grow's 4.375 reach it. Grow visits the
# eight cells beside the labels, and local walks the twelve around them.
SQUARE_CORNERS = CORNERS[:2] + [corner("41200000", "41a00000"), corner("41a00000", "41a00000")]
SQUARE = HEAD + SQUARE_CORNERS + [corner("41f00000", "41680000")] + LABELS + ["(label 2 (0 1))", "(label 3 (1 1))"]
SQUARE_CELLS = [(0, 0, 0), (0, 1, 2), (1, 0, 1), (1, 1, 3)]
SQUARE_HOLES = [(-1, 0), (-1, 1), (0, -1), (0, 2), (1, -1), (1, 2), (2, 0), (2, 1)]
WIDE_LOCAL = "(local 3f200000 3fc00000 1 3e800000 1)"  # reaches 6.25

# The same with two corners for cell (2, 0), and 3 past where cells (-1, 0) and (0, 2) are expected two with too long an edge.
DOUBTFUL = HEAD + SQUARE_CORNERS + TWO_AT_2_0 + [corner("c0400000"), corner("41200000", "42040000")] + SQUARE[-4:]
DOUBTFUL_SHEET = SQUARE_CELLS, [(-1, 0), (-1, 1), (0, -1), (0, 2), (1, -1), (1, 2), (2, 1)], [(2, 0)]

# 01's example with a corner more, 2 past where cell (0, 1) is expected: a narrow grow reaches only corner 2, a bare one the other too.
NARROW = "(grow 3dcccccd 3fc00000 3fa00000)"
NEAR = HEAD + CORNERS + [corner("41200000", "41b00000")] + LABELS
NEAR_SHEET = (
    [(0, 0, 0), (0, 1, 3), (1, 0, 1), (2, 0, 2)],
    [(-1, 0), (-1, 1), (0, -1), (0, 1), (0, 2), (1, -1), (1, 1), (2, -1), (2, 1), (3, 0)],
)

# The corners of the sheet as labels, so that local walks all other cells.
FAR = [corner(x, y) for x in ("00000000", "449ec000") for y in ("00000000", "449ec000")]
ENDS = HEAD + FAR + [f"(label {2 * a + b} ({i} {j}))" for a, i in enumerate((-64, 63)) for b, j in enumerate((-64, 63))]
ENDS_CELLS = [(-64, -64, 0), (-64, 63, 1), (63, -64, 2), (63, 63, 3)]


def no_passes():
    """The three lines stand in every result."""
    for name, lines, answer in (
        ("heading", HEAD, counted([], {}, [])),
        ("corners", HEAD + CORNERS, counted([], {}, [])),
        ("labels", FRONT, counted([], {}, [(0, 0, 0), (1, 0, 1)])),
        ("shades", FRONT + SHADES, counted([], {}, [(0, 0, 0), (1, 0, 1)])),
        ("square", SQUARE, counted([], {}, SQUARE_CELLS)),
    ):
        yield f"count-none-{name}", text(lines), answer
    yield "count-none-patch", patched(TWO, [(1, 1, 9), (2, 2, 9)]), counted([], {}, [(0, 0, 0), (1, 0, 1), (2, 0, 2)])


def one_role():
    """Each role with each pass that it may run, once, twice and 16 times."""
    # Of the square: attached, no candidate, ambiguous, edge of a first and of every later one.
    grow, fill, local = "(grow 0 8 0 0 no)", "(fill 0 1 no)", "(local 1 11 0 0 1 RESIDUAL no)"
    for role, forms in (("plant", ("(grow)", GROW, "(fill)", FILL)), ("depot", ("(grow)", GROW, "(fill)", FILL)), ("dealer", ("(grow)", "(fill)"))):
        for k, form in enumerate(forms):
            for times in (1, 2, 16):
                if form.startswith("(grow"):
                    answer = counted([grow] * times, {role: f"0 {8 * times} 0 0"}, SQUARE_CELLS, SQUARE_HOLES)
                    marked = counted([MARKED_GROW] * times, {role: f"0 {3 * times} {times} {2 * times}"}, *MARKED_SHEET)
                else:
                    answer = counted([fill] * times, {}, SQUARE_CELLS)
                    marked = counted([fill] * times, {}, MARKED_SHEET[0])
                yield f"count-{role}-{k}-{times}", text(SQUARE + [f"(as {role})"] + [form] * times), answer
                yield f"count-{role}-{k}-{times}-marked", text(MARKED + [f"(as {role})"] + [form] * times), marked
    cells = SQUARE_CELLS + [(2, 0, 4)]
    for name, before in (("", []), ("-as", [PLANT])):
        yield f"count-local{name}", text(SQUARE + before + [WIDE_LOCAL]), counted([local], {"plant": "1 11 0 0"}, cells)
    doubtful = "(local 0 9 1 2 1 RESIDUAL no)"
    for times in (1, 2, 16):
        answer = counted([doubtful] * times, {"plant": f"0 {9 * times} {times} {2 * times}"}, SQUARE_CELLS)
        yield f"count-local-doubtful-{times}", text(DOUBTFUL + [LOCAL] * times), answer
    whole = "(local 0 16380 0 0 1 RESIDUAL yes)"
    for times in (4, 5, 16):  # the second is above 65,535
        yield f"count-local-sheet-{times}", text(ENDS + [LOCAL] * times), counted([whole] * times, {"plant": f"0 {16380 * times} 0 0"}, ENDS_CELLS)
    # Nothing is counted below 4 labels, and by no round.
    yield "count-local-few", text(FRONT + [LOCAL] * 2), told(LOCAL, LOCAL)
    none = LOCAL.replace(" 1 ", " 0 ", 1)
    yield "count-local-no-round", text(SQUARE + [none]), counted(["(local 0 0 0 0 0 none no)"], {}, SQUARE_CELLS)


def fill_alone():
    """Fill adds to attached alone: neither its rounds nor the cells that it passes over."""
    for role, line in (("plant", PLANT), ("depot", DEPOT)):
        for rounds in (0, 1, 2, 64):
            said = min(max(rounds, 1), 2)
            form = f"(fill 3eb33333 3fc00000 {rounds})"
            answer = counted([f"(fill 1 {said} no)"], {role: "1 0 0 0"}, [(0, 0, 0), (1, 0, 1), (2, 0, 2)])
            yield f"count-fill-{role}-{rounds}", text(FRONT + [line, form]), answer
            answer = counted(["(fill 0 1 no)"], {}, MARKED_SHEET[0])
            yield f"count-fill-{role}-{rounds}-marked", text(MARKED + [line, form]), answer
    cells = [(0, 0, 0), (1, 0, 1), (2, 0, 2)]
    for name, lines, sums in (
        ("dealer", [DEALER, "(fill)", "(fill)"], {"dealer": "1 0 0 0"}),
        ("dealer-first", [DEALER, "(fill)", PLANT, "(fill)"], {"dealer": "1 0 0 0"}),
        ("dealer-second", ["(fill)", DEALER, "(fill)"], {"plant": "1 0 0 0"}),
        ("depot-last", ["(fill)", DEALER, "(fill)", DEPOT, FILL], {"plant": "1 0 0 0"}),
    ):
        passes = ["(fill 1 1 no)"] + ["(fill 0 1 no)"] * (sum(not line.startswith("(as ") for line in lines) - 1)
        yield f"count-fill-{name}", text(FRONT + lines), counted(passes, sums, cells)


def more_roles():
    """Passes of several roles; all passes of one role add up, wherever they stand."""
    twice = ["(grow 1 8 0 0 no)", "(grow 1 9 0 0 no)"]
    for name, lines, sums in (
        ("plant", [NARROW, "(grow)"], {"plant": "2 17 0 0"}),
        ("depot", [DEPOT, NARROW, GROW], {"depot": "2 17 0 0"}),
        ("depot-again", [DEPOT, NARROW, DEPOT, "(grow)"], {"depot": "2 17 0 0"}),
        ("plant-dealer", [NARROW, DEALER, "(grow)"], {"plant": "1 8 0 0", "dealer": "1 9 0 0"}),
        ("depot-plant", [DEPOT, NARROW, PLANT, GROW], {"plant": "1 9 0 0", "depot": "1 8 0 0"}),
        ("depot-dealer", [DEPOT, NARROW, DEALER, "(grow)"], {"depot": "1 8 0 0", "dealer": "1 9 0 0"}),
    ):
        yield f"count-near-{name}", text(NEAR + lines), counted(twice, sums, *NEAR_SHEET)
    for name, lines, sums in (
        ("each", [DEALER, "(grow)", "(grow)", DEPOT, GROW, PLANT, GROW, GROW, "(grow)"],
         {"plant": "0 9 3 6", "depot": "0 3 1 2", "dealer": "0 6 2 4"}),
        ("apart", ["(grow)", DEALER, "(grow)", PLANT, "(grow)"], {"plant": "0 6 2 4", "dealer": "0 3 1 2"}),
        ("back", [DEPOT, GROW, DEALER, "(grow)", DEPOT, GROW, DEALER, "(grow)"], {"depot": "0 6 2 4", "dealer": "0 6 2 4"}),
        ("16", [DEALER, "(grow)", DEPOT, GROW, PLANT, GROW] * 5 + [DEPOT, "(grow)"],
         {"plant": "0 15 5 10", "depot": "0 18 6 12", "dealer": "0 15 5 10"}),
        ("16-dealer-last", [GROW] * 15 + [DEALER, "(grow)"], {"plant": "0 45 15 30", "dealer": "0 3 1 2"}),
        ("16-dealer-first", [DEALER, "(grow)", PLANT] + [GROW] * 15, {"plant": "0 45 15 30", "dealer": "0 3 1 2"}),
    ):
        passes = [MARKED_GROW] * sum(not line.startswith("(as ") for line in lines)
        yield f"count-marked-{name}", text(MARKED + lines), counted(passes, sums, *MARKED_SHEET)
    # A dealer's grow and fill, then the plant's local, which attaches the corner that they did not reach.
    local, cells = "(local 1 11 0 0 1 RESIDUAL no)", SQUARE_CELLS + [(2, 0, 4)]
    first = ["(grow 0 8 0 0 no)", "(fill 0 1 no)"]
    holes = [hole for hole in SQUARE_HOLES if hole != (2, 0)]  # local clears its cell
    lines = [DEALER, "(grow)", "(fill)", PLANT, WIDE_LOCAL]
    yield "count-dealer-local", text(SQUARE + lines), counted(first + [local], {"plant": "1 11 0 0", "dealer": "0 8 0 0"}, cells, holes)
    # No corner is free then; a grow has nine cells beside the five labels.
    holes = sorted(holes + [(2, -1), (3, 0)])
    sums = {"plant": "1 11 0 0", "dealer": "0 17 0 0"}
    yield "count-dealer-local-dealer", text(SQUARE + lines + [DEALER, "(grow)"]), counted(first + [local, "(grow 0 9 0 0 no)"], sums, cells, holes)
    doubtful = ["(grow 0 5 1 2 no)", "(local 0 9 1 2 1 RESIDUAL no)"]
    for name, lines, sums in (
        ("depot", [DEPOT, GROW, PLANT, LOCAL], {"plant": "0 9 1 2", "depot": "0 5 1 2"}),
        ("dealer", [DEALER, "(grow)", PLANT, LOCAL], {"plant": "0 9 1 2", "dealer": "0 5 1 2"}),
        ("plant", [GROW, LOCAL], {"plant": "0 14 2 4"}),
    ):
        yield f"count-doubtful-{name}", text(DOUBTFUL + lines), counted(doubtful, sums, *DOUBTFUL_SHEET)


def shaded_counts():
    """Behind the unmatched line, before the cells; unmatched is not summed."""
    other = ["(shade 4 1)"]  # cell (2, 0), where the corner is expected, takes kind 0
    local = ["(local 0 12 0 0 1 RESIDUAL no)", "(unmatched 1)"]
    corners = HEAD + SQUARE_CORNERS + [corner("41f00000")] + SQUARE[-4:]
    for times in (1, 2, 16):
        answer = counted(local * times, {"plant": f"0 {12 * times} 0 0"}, SQUARE_CELLS)
        yield f"count-shaded-{times}", text(corners + other + [LOCAL] * times), answer
    own = ["(local 1 11 0 0 1 RESIDUAL no)", "(unmatched 0)"]
    yield "count-shaded-own", text(corners + ["(shade 4 0)", LOCAL]), counted(own, {"plant": "1 11 0 0"}, SQUARE_CELLS + [(2, 0, 4)])
    lines = [DEALER, "(grow)", PLANT, LOCAL, DEPOT, FILL]
    passes = ["(grow 0 8 0 0 no)"] + local + ["(fill 0 1 no)"]
    sums = {"plant": "0 12 0 0", "dealer": "0 8 0 0"}
    yield "count-shaded-roles", text(corners + other + lines), counted(passes, sums, SQUARE_CELLS, SQUARE_HOLES)
    yield "count-shaded-last", text(corners + other + lines[:4]), counted(passes[:3], sums, SQUARE_CELLS, SQUARE_HOLES)
    few = ["(local 0 0 0 0 0 none no)", "(unmatched 0)"]
    yield "count-shaded-few", text(FRONT + SHADES + [LOCAL]), counted(few, {}, [(0, 0, 0), (1, 0, 1)])


def patched_counts():
    """The given labels are those of the union, a corner in both sets once: none of them is counted."""
    lines = [DEALER, "(grow)", DEPOT, FILL, PLANT, LOCAL]
    for name, first, second in (
        ("one", ONE, [(0, 5, -3), (1, 6, -3)]),
        ("both", TWO, [(0, 5, -3), (1, 6, -3)]),
        ("other", [(1, 1, 0)], [(1, 0, 0), (0, -1, 0)]),
        ("second-inside", TWO, [(1, 9, 9)]),
    ):
        yield f"count-patch-{name}", patched(first, second, lines), told(*lines)
    none = ["(grow 0 8 0 0 no)", "(fill 0 1 no)", "(local 0 0 0 0 0 none no)"]
    holes = [(-1, 0), (0, -1), (0, 1), (1, -1), (1, 1), (2, -1), (2, 1), (3, 0)]
    answer = counted(none, {"dealer": "0 8 0 0"}, [(0, 0, 0), (1, 0, 1), (2, 0, 2)], holes)
    yield "count-patch-all", patched(THREE, [(1, 0, 0), (2, 1, 0)], lines), answer
    yield "count-patch-all-halves", patched(TWO, [(2, 2, 0), (1, 1, 0)], lines), answer


def uncounted():
    """A refused frame has no role lines, whatever it has counted before the refused line, if it ran."""
    for name, lines, number, line in (
        ("10", [DEALER, "(grow)", GROW], 10, 12),
        ("17", PASSES * 17, 2, 26),
        ("wild", ["(grow)", WILD_PASSES["fill-rounds"]], 3, 11),
        ("end", ["(grow)", DEALER], 1, 12),
        ("role", ["(grow)", "(role plant 1 8 0 0)"], 1, 11),
        ("role-first", ["(role plant 0 0 0 0)"], 1, 10),
        ("role-behind-as", [PLANT, "(role plant 0 0 0 0)"], 1, 11),
    ):
        yield f"count-refused-{name}", text(FRONT + lines), refused(number, line)
    yield "count-refused-8", patched(ONE, [(1, 1, 0)], [DEALER, "(grow)"]), refused(8, 9)


def counts():
    """All of these, each with an answer by hand."""
    for family in (no_passes(), one_role(), fill_alone(), more_roles(), shaded_counts(), patched_counts(), uncounted()):
        yield from family


# ---- whole frames


def whole():
    yield "example", text(EXAMPLE), TAKEN
    yield "head-only", text(HEAD), None
    yield "head-and-passes", text(HEAD + ["(grow)", "(fill)", "(local 3eb33333 3fc00000 64 3e800000 4)"]), None
    yield "corners-only", text(HEAD + CORNERS), None
    yield "no-passes", text(HEAD + CORNERS + LABELS), None
    yield "no-labels", text(HEAD + CORNERS + PASSES), None
    yield "labels-any-order", text(HEAD + CORNERS + LABELS[::-1] + PASSES), None
    for size in range(len(text(EXAMPLE))):
        yield f"example-cut-{size}", text(EXAMPLE)[:size], None


def damaged(seed, count, shaded=generate.SHADED, patched=generate.PATCHED, roled=generate.ROLED):
    """Good frames with bytes changed, left out, doubled or moved; `shaded` is the
    share of them with shades, `patched` that of those with a patch line, `roled`
    that of those with as lines."""
    rng = random.Random(seed)
    good = [text(EXAMPLE)] * (shaded < 1) + [text(SHADED)] * (shaded > 0) + [text(PATCHED)] * (patched > 0) + [text(ROLED)] * (roled > 0)
    good += [data for _, data in generate.frames(seed, 20, shaded=shaded, patched=patched, roled=roled)]
    good = [data for data in good if len(data) < 4000]
    for number in range(count):
        data = bytearray(rng.choice(good))
        for _ in range(rng.choice((1, 1, 1, 2, 5))):
            at = rng.randrange(len(data))
            way = rng.randrange(5)
            if way == 0:
                data[at] = rng.randrange(256)
            elif way == 1:
                data[at] = rng.choice(b"()0123456789abcdef -\n")
            elif way == 2:
                del data[at : at + rng.choice((1, 1, 2, 9))]
            elif way == 3:
                data[at:at] = data[at : at + rng.choice((1, 2, 9, 40))]
            else:
                data[at:at] = bytes([rng.choice(b"()0123456789abcdef -\n")])
            if not data:
                data = bytearray(b"(")
        yield f"damaged-{seed}-{number}", bytes(data), None


def random_bytes(seed, count):
    rng = random.Random(seed)
    for number in range(count):
        data = bytes(rng.randrange(256) for _ in range(rng.choice((1, 5, 40, 300))))
        yield f"random-{seed}-{number}", rng.choice((b"", b"(frame 1)\n", text(HEAD))) + data, None


def left_after_lines(result):
    """How many bytes of the buffer are left after each line of a result."""
    left = BUFFER
    for line in result.splitlines(keepends=True):
        if left < LEAST:
            left = BUFFER
        left -= len(line)
        yield left


def long_results(seed):
    """Results longer than the buffer, some with a line that ends where exactly 128 or 127 bytes are left."""
    wanted = {LEAST, LEAST - 1}
    for number, (_, data) in enumerate(generate.frames(seed, 4000, "dense", shaded=0, patched=0, roled=0)):
        result = reference.result(data)
        if len(result) <= BUFFER:
            continue
        met = wanted & set(left_after_lines(result))
        if met or number == 0:
            wanted -= met
            yield "long-" + "-".join(str(m) for m in sorted(met)) + f"-{number}", data, None
        if not wanted:
            return
    raise SystemExit(f"cases: no result found with a line that leaves {sorted(wanted)} bytes")


def cases():
    for family in (whole(), bent(), overfull(), wild(), labels(), damaged(1, 300, 0, 0, 0), random_bytes(1, 60), long_results(1)):
        yield from family
    for family in (whole_shades(), bent_shades(), misplaced_shades(), strange_shades(), damaged(2, 150, 1, 0, 0), bare_grow()):
        yield from family
    for family in (joined_patches(), unjoined_patches(), strange_patches(), misplaced_patches(), large_patches(), damaged(3, 150, patched=1, roled=0)):
        yield from family
    yield from roles()
    yield from counts()
    yield from damaged(4, 150, roled=1)


RESIDUAL = re.compile(r"(?m)^(\(local(?: \d+){5} )[0-9a-f]{8} ")


def checked():
    """Every case with its result; fails where reference.py and 01's table by hand differ."""
    names = set()
    for name, data, answer in cases():
        if name in names:
            raise SystemExit(f"cases: two cases are named {name}")
        names.add(name)
        result = reference.result(data)
        if answer is not None and answer not in (result, RESIDUAL.sub(r"\1RESIDUAL ", result)):
            raise SystemExit(f"cases: {name}: by hand {answer!r}, reference.py says {result[:80]!r}")
        yield name, data, result


def main():
    options = argparse.ArgumentParser(description=__doc__, formatter_class=argparse.RawDescriptionHelpFormatter)
    options.add_argument("--out")
    folder = options.parse_args().out
    count = by_hand = 0
    for name, data, result in checked():
        count += 1
        if folder:
            with open(os.path.join(folder, name + ".frame"), "wb") as out:
                out.write(data)
            with open(os.path.join(folder, name + ".result"), "w") as out:
                out.write(result)
    print(f"cases: {count} frames")


if __name__ == "__main__":
    main()
