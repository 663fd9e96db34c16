#!/usr/bin/env python3
"""Feeds the frame program, crates/recover/out/recover, with damaged and random texts.

    fuzz.py [--seed S] [--count N] [--workers W] [--limit SECONDS]
    fuzz.py --replay NUMBER         prints text NUMBER of the seed
    --keep FOLDER                   where texts with a wrong answer go, and the
                                    one that took longest (default: compare/fuzz-kept)

Every text comes from its own seed. Kinds of text:

    bytes       random bytes, some behind a good heading
    flip        a frame with bytes changed
    drop        a frame with bytes left out
    double      a frame with bytes doubled, or moved elsewhere
    lines       a frame with lines swapped, left out, doubled or of another frame
    numbers     a frame with numbers replaced: limits, just past them, not finite
    shades      a frame with shade lines put in, doubled, moved, spoilt
    patches     a frame with its labels put into two sets, with labels of either
                changed or left out, with the patch line doubled, moved, spoilt
    roles       a frame with as lines put in, changed, doubled, moved, spoilt,
                with passes made bare or written out, and put in behind them
    cut         a frame that ends early
    long        texts of 65,535 bytes and more
    load        up to 1,024 corners and 16 passes with many rounds
    good        a frame as it is

An answer is right if the program ends within the limit with status 0, writes
nothing to standard error, and writes to standard output either

    one line (refused N L): N from 1 to 6 or 8 to 10, L from 1 to one more than the text has
    lines, or (refused 2 0) where and only where there are over 65,536 bytes; and
    the refusal is the one that the reader of reference.py gives; or

    one whole result: the heading; a line for every pass of the frame, of its
    kind, and an unmatched line behind each local where any shade stands, and
    nowhere else; the role lines, their sums being those of the pass lines; cells, holes and ambiguous cells, each strictly by i, then j, on the
    sheet; no corner twice, none that was not given, every given label where it
    was, those of the second set where the join takes them; as many cells as labels and attached corners; rounds within the limits
    of the pass; marks as many as the grow lines say, if there is one and no
    local clears any, else within what they say; the last pass's rim as the cells say. And the reader of
    reference.py accepts the text.

The passes themselves are not run again here: run.py does that.
"""

import argparse
import multiprocessing
import os
import random
import re
import select
import signal
import sys
import tempfile
import time
from collections import Counter

import cases
import generate
import reference as ref

HERE = os.path.dirname(os.path.abspath(__file__))
PROGRAM = os.path.join(HERE, "..", "crates", "recover", "out", "recover")
MOST_BYTES = 65536


# ---- Texts ----------------------------------------------------------------

ALPHABET = b"()0123456789abcdef -\n"
# Floats at limits and just past them, tiny, huge, not finite, by their bits.
FLOATS = [
    "00000000", "80000000", "00000001", "80000001", "007fffff", "00800000", "34000000",
    "3a800000", "3a7fffff", "3a83126f", "3f7fffff", "3f800000", "3f800001", "bf800000",
    "40800000", "40800001", "c0800000", "c0800001", "41800000", "41800001", "447a0000",
    "447a0001", "46800000", "46800001", "c6800000", "c6800001", "7f7fffff", "ff7fffff",
    "7f800000", "ff800000", "7fc00000", "7f800001", "ffffffff",
]
# The same without those that are refused everywhere.
MILD = FLOATS[:24] + ["c6800000"]
WHOLES = [
    "0", "1", "-1", "2", "3", "4", "5", "16", "63", "64", "65", "-64", "-65", "1023", "1024",
    "65535", "65536", "2147483647", "2147483648", "-2147483648", "4294967295", "4294967296",
    "18446744073709551615", "18446744073709551616", "-0", "00", "01", "+1", "9" * 40,
]
FLOAT = re.compile(rb"\b[0-9a-f]{8}\b")
WHOLE = re.compile(rb"(?<=[ (])-?[0-9]{1,5}(?=[ )])")
LABEL = re.compile(rb"\(label (-?[0-9]{1,5}) \((-?[0-9]{1,5}) (-?[0-9]{1,5})\)\)")
PASS = re.compile(rb"\((?:grow|fill|local)[ )]")
WRITTEN = [line.encode() for line in (cases.GROW, cases.FILL, cases.LOCAL)]
WILD = [line.encode() for line in cases.WILD_PASSES.values()]
SIZES = [1, 1, 1, 2, 5, 20]


class Texts:
    """Texts by number. The frames that are damaged are drawn once."""

    def __init__(self, seed):
        self.seed = seed
        drawn = [data for _, data in generate.frames(f"fuzz {seed}", 300)]
        self.frames = [cases.text(cases.EXAMPLE)] + [data for data in drawn if len(data) < 2500]
        self.large = [data for data in drawn if len(data) >= 2500]

    def text(self, number):
        """(kind, bytes)"""
        rng = random.Random(f"{self.seed} {number}")
        kind = rng.choices(list(KINDS), [weight for _, weight in KINDS.values()])[0]
        return kind, bytes(KINDS[kind][0](self, rng))

    def frame(self, rng):
        return rng.choice(self.large if rng.random() < 0.02 else self.frames)

    def random_bytes(self, rng):
        head = rng.choice([b"", b"", b"(frame 1)\n", cases.text(cases.HEAD)])
        size = rng.choice([0, 1, 5, 40, 300, 1000])
        if rng.random() < 0.5:
            return head + rng.randbytes(size)
        return head + bytes(rng.choices(ALPHABET, k=size))

    def flipped(self, rng):
        data = bytearray(self.frame(rng))
        for _ in range(rng.choice(SIZES)):
            at = rng.randrange(len(data))
            way = rng.randrange(3)
            if way == 0:
                data[at] ^= 1 << rng.randrange(8)
            elif way == 1:
                data[at] = rng.randrange(256)
            else:
                data[at] = rng.choice(b"0123456789abcdef")
        return data

    def dropped(self, rng):
        data = bytearray(self.frame(rng))
        for _ in range(rng.choice(SIZES)):
            at = rng.randrange(len(data) + 1)
            del data[at : at + rng.choice([1, 1, 2, 9, 40])]
        return data

    def doubled(self, rng):
        data = bytearray(self.frame(rng))
        for _ in range(rng.choice(SIZES)):
            at = rng.randrange(len(data))
            part = data[at : at + rng.choice([1, 1, 2, 9, 40])]
            to = at if rng.random() < 0.5 else rng.randrange(len(data))
            data[to:to] = part
        return data

    def lines(self, rng):
        lines = self.frame(rng).splitlines(keepends=True)
        for _ in range(rng.choice(SIZES)):
            a, b = rng.randrange(len(lines)), rng.randrange(len(lines))
            way = rng.randrange(5)
            if way == 0:
                lines[a], lines[b] = lines[b], lines[a]
            elif way == 1 and len(lines) > 1:
                del lines[a]
            elif way == 2:
                lines.insert(b, lines[a])
            elif way == 3:  # of their own sort, so that the order stays
                same = [k for k, line in enumerate(lines) if line[:5] == lines[a][:5]]
                b = rng.choice(same)
                lines[a], lines[b] = lines[b], lines[a]
            else:
                other = self.frame(rng).splitlines(keepends=True)
                lines[a] = rng.choice([line for line in other if line[:5] == lines[a][:5]] or other)
        return b"".join(lines)

    def numbers(self, rng):
        data = self.frame(rng)
        mild = rng.random() < 0.6
        for _ in range(rng.choice(SIZES)):
            whole = rng.random() < 0.3
            found = list((WHOLE if whole else FLOAT).finditer(data))
            if not found:
                continue
            place = rng.choice(found)
            if whole:
                new = rng.choice(WHOLES[:9] if mild else WHOLES)
            elif rng.random() < 0.2:
                new = f"{rng.getrandbits(32):08x}"
            else:
                new = rng.choice(MILD if mild else FLOATS)
            data = data[: place.start()] + new.encode() + data[place.end() :]
        return data

    def shades(self, rng):
        lines = self.frame(rng).splitlines()
        corners = sum(line.startswith(b"(corner") for line in lines)
        behind = [k for k, line in enumerate(lines) if line.startswith((b"(frame", b"(cell", b"(axes", b"(band", b"(corner", b"(label", b"(patch"))]
        first = max(behind, default=-1) + 1
        for _ in range(rng.choice(SIZES)):
            n = rng.randrange(corners) if corners and rng.random() < 0.8 else rng.choice(WHOLES)
            k = rng.choice([0, 1]) if rng.random() < 0.9 else rng.choice(WHOLES + ["3f800000", ""])
            line = f"(shade {n} {k})".encode()
            if rng.random() < 0.1:
                at = rng.randrange(len(line) + 1)
                line = line[:at] + rng.choice([b"", b" ", b")", b"(", b"-", b"0", b"\0"]) + line[at + rng.randrange(2) :]
            shades = [k for k, other in enumerate(lines) if other.startswith(b"(shade ")]
            way = rng.randrange(10)
            if way < 6:  # among the shades
                lines.insert(rng.choice(shades or [first]), line)
            elif way == 6 and shades:
                lines[rng.choice(shades)] = line
            elif way == 7 and shades:
                lines.insert(rng.choice(shades), lines[rng.choice(shades)])
            elif way == 8 and shades:
                moved = lines.pop(rng.choice(shades))
                lines.insert(rng.randrange(len(lines) + 1), moved)
            elif way == 9 and rng.random() < 0.3:
                lines.insert(rng.randrange(len(lines) + 1), line)
        return b"".join(line + b"\n" for line in lines)

    def patches(self, rng):
        lines = self.frame(rng).splitlines()
        for _ in range(rng.choice(SIZES)):
            labels = [k for k, line in enumerate(lines) if LABEL.fullmatch(line)]
            patch = [k for k, line in enumerate(lines) if line.startswith(b"(patch")]
            way = rng.randrange(10)
            if way < 5 and not patch and labels:  # some of the first set once more, moved
                shared = rng.sample(labels, rng.randint(1, min(3, len(labels))))
                di, dj = rng.choice([0, 1, -3, 9]), rng.choice([0, 0, 2, -6])
                if rng.random() < 0.2:
                    di, dj = rng.choice([60, -60, 127]), rng.choice([0, -64])
                behind = [b"(patch)"]
                for k in shared:
                    n, i, j = map(int, LABEL.fullmatch(lines[k]).groups())
                    behind.append(b"(label %d (%d %d))" % (n, i + di, j + dj))
                at = rng.choice(labels) + 1
                first, rest = [line for line in lines[at:] if LABEL.fullmatch(line)], [line for line in lines[at:] if not LABEL.fullmatch(line)]
                lines = lines[:at] + behind + first * rng.randrange(2) + rest
            elif way < 7 and labels:
                at = rng.choice(labels)
                numbers = [int(number) for number in LABEL.fullmatch(lines[at]).groups()]
                numbers[rng.randrange(3)] += rng.choice([1, -1, 1, -1, 2, -2, 64, -127])
                lines[at] = b"(label %d (%d %d))" % tuple(numbers)
            elif way == 7 and labels:
                del lines[rng.choice(labels)]
            elif way == 8:
                line = lines.pop(rng.choice(patch)) if patch and rng.random() < 0.5 else b"(patch)"
                lines.insert(rng.choice(labels or [4]) if rng.random() < 0.7 else rng.randrange(len(lines) + 1), line)
            elif patch and rng.random() < 0.5:
                line, at = lines[patch[0]], rng.randrange(8)
                lines[patch[0]] = line[:at] + rng.choice([b"", b" ", b")", b"(", b"1", b"\0", b"s"]) + line[at + rng.randrange(2) :]
        return b"".join(line + b"\n" for line in lines)

    def roles(self, rng):
        lines = self.frame(rng).splitlines()
        for _ in range(rng.choice(SIZES)):
            passes = [k for k, line in enumerate(lines) if PASS.match(line)]
            roles = [k for k, line in enumerate(lines) if line.startswith(b"(as")]
            line = rng.choice([b"(as dealer)", b"(as depot)", b"(as plant)"])
            way = rng.randrange(12)
            if way < 4:  # before a pass, now and then elsewhere
                at = rng.choice(passes) if passes and rng.random() < 0.9 else rng.randrange(len(lines) + 1)
                lines.insert(at, line)
            elif way == 4 and roles:
                lines[rng.choice(roles)] = line
            elif way == 5 and roles:
                gone = lines.pop(rng.choice(roles))
                if rng.random() < 0.5:
                    lines.insert(rng.choice(passes or [len(lines)]), gone)
            elif way == 6 and roles:
                at = rng.choice(roles)
                lines.insert(at, lines[at])
            elif way == 7 and roles:
                at, k = rng.choice(roles), rng.randrange(11)
                lines[at] = lines[at][:k] + rng.choice([b"", b" ", b")", b"(", b"1", b"\0", b"s"]) + lines[at][k + rng.randrange(2) :]
            elif way < 10 and passes:
                at = rng.choice(passes)
                lines[at] = rng.choice(([b"(grow)", b"(fill)", b"(local)"] * 2 + WRITTEN) if rng.random() < 0.8 else WILD)
            else:
                at = rng.choice(passes) + 1 if passes else len(lines)
                new = rng.choice([b"(grow)", b"(fill)", *WRITTEN])
                lines[at:at] = [line] * rng.randrange(2) + [new] * rng.choice([1, 1, 1, 1, 13])
        return b"".join(line + b"\n" for line in lines)

    def cut(self, rng):
        data = self.frame(rng)
        return data[: rng.randrange(len(data) + 1)]

    def long(self, rng):
        size = MOST_BYTES + rng.choice([-1, 0, 0, 1, 1, 2, 1000, 200000])
        way = rng.randrange(5)
        if way == 0:
            return rng.randbytes(size)
        if way == 1:
            return (self.frame(rng) * (size // 200))[:size]
        if way == 2:
            return rng.choice([b"\n", b"(", b"0", b"\0"]) * size
        # A good heading, then corners, then labels or one line with very many digits.
        data = cases.text(cases.HEAD + cases.many_corners(rng.choice([1, 1000, 1024, 1025])))
        if way == 3:
            k = 0
            while len(data) < size - 40 and k < 1024:
                data += f"(label {k} ({k // 128 - 64} {k % 128 - 64}))\n".encode()
                k += 1
            k = 0
            while len(data) < size - 40 and k < 1024 and size % 2:
                data += f"(shade {k} {k % 2})\n".encode()
                k += 1
        left = size - len(data)
        if left < 20:
            return data[:size]
        return data + b"(label " + rng.choice([b"9", b"1", b"0"]) * (left - 15) + b" (0 0))\n"

    def load(self, rng):
        draft = generate.Draft()
        far = rng.choice([3, 10, 40])
        side = rng.randint(4, 32)
        pitch = 16.0
        cells = [(i - side // 2, j - side // 2) for i in range(side) for j in range(side)]
        spread = max(1, min(far, 120 // side))
        for i, j in cells[:1024]:
            at = (i * spread, j * spread)
            if rng.random() < 0.4 and ref.on_sheet(at):
                draft.labels.append((len(draft.corners), at))
            x, y = i * spread * pitch, j * spread * pitch
            draft.corners.append((x + rng.gauss(0, 0.3), y + rng.gauss(0, 0.3), pitch))
        if rng.random() < 0.5:  # every second corner of the wrong kind, or nearly all right
            wrong = rng.choice([0.05, 0.5])
            draft.shades = [(n, (sum(cell) * spread + (rng.random() < wrong)) % 2) for n, cell in enumerate(cells[:1024])]
        draft.cell = pitch
        draft.band = 4.0
        for _ in range(rng.choice([1, 1, 2, 4, 16])):
            kind = rng.choice(["grow", "fill", "local"])
            search, factor = rng.choice([0.35, 1.0, 16.0]), rng.choice([0.0, 1.0, 1.5])
            numbers = {
                "grow": (search, factor, rng.choice([1.0, 2.0, 16.0])),
                "fill": (search, factor, rng.choice([1, 8, 64])),
                "local": (search, factor, rng.choice([1, 2, 64]), rng.choice([0.3, 16.0]), rng.randint(0, 4)),
            }
            draft.passes.append((kind, numbers[kind]))
        return draft.text()


KINDS = {  # (how it is made, how often)
    "bytes": (Texts.random_bytes, 15),
    "flip": (Texts.flipped, 15),
    "drop": (Texts.dropped, 9),
    "double": (Texts.doubled, 9),
    "lines": (Texts.lines, 15),
    "numbers": (Texts.numbers, 25),
    "shades": (Texts.shades, 10),
    "patches": (Texts.patches, 10),
    "roles": (Texts.roles, 10),
    "cut": (Texts.cut, 6),
    "long": (Texts.long, 2),
    "load": (Texts.load, 0.1),
    "good": (Texts.frame, 3.9),
}


# ---- Answers --------------------------------------------------------------

REFUSAL = re.compile(r"\(refused ([1-689]|10) (0|[1-9][0-9]*)\)\n")
N, W = r"(0|[1-9][0-9]*)", r"(0|-?[1-9][0-9]*)"
PASS_LINES = {
    "grow": re.compile(rf"\(grow {N} {N} {N} {N} (yes|no)\)"),
    "fill": re.compile(rf"\(fill {N} {N} (yes|no)\)"),
    "local": re.compile(rf"\(local {N} {N} {N} {N} {N} ([0-9a-f]{{8}}|none) (yes|no)\)"),
}
UNMATCHED = re.compile(rf"\(unmatched {N}\)")
CELL = re.compile(rf"\(cell \({W} {W}\) {N}\)")
HOLE = re.compile(rf"\(hole \({W} {W}\)\)")
AMBIGUOUS = re.compile(rf"\(ambiguous \({W} {W}\)\)")
ROLE = re.compile(rf"\(role (plant|depot|dealer) {N} {N} {N} {N}\)")


class Wrong(Exception):
    """What is wrong with an answer."""


def must(condition, why):
    if not condition:
        raise Wrong(why)


def check(data, answer):
    """The refusal's number, or 0 for a result; raises Wrong."""
    try:
        text = answer.decode("ascii")
    except UnicodeDecodeError:
        raise Wrong("bytes above 127")
    try:
        frame, refused = ref.read(data), None
    except ref.Refused as why:
        frame, refused = None, why
    if text.startswith("(refused"):
        return check_refusal(data, text, refused)
    must(refused is None, f"no refusal, reference.py says {refused}")
    check_result(frame, text)
    return 0


def check_refusal(data, text, refused):
    match = REFUSAL.fullmatch(text)
    must(match, "not one refusal alone")
    number, line = int(match[1]), int(match[2])
    must((line == 0) == (len(data) > MOST_BYTES), "line 0, and not too many bytes, or the reverse")
    must(line > 0 or number == 2, "line 0, but not number 2")
    must(line <= data.count(b"\n") + 1, "a line that the text has not")
    must(refused, "a refusal, reference.py accepts")
    must((number, line) == (refused.number, refused.line), f"reference.py says {refused}")
    return number


def check_result(frame, text):
    must(text.endswith("\n"), "the last line has no end")
    lines = text[:-1].split("\n")
    must(lines[0] == "(result 1)", "no heading")
    attached = cleared = 0
    grows = [(0, 0)]  # the marks that each grow says: holes, ambiguous
    after, line = 1, ""
    sums = Counter()  # (role, which count)
    for role, (kind, numbers) in zip(frame.roles, frame.passes):
        must(after < len(lines), "too few lines")
        line = lines[after]
        match = PASS_LINES[kind].fullmatch(line)
        must(match, f"not a line of {kind}: {line}")
        after += 1
        if kind == "local" and frame.shades:
            check_unmatched(frame, lines[after : after + 1], int(match[5]))
            after += 1
        attached += int(match[1])
        for count in (1,) if kind == "fill" else (1, 2, 3, 4):
            sums[role, count] += int(match[count])
        if kind == "grow":
            grows.append((int(match[2]) + int(match[4]), int(match[3])))
        if kind == "local":
            cleared += int(match[1])
        if kind == "fill":
            must(int(match[2]) <= max(numbers[2], 1), "more rounds than asked for")
        if kind == "local":
            must(int(match[5]) <= numbers[2], "more rounds than asked for")
    must(after + 3 <= len(lines), "too few role lines")
    for role, said in zip(("plant", "depot", "dealer"), lines[after : after + 3]):
        match = ROLE.fullmatch(said)
        must(match and match[1] == role, f"not the line of the {role}: {said}")
        must(all(int(match[1 + count]) == sums[role, count] for count in (1, 2, 3, 4)), f"not the sums of the {role}: {said}")
    cells, at = run_of(lines, after + 3, CELL)
    holes, at = run_of(lines, at, HOLE)
    ambiguous, at = run_of(lines, at, AMBIGUOUS)
    must(at == len(lines), f"no line of a result here: {lines[at : at + 1]}")
    check_sheet(frame, cells, attached)
    for marks, said in zip((holes, ambiguous), zip(*grows)):
        must(max(said) - cleared <= len(marks) <= sum(said), "more or fewer marks than grow says")
    if frame.passes:
        kind, numbers = frame.passes[-1]
        rings = max(numbers[4], 1) if kind == "local" else 1
        low, high = -64 + rings, 63 - rings
        rim = any(not (low <= i <= high and low <= j <= high) for i, j, _ in cells)
        must(line.endswith(" yes)" if rim else " no)"), "the last pass's rim")


def check_unmatched(frame, line, rounds):
    """Each round passes over each corner at most once for each cell."""
    match = UNMATCHED.fullmatch(line[0]) if line else None
    must(match, f"no unmatched line behind local's, where a shade stands: {line}")
    most = rounds * 16384 * (len(frame.x) - len(frame.labels))
    must(int(match[1]) <= most, f"more corners passed over than there can be: {line}")


def run_of(lines, at, form):
    """The numbers of the lines of one form from a line on, and where they end;
    their cells stand on the sheet, strictly by i, then j."""
    found = []
    while at < len(lines):
        match = form.fullmatch(lines[at])
        if not match:
            break
        found.append(tuple(map(int, match.groups())))
        at += 1
    for item in found:
        must(ref.on_sheet(item[:2]), f"off the sheet: {item[:2]}")
    for one, other in zip(found, found[1:]):
        must(one[:2] < other[:2], f"not in order: {one[:2]}, {other[:2]}")
    return found, at


def check_sheet(frame, cells, attached):
    corners = [corner for _, _, corner in cells]
    must(len(set(corners)) == len(corners), "a corner twice")
    must(all(corner < len(frame.x) for corner in corners), "a corner that was not given")
    must(set((i, j, corner) for corner, (i, j) in frame.labels) <= set(cells), "a given label is gone")
    must(len(cells) == len(frame.labels) + attached, "cells are not labels and attached corners")


# ---- Runs -----------------------------------------------------------------


class Runner:
    """Starts the program on one text after the other, over three files."""

    def __init__(self, folder, limit):
        self.limit = limit
        self.files = []
        for name in ("in", "out", "err"):
            path = os.path.join(folder, name)
            self.files.append(os.open(path, os.O_RDWR | os.O_CREAT, 0o600))
        self.actions = [(os.POSIX_SPAWN_DUP2, file, k) for k, file in enumerate(self.files)]

    def run(self, data):
        """(status, standard output, standard error, seconds, processor seconds)"""
        for file in self.files:
            os.ftruncate(file, 0)
            os.lseek(file, 0, os.SEEK_SET)
        os.pwrite(self.files[0], data, 0)
        began = time.monotonic()
        child = os.posix_spawn(PROGRAM, [PROGRAM], {}, file_actions=self.actions)
        ended = self.ends(child)
        _, status, usage = os.wait4(child, 0)
        must(ended, f"no end within {self.limit} s")
        took = time.monotonic() - began
        out, err = (os.pread(f, os.fstat(f).st_size, 0) for f in self.files[1:])
        return os.waitstatus_to_exitcode(status), out, err, took, usage.ru_utime + usage.ru_stime

    def ends(self, child):
        """Waits for the child's end; ends it itself after the limit."""
        handle = os.pidfd_open(child)
        try:
            poll = select.poll()
            poll.register(handle, select.POLLIN)
            if poll.poll(self.limit * 1000):
                return True
            signal.pidfd_send_signal(handle, signal.SIGKILL)
            return False
        finally:
            os.close(handle)


class Tally:
    def __init__(self):
        self.answers = Counter()  # (kind of text, refusal's number or 0)
        self.wrong = []  # (number, why)
        self.longest = (0.0, None)  # seconds, number
        self.most = (0.0, None)  # processor seconds, number
        self.lines = self.processor = 0

    def merge(self, other):
        self.answers.update(other.answers)
        self.wrong += other.wrong
        self.longest = max(self.longest, other.longest, key=lambda pair: pair[0])
        self.most = max(self.most, other.most, key=lambda pair: pair[0])
        self.lines += other.lines
        self.processor += other.processor


def one_text(runner, tally, number, kind, data):
    try:
        status, out, err, took, processor = runner.run(data)
        tally.longest = max(tally.longest, (took, number), key=lambda pair: pair[0])
        tally.most = max(tally.most, (processor, number), key=lambda pair: pair[0])
        tally.processor += processor
        must(status == 0, f"ended with {status}")
        must(not err, f"standard error: {err[:200]!r}")
        tally.answers[kind, check(data, out)] += 1
        tally.lines += out.count(b"\n")
    except Wrong as why:
        tally.wrong.append((number, f"{kind}: {why}"))
        print(f"text {number}, {kind}: {why}", flush=True)


def work(task):
    seed, count, limit, first, every = task
    texts, tally = Texts(seed), Tally()
    folder = "/dev/shm" if os.path.isdir("/dev/shm") else None
    with tempfile.TemporaryDirectory(dir=folder) as folder:
        runner = Runner(folder, limit)
        for number in range(first, count, every):
            one_text(runner, tally, number, *texts.text(number))
    return tally


def keep(folder, name, data):
    os.makedirs(folder, exist_ok=True)
    path = os.path.join(folder, name)
    with open(path, "wb") as file:
        file.write(data)
    return path


def say(tally, options, began):
    numbers = [0, 1, 2, 3, 4, 5, 6, 8, 9, 10]
    rows = [["text", "results"] + [f"refused {n}" for n in numbers[1:]]]
    for kind in KINDS:
        rows.append([kind] + [tally.answers[kind, n] for n in numbers])
    rows.append(["all"] + [sum(row[k] for row in rows[1:]) for k in range(1, len(rows[0]))])
    widths = [max(len(str(row[k])) for row in rows) for k in range(len(rows[0]))]
    for row in rows:
        print("  " + "  ".join(str(cell).rjust(w) for cell, w in zip(row, widths)))
    count = sum(tally.answers.values())
    print(f"fuzz: {count + len(tally.wrong)} texts of seed {options.seed}: {count} with one whole answer, {len(tally.wrong)} wrong; {tally.lines} lines")
    texts = Texts(options.seed)
    for (seconds, number), what in ((tally.longest, ""), (tally.most, " of processor time")):
        if number is not None:
            kind, data = texts.text(number)
            path = keep(options.keep, f"longest-{options.seed}-{number}.frame", data)
            print(f"fuzz: the longest took {seconds:.4f} s{what}: text {number}, {kind}, {len(data)} bytes, {path}")
    for number, _ in tally.wrong:
        keep(options.keep, f"wrong-{options.seed}-{number}.frame", texts.text(number)[1])
    print(f"fuzz: {time.monotonic() - began:.0f} s, {tally.processor:.0f} s of processor time in the program, {options.workers} workers")


def main():
    parser = argparse.ArgumentParser(description=__doc__, formatter_class=argparse.RawDescriptionHelpFormatter)
    parser.add_argument("--seed", type=int, default=1)
    parser.add_argument("--count", type=int, default=2000)
    parser.add_argument("--workers", type=int, default=1)
    parser.add_argument("--limit", type=float, default=120.0)
    parser.add_argument("--replay", type=int)
    parser.add_argument("--keep", default=os.path.join(HERE, "fuzz-kept"))
    options = parser.parse_args()
    if options.replay is not None:
        sys.stdout.buffer.write(Texts(options.seed).text(options.replay)[1])
        return 0
    if not os.path.exists(PROGRAM):
        sys.exit("fuzz.py: crates/recover/out/recover is missing: rt run in crates/recover builds it")
    began = time.monotonic()
    tally = Tally()
    tasks = [(options.seed, options.count, options.limit, k, options.workers) for k in range(options.workers)]
    with multiprocessing.Pool(options.workers) as pool:
        for part in pool.imap_unordered(work, tasks):
            tally.merge(part)
    say(tally, options, began)
    return 1 if tally.wrong else 0


if __name__ == "__main__":
    sys.exit(main())
