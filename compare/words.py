#!/usr/bin/env python3
"""Turns a frame into the numbers that the program passes_main reads.

    words.py [--silent] [--lend NAME=LENGTH ...] [FRAME ...] > WORDS

Without a file the frame is read from standard input; of several, the lists
stand one after the other. A number is a line of eight hexadecimal digits:
corners, labels, calls; 1 if the visited cells are to be printed (0 with
--silent), 2 if sums over queue and list too, and 4 more if the calls say which
box they are handed; for each corner its x, y, pitch and shades; for each label
its corner and place; for each call its kind (0 grow, 1 fill, 2 local), cell, the
four axis parts, band, five numbers of the pass, and the lengths to lend (ys,
pitches, sheet, queue, attached, shades).
With 4 more each call has six numbers more (02, 5/14): 1 if it is handed the box
that the last call left, at first the one that a search of the sheet finds, or 0
if it is handed the five behind it: mark, low i, high i, low j, high j, in two's
complement. A mark other than 0 is an empty box. A call that is accepted then
prints the box that it answers, as `box` and the same five numbers in decimal.
Without 4 every call is handed the box as left; a frame's calls are.
A corner's shades are one number: two bits for each call, the lowest for the
first, those of a 17th call again the lowest. They are the byte that is lent: 0
no shade, 1 kind 0, 2 kind 1; 3 is out of range. A frame lends its own shades to
every pass.
The labels of a frame with a patch line are those of both sets, joined by
reference.py. As lines leave nothing: a call knows no role. A frame that the
reader refuses is refused here, with the same line. The program reads 262,144 bytes: more is an error here.
"""

import argparse
import sys

import reference as ref

KINDS = {"grow": 0, "fill": 1, "local": 2}
MOST_BYTES = 262144
VISITED, SUMS, BOXES = 1, 2, 4  # what is printed of a list
LENT = ["ys", "pitches", "sheet", "queue", "attached", "shades"]
CALLS = 16  # that have bits of their own in a corner's shades


def whole(number):
    return "%08x" % number


def place(cell):
    return (cell[0] + 64) * 128 + cell[1] + 64


def numbers_of(kind, numbers):
    """Five numbers, floats by their bits: what a pass lacks is 0."""
    if kind == "grow":
        return [ref.to_hex(x) for x in numbers] + [whole(0)] * 2
    if kind == "fill":
        return [ref.to_hex(x) for x in numbers[:2]] + [whole(numbers[2])] + [whole(0)] * 2
    search, factor, rounds, residual, depth = numbers
    return [ref.to_hex(search), ref.to_hex(factor), whole(rounds), ref.to_hex(residual), whole(depth)]


def lengths(n, lend):
    """What a call on n corners needs, but for what `lend` says."""
    return {"ys": n, "pitches": n, "sheet": 16384, "queue": 4 * n, "attached": n, "shades": n, **lend}


def call_words(kind, settings, numbers, lent):
    """A call: `settings` are cell, axes and band, `lent` the six lengths."""
    cell, ((a, b), (c, d)), band = settings
    out = [whole(KINDS[kind])]
    out += [ref.to_hex(x) for x in (cell, a, b, c, d, band)]
    return out + numbers_of(kind, numbers) + [whole(lent[name]) for name in LENT]


def box_words(five):
    """The box that a call is handed: mark and four numbers, or None for the one
    that the last call left."""
    return [whole(1)] + [whole(0)] * 5 if five is None else [whole(0)] + [whole(part % 2**32) for part in five]


def shades_word(corner, shades):
    """A corner's shades in all calls: `shades` are each call's bytes."""
    word = 0
    for call, lent in enumerate(shades):
        if call < CALLS:
            word |= lent[corner] << 2 * call
        elif lent != shades[call % CALLS]:
            sys.exit("words.py: a call past the 16th with shades of its own")
    return whole(word)


def list_words(corners, labels, calls, told=VISITED, shades=()):
    """A list: corners (x, y, pitch), labels (corner, cell), calls as above, and
    for each call the shades that it is lent, a byte a corner."""
    out = [whole(len(corners)), whole(len(labels)), whole(len(calls)), whole(told)]
    for n, corner in enumerate(corners):
        out += [ref.to_hex(x) for x in corner] + [shades_word(n, shades)]
    for corner, cell in labels:
        out += [whole(corner), whole(place(cell))]
    for call in calls:
        out += call
    return "\n".join(out) + "\n"


def words(frame, lend, told=VISITED):
    settings = (frame.cell, frame.axes, frame.band)
    lent = lengths(len(frame.x), lend)
    calls = [call_words(kind, settings, numbers, lent) for kind, numbers in frame.passes]
    corners = list(zip(frame.x, frame.y, frame.pitch))
    return list_words(corners, frame.labels, calls, told, [shade_bytes(frame)] * len(calls))


def shade_bytes(frame):
    """A frame's shades as they are lent: a byte a corner, 0 for none."""
    return [frame.shades[n] + 1 if n in frame.shades else 0 for n in range(len(frame.x))]


def main():
    parser = argparse.ArgumentParser(add_help=True, description=__doc__, formatter_class=argparse.RawDescriptionHelpFormatter)
    parser.add_argument("--silent", action="store_true")
    parser.add_argument("--lend", action="append", default=[])
    parser.add_argument("frames", nargs="*")
    options = parser.parse_args()
    lend = {name: int(length) for name, length in (item.split("=") for item in options.lend)}
    texts = [open(path, "rb").read() for path in options.frames] or [sys.stdin.buffer.read()]
    lists = ""
    for text in texts:
        try:
            frame = ref.read(text)
        except ref.Refused as refused:
            print(refused)
            sys.exit(1)
        lists += words(frame, lend, 0 if options.silent else VISITED)
    if len(lists) > MOST_BYTES:
        sys.exit(f"{len(lists)} bytes, more than the program reads")
    sys.stdout.write(lists)


if __name__ == "__main__":
    main()
