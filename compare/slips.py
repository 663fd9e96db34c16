#!/usr/bin/env python3
"""Shows that the comparison sees slips: reference.py is changed in one place,
taken as our side, and compared with the Rust until a pass that 01 compares
differs, or what is refused for two sets that are not joined. A slip of a library
call's label box (02, 5/14), which the Rust does not have, is looked for in the
cases of refusals.py: the changed model answers one of them otherwise. A slip of
roles (02, 6/14) is looked for in those cases of cases.py that the gate replays:
the changed model answers one of them otherwise than it is written there by hand.
A slip of the counts for each role (02, 7/14) is looked for likewise in the cases of
counts, which the gate replays too, and one of the writers' calls in the cases of
writers.py.

    slips.py [--seed S] [--count N] [NAME ...]

For each slip it prints after how many frames the Rust showed it, or in which
case. Of a slip of roles it says besides which frame with as lines the oracle
answers otherwise, if any does; that is not asked for. Ends with 'N seen, 0 unseen'.
Not tried here are changes that 01's exclusions cover: a candidate at the radius
itself, and what lies off the sheet or on its rim.
"""

import argparse
import os
import sys
import tempfile
import types

import cases
import generate
import reference
import refusals
import run
import writers

HERE = os.path.dirname(os.path.abspath(__file__))

# name: (what stands in reference.py, what is put in its place)
SLIPS = {
    "neighbours i outer, j inner": (
        "for dj in (-1, 0, 1) for di in (-1, 0, 1)",
        "for di in (-1, 0, 1) for dj in (-1, 0, 1)",
    ),
    "whole difference of both sides": (
        "return rnd(rnd(a[0] - b[0]) * 0.5), rnd(rnd(a[1] - b[1]) * 0.5)",
        "return rnd(a[0] - b[0]), rnd(a[1] - b[1])",
    ),
    "one-sided where both sides stand": (
        "return rnd(rnd(a[0] - b[0]) * 0.5), rnd(rnd(a[1] - b[1]) * 0.5)",
        "return rnd(a[0] - here[0]), rnd(a[1] - here[1])",
    ),
    "axis without cell size": (
        "return rnd(axis[0] * frame.cell), rnd(axis[1] * frame.cell)",
        "return axis",
    ),
    "equal weights": (
        "weight = 1.0 / (di * di + dj * dj)",
        "weight = 1.0",
    ),
    "a sum not rounded": (
        "sum_x = rnd(sum_x + rnd(weight * rnd(x + off_x)))",
        "sum_x = rnd(sum_x + weight * (x + off_x))",
    ),
    "radius widened always": ("if extrapolating(near):", "if True:"),
    "radius widened never": ("if extrapolating(near):", "if False:"),
    "boundary 2.0 for bare grow": ("1.5, 1.25)", "1.5, 2.0)"),
    "search 0.5 for bare grow": ("(rnd(0.35), 1.5, 1.25)", "(0.5, 1.5, 1.25)"),
    "extrapolating by cardinal neighbours only": (
        "any(di < 0 for di, _ in near)",
        "any(di < 0 and dj == 0 for di, dj in near)",
    ),
    "labelled corners are candidates": ("or n in taken", ""),
    "candidates by number": ("found.sort()", "found.sort(key=lambda c: c[1])"),
    "equal distances by falling number": (
        "found.sort()",
        "found.sort(key=lambda c: (c[0], -c[1]))",
    ),
    "fill's floor in grow": (
        "choice = choose(found, factor, False, watch)",
        "choice = choose(found, factor, True, watch)",
    ),
    "grow's floor in fill and local": ("        if raised:", "        if False:"),
    "ambiguous at the factor itself": ("if ratio < factor:", "if ratio <= factor:"),
    "quotient of squares": (
        "ratio = rnd(second / first)",
        "ratio = rnd(second * second / (first * first))",
    ),
    "cell size at the least pitch itself": (
        "if not expected > LEAST_PITCH:",
        "if not expected >= LEAST_PITCH:",
    ),
    "expected length from the candidate alone": (
        "rnd(0.5 * rnd(frame.pitch[corner] + frame.pitch[other]))",
        "frame.pitch[corner]",
    ),
    "a band open below": (
        "return rnd(1.0 - frame.band) <= ratio <=",
        "return rnd(1.0 - frame.band) < ratio <=",
    ),
    "a band open above": (
        "<= ratio <= rnd(1.0 + frame.band)",
        "<= ratio < rnd(1.0 + frame.band)",
    ),
    "no cardinal neighbour is refused": ("return not present", "return False"),
    "every edge has to pass": (
        "            if edge_accepted(frame, corner, other, watch):\n"
        "                return True\n"
        "    return not present",
        "            if not edge_accepted(frame, corner, other, watch):\n"
        "                return False\n"
        "    return True",
    ),
    "only the first cardinal neighbour is tried": (
        "                return True\n    return not present",
        "                return True\n            return False\n    return not present",
    ),
    "queue in another order": (
        "CARDINAL = [(1, 0), (-1, 0), (0, 1), (0, -1)]",
        "CARDINAL = [(-1, 0), (1, 0), (0, 1), (0, -1)]",
    ),
    "seeds by j, then i": (
        "for cell in sorted(sheet.corner):",
        "for cell in sorted(sheet.corner, key=lambda c: (c[1], c[0])):",
    ),
    "grow clears a hole that it attaches": (
        "            enqueue(cell)\n    rim",
        "            enqueue(cell)\n            sheet.holes.discard(cell)\n    rim",
    ),
    "edge refusal marks no hole": (
        "            edge += 1\n            sheet.holes.add(cell)",
        "            edge += 1",
    ),
    "ambiguous marks a hole": (
        "            sheet.ambiguous.add(cell)",
        "            sheet.holes.add(cell)",
    ),
    "grow does not go on from what it attached": (
        "            attached.append((cell, choice))\n            enqueue(cell)",
        "            attached.append((cell, choice))",
    ),
    "fill walks the four corner cells": (
        "        if i0 <= i <= i1 or j0 <= j <= j1\n    ]",
        "    ]",
    ),
    "fill's strips on labelled rows and columns only": (
        "        if i0 <= i <= i1 or j0 <= j <= j1\n    ]",
        "        if i in {c[0] for c in sheet.corner} or j in {c[1] for c in sheet.corner}\n    ]",
    ),
    "fill by j, then i": (
        "for cell in fill_cells(sheet):",
        "for cell in sorted(fill_cells(sheet), key=lambda c: (c[1], c[0])):",
    ),
    "fill marks a hole": (
        "            if choice is None or choice is AMBIGUOUS:\n                continue",
        "            if choice is None or choice is AMBIGUOUS:\n"
        "                sheet.holes.add(cell)\n                continue",
    ),
    "fill clears marks": (
        "                attached.append((cell, choice))\n        if len(attached) == before:\n"
        "            break\n    rim = yes_no(sheet.rim(1))\n    return Answer(f\"(fill",
        "                attached.append((cell, choice))\n"
        "                sheet.holes.discard(cell)\n        if len(attached) == before:\n"
        "            break\n    rim = yes_no(sheet.rim(1))\n    return Answer(f\"(fill",
    ),
    "fill's round limit 0 does none": ("rounds < max(limit, 1):", "rounds < limit:"),
    "fill does one round too many": ("rounds < max(limit, 1):", "rounds < max(limit, 1) + 1:"),
    "local's strips on every row": (
        "        if j0 <= j <= j1:\n            return j in with_j",
        "        if j0 <= j <= j1:\n            return True",
    ),
    "local without corner blocks": (
        "            return j in with_j\n        return True",
        "            return j in with_j\n        return False",
    ),
    "local's depth 0 acts as 0": ("    depth = max(depth, 1)\n", ""),
    "local's round limit 0 does one": ("and rounds < limit:", "and rounds < max(limit, 1):"),
    "local from 5 labels on": ("while len(sheet.corner) >= 4", "while len(sheet.corner) >= 5"),
    "supports by distance, then j, then i": (
        "for _, a, b in nsmallest(4, order)",
        "for _, a, b in nsmallest(4, order, key=lambda s: (s[0], s[2], s[1]))",
    ),
    "supports by the larger of |di| and |dj|": (
        "(abs(a - i) + abs(b - j), a, b)",
        "(max(abs(a - i), abs(b - j)), a, b)",
    ),
    "the gate itself is too much": ("if worst > gate:", "if worst >= gate:"),
    "residuals recorded only past the gate": (
        "            largest = worst if largest is None else max(largest, worst)\n"
        "            watch.decided(\"gate\", worst, gate)\n"
        "            if worst > gate:\n                continue\n",
        "            if worst > gate:\n                continue\n"
        "            largest = worst if largest is None else max(largest, worst)\n",
    ),
    "no fit counts as no candidate": (
        "            if h is None:\n                continue",
        "            if h is None:\n                none += 1\n                continue",
    ),
    "local leaves the hole": ("                sheet.holes.discard(cell)\n", ""),
    "local leaves the ambiguous mark": ("                sheet.ambiguous.discard(cell)\n", ""),
    "last of equal pivots": (
        "if abs(a[r][c]) > abs(a[pivot][c]):",
        "if abs(a[r][c]) >= abs(a[pivot][c]):",
    ),
    "multiplier by division": (
        "multiplier = step(low[c] * reciprocal)",
        "multiplier = step(low[c] / top[c])",
    ),
    "no zero pivot": (
        "        if a[pivot][c] == 0.0:\n            raise NoFit(None)",
        "        if a[pivot][c] == 0.0:\n            a[pivot][c] = 1.0",
    ),
    "T inverse times (H times S)": (
        "product(product(t_back, h), s_matrix)",
        "product(t_back, product(h, s_matrix))",
    ),
    "a zero last entry taken as 1": (
        "    if abs(last) < LEAST_LAST:\n        raise NoFit(None)\n",
        "    if abs(last) < LEAST_LAST:\n        last = 1.0\n",
    ),
    "scale 1 only at mean distance 0": ("if mean > LEAST_LAST else", "if mean > 0.0 else"),
    "nine times a reciprocal": (
        "step(entry / last)",
        "step(entry * step(1.0 / last))",
    ),
    "kinds by the other parity": (
        "== (cell[0] + cell[1]) % 2",
        "== (cell[0] + cell[1] + 1) % 2",
    ),
    "kinds by i alone": ("== (cell[0] + cell[1]) % 2", "== cell[0] % 2"),
    "kinds by j alone": ("== (cell[0] + cell[1]) % 2", "== cell[1] % 2"),
    "the remainder of a negative cell is negative": (
        "== (cell[0] + cell[1]) % 2",
        "== (cell[0] + cell[1]) - 2 * int((cell[0] + cell[1]) / 2)",
    ),
    "kinds not looked at": (
        "return not frame.shades or frame.shades.get(corner) ==",
        "return not frame.shades or True or frame.shades.get(corner) ==",
    ),
    "a corner without a shade is taken": (
        "return not frame.shades or frame.shades.get(corner) ==",
        "return corner not in frame.shades or frame.shades.get(corner) ==",
    ),
    "shades count only where a kind 1 stands": (
        "return not frame.shades or",
        "return 1 not in frame.shades.values() or",
    ),
    "the other kind is taken where its own is missing": (
        "                passed += 1\n",
        "                passed += 1\n                found.append((root(d2) + 1e6, n))\n",
    ),
    "unmatched counts labelled corners": (
        "reach or n in taken:\n            continue",
        "reach or n in taken:\n"
        "            passed += ex * ex + ey * ey <= square and not takes(frame, cell, n)\n            continue",
    ),
    "unmatched counts no corner without a shade": (
        "                passed += 1\n",
        "                passed += n in frame.shades\n",
    ),
    "unmatched counts no corner of the other kind": (
        "                passed += 1\n",
        "                passed += n not in frame.shades\n",
    ),
    "unmatched once a cell": (
        "            unmatched += passed\n",
        "            unmatched += passed > 0\n",
    ),
    "unmatched in the first round only": (
        "            unmatched += passed\n",
        "            unmatched += passed if rounds == 1 else 0\n",
    ),
    "unmatched not counted again where the choice is ambiguous": (
        "            unmatched += passed\n            choice = choose(found, factor, True, watch)\n",
        "            choice = choose(found, factor, True, watch)\n"
        "            unmatched += passed if rounds == 1 or choice is not AMBIGUOUS else 0\n",
    ),
    "unmatched not counted again where there is no candidate": (
        "            unmatched += passed\n            choice = choose(found, factor, True, watch)\n",
        "            choice = choose(found, factor, True, watch)\n"
        "            unmatched += passed if rounds == 1 or choice is not None else 0\n",
    ),
    "unmatched counted where the gate is closed": (
        "            if worst > gate:\n                continue\n"
        "            point = map_point(h, float(cell[0]), float(cell[1]))\n",
        "            point = map_point(h, float(cell[0]), float(cell[1]))\n"
        "            if worst > gate:\n"
        "                unmatched += candidates(frame, sheet, cell, point, radius, watch)[1]\n                continue\n",
    ),
    "unmatched 0 is not printed": (
        "unmatched=unmatched if frame.shades else None",
        "unmatched=unmatched or None",
    ),
    "unmatched printed without a shade": (
        "unmatched=unmatched if frame.shades else None",
        "unmatched=unmatched",
    ),
    "sets without a shared corner joined as they stand": (
        "        return APART\n",
        "        asked = {(0, 0)}\n",
    ),
    "8 as 9": ("        return APART\n", "        return CLASH\n"),
    "9 as 8": ("        return CLASH\n", "        return APART\n"),
    "4 before 9": (
        "    if not fitting:\n",
        "    if not all(on_sheet(cell) for shift in asked for _, cell in shifted(second, shift)):\n"
        "        return OFF_SHEET\n    if not fitting:\n",
    ),
    "the shift reversed": (
        "(cell[0] - other[0], cell[1] - other[1])",
        "(other[0] - cell[0], other[1] - cell[1])",
    ),
    "the shift of i alone": ("(cell[0] - other[0], cell[1] - other[1])", "(cell[0] - other[0], 0)"),
    "cells not compared": (
        "return len(corners) == len(labels) and len(cells) == len(labels)",
        "return len(corners) == len(labels)",
    ),
    "one shared corner's shift not tested": (
        "fitting = [shift for shift in asked if one_each(union(first, shifted(second, shift)))]",
        "fitting = sorted(asked)[:1]",
    ),
    "a label off the sheet let through": (
        "    if not all(on_sheet(cell) for _, cell in joined):\n        return OFF_SHEET\n",
        "",
    ),
    "the second set's origin kept": (
        "joined = union(first, shifted(second, shift))",
        "joined = union(second, shifted(first, (-shift[0], -shift[1])))",
    ),
    "the second set not moved": (
        "joined = union(first, shifted(second, shift))",
        "joined = list({cell: (corner, cell) for corner, cell in first + second}.values())",
    ),
    "the second set left out": ("        return OFF_SHEET\n    return joined\n", "        return OFF_SHEET\n    return first\n"),
    "only shared corners kept": (
        "        return OFF_SHEET\n    return joined\n",
        "        return OFF_SHEET\n    return [label for label in first if label in shifted(second, shift)]\n",
    ),
    "5 and 6 tried over both sets": (
        "for other, cell in frame.sets[-1])",
        "for labels in frame.sets for other, cell in labels)",
    ),
    "refused at the last line": (
        "raise NotJoined(frame.labels, frame.patch)",
        "raise NotJoined(frame.labels, data.count(b\"\\n\"))",
    ),
    "a label read without the box": (
        "        frame.around = widened(frame.around, (i, j))\n",
        "        frame.around = frame.around or widened(None, (i, j))\n",
    ),
    "a joined label without the box": (
        "        for _, cell in frame.labels[len(frame.sets[0]) :]:",
        "        for _, cell in []:",
    ),
    "a label of the second set in the box as it was read": (
        "    if frame.patch is None:\n        frame.around =",
        "    if True:\n        frame.around =",
    ),
    "row sums right to left": (
        "        left = rnd(rnd(row[0] * x) + rnd(row[1] * y))\n        return rnd(left + row[2])",
        "        left = rnd(rnd(row[1] * y) + row[2])\n        return rnd(left + rnd(row[0] * x))",
    ),
}


DIFFERS = "    if box_handed(call.box(sheet)) != sheet.search():\n        return WILD\n"
TWO = "    if n > 1024:\n        return OVERFULL\n    if kinds"
FIVE = "    corners = list(sheet.corner.values())\n    if any(corner >= n for corner in corners):\n        return STRANGER\n"
SIX = "    if len(set(corners)) < len(corners):\n        return DOUBLED\n"

# Of the label box: the same, seen by the cases of refusals.py.
BOX_SLIPS = {
    "the box not looked at": (DIFFERS, ""),
    "the mark ignored": ("return None if mark else tuple(numbers)", "return tuple(numbers)"),
    "the numbers of an empty box looked at": (
        "return None if mark else tuple(numbers)",
        "return None if mark and not any(numbers) else tuple(numbers)",
    ),
    "the right numbers let through with the mark": (
        "    if box_handed(call.box(sheet)) != sheet.search():",
        "    if sheet.search() not in (box_handed(call.box(sheet)), tuple(call.box(sheet)[1:])):",
    ),
    "an empty box let through": (
        "    if box_handed(call.box(sheet)) != sheet.search():",
        "    if box_handed(call.box(sheet)) not in (None, sheet.search()):",
    ),
    "any box let through on an empty sheet": (
        "    if box_handed(call.box(sheet)) != sheet.search():",
        "    if sheet.search() not in (None, box_handed(call.box(sheet))):",
    ),
    "i alone looked at": (
        "    if box_handed(call.box(sheet)) != sheet.search():",
        "    if (box_handed(call.box(sheet)) or ())[:2] != (sheet.search() or ())[:2]:",
    ),
    "j alone looked at": (
        "    if box_handed(call.box(sheet)) != sheet.search():",
        "    if (box_handed(call.box(sheet)) or ())[2:] != (sheet.search() or ())[2:]:",
    ),
    "16 bits looked at": (
        "return None if mark else tuple(numbers)",
        "return None if mark else tuple((part + 2**15) % 2**16 - 2**15 for part in numbers)",
    ),
    "labels of unknown corners left out of the box": (
        "    if box_handed(call.box(sheet)) != sheet.search():",
        "    known = Sheet()\n    known.corner = {cell: corner for cell, corner in sheet.corner.items() if corner < n}\n"
        "    if box_handed(call.box(sheet)) != known.search():",
    ),
    "high for low": ("return min(i0, i), max(i1, i), min(j0, j), max(j1, j)", "return max(i0, i), max(i1, i), min(j0, j), max(j1, j)"),
    "low for high": ("return min(i0, i), max(i1, i), min(j0, j), max(j1, j)", "return min(i0, i), max(i1, i), min(j0, j), min(j1, j)"),
    "j for i": ("return min(i0, i), max(i1, i), min(j0, j), max(j1, j)", "return min(i0, j), max(i1, j), min(j0, i), max(j1, i)"),
    "grow does not widen the box": (
        "            sheet.label(cell, choice)\n            attached.append((cell, choice))\n            enqueue(cell)",
        "            sheet.corner[cell] = choice\n            attached.append((cell, choice))\n            enqueue(cell)",
    ),
    "fill does not widen the box": (
        "                sheet.label(cell, choice)\n                attached",
        "                sheet.corner[cell] = choice\n                attached",
    ),
    "local does not widen the box": (
        "                sheet.label(cell, choice)\n                sheet.holes",
        "                sheet.corner[cell] = choice\n                sheet.holes",
    ),
    "fill walks by the kept box": (
        "    cells = [\n        (i, j)\n        for i in range(i0 - 1, i1 + 2)\n        for j in range(j0 - 1, j1 + 2)\n"
        "        if i0 <= i <= i1 or j0 <= j <= j1\n    ]\n    return [c for c in cells if on_sheet(c) and c not in sheet.corner]\n",
        "    def reached(i, j):\n        i0, i1, j0, j1 = sheet.around\n"
        "        return i0 - 1 <= i <= i1 + 1 and j0 - 1 <= j <= j1 + 1 and (i0 <= i <= i1 or j0 <= j <= j1)\n\n"
        "    cells = ((i, j) for i in range(FIRST, LAST + 1) for j in range(FIRST, LAST + 1))\n"
        "    return (c for c in cells if reached(*c) and c not in sheet.corner)\n",
    ),
    "local walks by the kept box": (
        "    return [\n        (i, j)\n        for i in range(i0 - depth, i1 + depth + 1)\n        for j in range(j0 - depth, j1 + depth + 1)\n"
        "        if on_sheet((i, j)) and walked(i, j)\n    ]\n",
        "    def reached(i, j):\n        nonlocal i0, i1, j0, j1\n        i0, i1, j0, j1 = sheet.around\n"
        "        return i0 - depth <= i <= i1 + depth and j0 - depth <= j <= j1 + depth\n\n"
        "    cells = ((i, j) for i in range(FIRST, LAST + 1) for j in range(FIRST, LAST + 1))\n"
        "    return (cell for cell in cells if reached(*cell) and walked(*cell))\n",
    ),
    "the handed box answered": ("    answer.box = box_answered(sheet.around)", "    answer.box = call.box(sheet)"),
    "the numbers of an empty box answered": (
        "    answer.box = box_answered(sheet.around)",
        "    answer.box = box_answered(sheet.around) if sheet.around else call.box(sheet)",
    ),
    "a refused call's box kept": (
        "    number = refusal(frame, sheet, call)\n",
        "    number = refusal(frame, sheet, call)\n    sheet.around = box_handed(call.box(sheet))\n",
    ),
    "the box before 7": ("    if kinds == SHORT or any(", DIFFERS + "    if kinds == SHORT or any("),
    "the box before 2": (TWO, DIFFERS + TWO),
    "the box after 5": (DIFFERS + FIVE, FIVE + DIFFERS),
    "the box after 6": (DIFFERS + FIVE + SIX, FIVE + SIX + DIFFERS),
    "a box that differs is 2": (DIFFERS, DIFFERS.replace("WILD", "OVERFULL")),
}


RUNS = "    if not may_run(role, kind, bare):\n        raise NotRun(NOT_YOURS, number)\n"
LATE = "    if not may_run(role, kind, bare):\n        frame.late = number\n"
READ = "    frame = read_lines(data)\n"
SAY_LATE = "    if hasattr(frame, \"late\"):\n        raise NotRun(NOT_YOURS, frame.late)\n"
UNION = "            frame.around = widened(frame.around, cell)\n    return frame\n"
FULL = "    if len(frame.passes) == 16:\n        raise Refused(OVERFULL, number)\n    bare"
VALUES = "    values = []\n    for group, (value_of, least, most) in zip"
A_DEALER = "return bare and kind in (\"grow\", \"fill\")"
A_DEPOT = "    if role == \"depot\":\n        return kind in (\"grow\", \"fill\")\n"
A_PLANT = "return role == \"plant\""
AT_FIRST = "role = \"plant\"  # until"
A_PASS = "            _read_pass(frame, role, kind, match, number)\n"
A_ROLE = "            role = match.group(1).decode()\n"
ROLES = "[line[4:-1].decode() for line in lines if line.startswith(b\"(as \")]"
BEHIND = "        if named and kind not in PASSES:\n            raise NotRun(BENT, number)\n"
END = "    if named:\n        raise NotRun(BENT, len(lines) + 1)\n"
RANK = "        if rank < before:\n"
RANK_UNLESS = "        if rank < before and not lines[number - 2].startswith(b\"(as \"):\n"
LINES = "    for number, line in enumerate(lines, 1):\n"
WORDS = r"\(as (dealer|depot|plant)\)"


def exchanged(one, other):
    return A_ROLE + f"            role = {{\"{one}\": \"{other}\", \"{other}\": \"{one}\"}}.get(role, role)\n"


def if_so(condition, number="BENT"):
    """An as line is refused there."""
    return A_ROLE + f"            if {condition}:\n                raise NotRun({number}, number)\n"


def let_through(what):
    """Behind an as line."""
    return BEHIND.replace("PASSES:", f"PASSES and not ({what}):")


# Of roles: the same, seen by the cases of cases.py. Some are changes in two places.
ROLE_SLIPS = {
    "a dealer runs any grow and fill": (A_DEALER, "return kind in (\"grow\", \"fill\")"),
    "a dealer runs a full grow": (A_DEALER, "return kind == \"grow\" or bare and kind == \"fill\""),
    "a dealer runs a full fill": (A_DEALER, "return kind == \"fill\" or bare and kind == \"grow\""),
    "a dealer runs local": (A_DEALER, "return bare or kind == \"local\""),
    "a dealer does not run bare fill": (A_DEALER, "return bare and kind == \"grow\""),
    "a dealer does not run bare grow": (A_DEALER, "return bare and kind == \"fill\""),
    "a depot runs local": (A_DEPOT, A_DEPOT.replace("\"fill\")", "\"fill\", \"local\")")),
    "a depot runs bare passes alone": (A_DEPOT, A_DEPOT.replace("\"fill\")", "\"fill\") and bare")),
    "a depot runs full passes alone": (A_DEPOT, A_DEPOT.replace("\"fill\")", "\"fill\") and not bare")),
    "a depot does not run fill": (A_DEPOT, A_DEPOT.replace("(\"grow\", \"fill\")", "(\"grow\",)")),
    "a depot does not run grow": (A_DEPOT, A_DEPOT.replace("(\"grow\", \"fill\")", "(\"fill\",)")),
    "the plant does not run local": (A_PLANT, A_PLANT + " and kind != \"local\""),
    "the plant does not run bare passes": (A_PLANT, A_PLANT + " and not bare"),
    "everyone runs all": (RUNS, ""),
    "bare by the numbers": (RUNS, RUNS.replace("bare)", "bare or tuple(values) == BARE.get(kind))")),
    "starts as a dealer": (AT_FIRST, AT_FIRST.replace("plant", "dealer")),
    "starts as a depot": (AT_FIRST, AT_FIRST.replace("plant", "depot")),
    "starts as nobody": (AT_FIRST, AT_FIRST.replace("plant", "nobody")),
    "forgotten after one pass": (A_PASS, A_PASS + "            role = \"plant\"\n"),
    "forgotten after two passes": (A_PASS, A_PASS + "            role = \"plant\" if frame.roles[-2:] == [role] * 2 else role\n"),
    "kept until a pass of another kind": (
        A_PASS,
        "            if frame.passes and kind != frame.passes[-1][0] and not lines[number - 2].startswith(b\"(as \"):\n"
        "                role = \"plant\"\n" + A_PASS,
    ),
    "the first as line counts for all": (A_ROLE, f"            role = {ROLES}[0]\n"),
    "the last as line counts for all": (A_ROLE, f"            role = {ROLES}[-1]\n"),
    "an as line behind a pass does not count": (A_ROLE, "            role = role if frame.passes else match.group(1).decode()\n"),
    "a dealer stays one": (A_ROLE, "            role = role if role == \"dealer\" else match.group(1).decode()\n"),
    "the plant stays the plant": (A_ROLE, "            role = role if \"plant\" in frame.roles else match.group(1).decode()\n"),
    "dealer and depot exchanged": (A_ROLE, exchanged("dealer", "depot")),
    "dealer and plant exchanged": (A_ROLE, exchanged("dealer", "plant")),
    "depot and plant exchanged": (A_ROLE, exchanged("depot", "plant")),
    "10 before 3": (VALUES, RUNS + VALUES),
    "10 before 2": (FULL, FULL.replace("raise", "if not may_run(role, kind, match.group(1) is None):\n            raise NotRun(NOT_YOURS, number)\n        raise")),
    "10 before 1": (BEHIND, "        if line.startswith(b\"(local\") and role != \"plant\":\n            raise NotRun(NOT_YOURS, number)\n" + BEHIND),
    "10 after all lines": (RUNS, LATE, READ, READ + SAY_LATE),
    "10 after the join": (RUNS, LATE, UNION, UNION.replace("    return", SAY_LATE + "    return")),
    "a pass that is not its own left out": (RUNS, RUNS.replace("raise NotRun(NOT_YOURS, number)", "return")),
    "10 as 9": (RUNS, RUNS.replace("NOT_YOURS", "CLASH")),
    "10 as 3": (RUNS, RUNS.replace("NOT_YOURS", "WILD")),
    "10 as 1": (RUNS, RUNS.replace("NOT_YOURS", "BENT")),
    "10 at the line before": (RUNS, RUNS.replace("number)", "number - 1)")),
    "as lines not counted as lines": (LINES, LINES + "        number -= sum(other.startswith(b\"(as \") for other in lines[: number - 1])\n"),
    "as lines counted as passes": (A_PASS, f"            if len(frame.passes) + len({ROLES}) > 16:\n                raise Refused(OVERFULL, number)\n" + A_PASS),
    "an as line behind 16 passes is 2": (A_ROLE, if_so("len(frame.passes) == 16", "OVERFULL")),
    "the end let through": (END, ""),
    "the end at the as line": (END, END.replace(" + 1", "")),
    "two as lines let through": (BEHIND, let_through("kind == \"as\"")),
    "the same as line twice let through": (BEHIND, let_through("line == lines[number - 2]")),
    "another as line let through": (BEHIND, let_through("kind == \"as\" and line != lines[number - 2]")),
    "a shade behind an as line let through": (BEHIND, let_through("kind == \"shade\""), RANK, RANK_UNLESS),
    "a patch behind an as line let through": (BEHIND, let_through("kind == \"patch\""), RANK, RANK_UNLESS),
    "a label behind an as line let through": (BEHIND, let_through("kind == \"label\""), RANK, RANK_UNLESS),
    "a corner behind an as line let through": (BEHIND, let_through("kind == \"corner\""), RANK, RANK_UNLESS),
    "what is no pass refused at the as line": (BEHIND, BEHIND.replace("number)", "number - 1)")),
    "what is no pass is 10": (BEHIND, BEHIND.replace("BENT", "NOT_YOURS")),
    "labels behind a dealer's pass": (RANK, RANK.replace(":", " and role != \"dealer\":")),
    "an as line in place of the band line": ("        if number <= 4:\n", "        if number <= 4 and not line.startswith(b\"(as \"):\n"),
    "none without corners": (A_ROLE, if_so("not frame.x")),
    "none behind a pass": (A_ROLE, if_so("frame.passes")),
    "none behind shades": (A_ROLE, if_so("frame.shades")),
    "none behind two sets": (A_ROLE, if_so("frame.patch")),
    "any word for the plant": (WORDS, r"\(as ([a-z]+)\)", A_PLANT, "return True"),
    "no word for the plant": (WORDS, r"\(as(?: (dealer|depot|plant))?\)", "match.group(1).decode()", "(match.group(1) or b\"plant\").decode()"),
    "upper case": (WORDS, r"\(as (Dealer|dealer|depot|plant)\)", "match.group(1).decode()", "match.group(1).decode().lower()"),
    "two spaces": (WORDS, r"\(as +(dealer|depot|plant)\)"),
    "a carriage return": (WORDS, r"\(as (dealer|depot|plant)\)\r?"),
    "depot not known": (WORDS, r"\(as (dealer|plant)\)"),
    "the role is printed": ("        lines += answer.lines()\n", "        lines += [f\"(as {frame.roles[number]})\"] + answer.lines()\n"),
}


RAN = "        ran.append((role, answer.counts))\n"
FILLED = "attached, (len(attached), 0, 0, 0))"
GROWN = "    return Answer(line, attached, (len(attached), none, ambiguous, edge), visited)\n"
OF_LOCAL = "    counts = (len(attached), none, ambiguous, edge)\n"
NAMES = "ROLES = (\"plant\", \"depot\", \"dealer\")"
ITS_OWN = "            if other == role:\n"
ADDED = "sums = [one + more for one, more in zip(sums, counts)]"
A_LINE = "        lines.append(\"(role %s %d %d %d %d)\" % (role, *sums))\n"
PRINTED = "    lines = [\"(result 1)\"] + pass_lines + roles\n"
AMBIGUOUS_LINES = "    lines += [f\"(ambiguous ({i} {j}))\" for i, j in sorted(sheet.ambiguous)]\n    return \"\\n\".join(lines)"
HOLE_LINES = "    lines += [f\"(hole ({i} {j}))\" for i, j in sorted(sheet.holes)]\n    lines += [f\"(ambiguous ({i} {j}))\" for"
SAID = "    return result_text(lines, role_lines(ran), sheet)\n"
NOBODY = "    lines = []\n    for role in ROLES:\n"
A_REFUSAL = "        return f\"{refused}\\n\"\n    sheet = frame.given()\n    lines, ran"


def counts_as(what):
    return RAN.replace("answer.counts", what)


def adds(role, condition):
    """The sums of a role have more than its own."""
    return ITS_OWN.replace("other == role", f"other == role or role == \"{role}\" and {condition}")


# Of the counts for each role: seen by the cases of cases.py.
COUNT_SLIPS = {
    "fill's rounds summed": (FILLED, FILLED.replace("0, 0, 0", "rounds, 0, 0")),
    "fill's rounds added to attached": (FILLED, FILLED.replace("len(attached)", "len(attached) + rounds")),
    "fill's rounds for attached": (FILLED, FILLED.replace("(len(attached),", "(rounds,")),
    "fill adds nothing": (FILLED, FILLED.replace("(len(attached),", "(0,")),
    "fill's cells without a candidate summed": (
        "            if choice is None or choice is AMBIGUOUS:\n                continue",
        "            missed = locals().get(\"missed\", 0) + (choice is None)\n"
        "            if choice is None or choice is AMBIGUOUS:\n                continue",
        FILLED, FILLED.replace("0, 0, 0", "locals().get(\"missed\", 0), 0, 0"),
    ),
    "fill's ambiguous cells summed": (
        "            if choice is None or choice is AMBIGUOUS:\n                continue",
        "            doubtful = locals().get(\"doubtful\", 0) + (choice is AMBIGUOUS)\n"
        "            if choice is None or choice is AMBIGUOUS:\n                continue",
        FILLED, FILLED.replace("0, 0, 0", "0, locals().get(\"doubtful\", 0), 0"),
    ),
    "grow adds to attached alone": (GROWN, GROWN.replace("(len(attached), none, ambiguous, edge)", "(len(attached), 0, 0, 0)")),
    "grow not summed": (GROWN, GROWN.replace("(len(attached), none, ambiguous, edge)", "(0, 0, 0, 0)")),
    "grow's edges with those without a candidate": (GROWN, GROWN.replace("none, ambiguous, edge", "none + edge, ambiguous, 0")),
    "grow's visited cells summed": (GROWN, GROWN.replace("none, ambiguous", "len(visited), ambiguous")),
    "grow's holes summed": (GROWN, GROWN.replace("none, ambiguous", "len(sheet.holes), ambiguous")),
    "local adds to attached alone": (OF_LOCAL, OF_LOCAL.replace("none, ambiguous, edge", "0, 0, 0")),
    "local not summed": (OF_LOCAL, OF_LOCAL.replace("len(attached), none, ambiguous, edge", "0, 0, 0, 0")),
    "local's rounds summed": (OF_LOCAL, OF_LOCAL.replace("none,", "none + rounds,")),
    "unmatched summed": (OF_LOCAL, OF_LOCAL.replace("none,", "none + unmatched,")),
    "unmatched added to the edges": (OF_LOCAL, OF_LOCAL.replace("edge)", "edge + unmatched)")),
    "unmatched taken from those without a candidate": (OF_LOCAL, OF_LOCAL.replace("none,", "none - unmatched,")),
    "no candidate and ambiguous exchanged": (A_LINE, A_LINE.replace("*sums", "sums[0], sums[2], sums[1], sums[3]")),
    "ambiguous and edge exchanged": (A_LINE, A_LINE.replace("*sums", "sums[0], sums[1], sums[3], sums[2]")),
    "attached and no candidate exchanged": (A_LINE, A_LINE.replace("*sums", "sums[1], sums[0], sums[2], sums[3]")),
    "local's ambiguous and edge exchanged": (OF_LOCAL, OF_LOCAL.replace("ambiguous, edge", "edge, ambiguous")),
    "given labels counted for the plant": ("    lines, ran = [], []\n", "    lines, ran = [], [(\"plant\", (len(frame.labels), 0, 0, 0))]\n"),
    "given labels counted for the first role": (
        "    lines, ran = [], []\n",
        "    lines, ran = [], [(role, (len(frame.labels), 0, 0, 0)) for role in frame.roles[:1]]\n",
    ),
    "all labels for attached": (RAN, counts_as("(len(sheet.corner), *answer.counts[1:])")),
    "the second set's new labels counted": (
        "    lines, ran = [], []\n",
        "    lines, ran = [], [(\"plant\", (len(frame.labels) - len(frame.sets[0]), 0, 0, 0))]\n",
    ),
    "plant and depot exchanged": (ITS_OWN, "            if other == {\"plant\": \"depot\", \"depot\": \"plant\"}.get(role, role):\n"),
    "plant and dealer exchanged": (ITS_OWN, "            if other == {\"plant\": \"dealer\", \"dealer\": \"plant\"}.get(role, role):\n"),
    "depot and dealer exchanged": (ITS_OWN, "            if other == {\"depot\": \"dealer\", \"dealer\": \"depot\"}.get(role, role):\n"),
    "the plant's for the depot's": (ITS_OWN, "            if other == {\"depot\": \"plant\"}.get(role, role):\n"),
    "the depot's for the dealer's": (ITS_OWN, "            if other == {\"dealer\": \"depot\"}.get(role, role):\n"),
    "the plant has all": (ITS_OWN, adds("plant", "True")),
    "the plant has the dealer's too": (ITS_OWN, adds("plant", "other == \"dealer\"")),
    "the depot has the dealer's too": (ITS_OWN, adds("depot", "other == \"dealer\"")),
    "the plant's without an as line not summed": (RAN, "        if b\"(as \" in data:\n    " + RAN),
    "all for the plant": (RAN, RAN.replace("role,", "\"plant\",")),
    "all for the first pass's role": (RAN, RAN.replace("role,", "frame.roles[0],")),
    "all for the last pass's role": (RAN, RAN.replace("role,", "frame.roles[-1],")),
    "for the role of the pass before": (RAN, RAN.replace("role,", "frame.roles[max(number - 1, 0)],")),
    "for the role of the pass behind": (RAN, RAN.replace("role,", "(frame.roles + frame.roles[-1:])[number + 1],")),
    "the last pass not summed": (RAN, RAN + "    del ran[-1:]\n"),
    "the first pass not summed": (RAN, RAN + "    del ran[:1]\n"),
    "the last pass of each role alone": (ADDED, "sums = list(counts)"),
    "the first pass of each role alone": (ADDED, "sums = sums if any(sums) else list(counts)"),
    "the most of each role": (ADDED, "sums = [max(one, more) for one, more in zip(sums, counts)]"),
    "a role that comes again begins anew": (
        ITS_OWN,
        "            if other != role:\n                sums = sums if role == \"plant\" else [0, 0, 0, 0]\n            else:\n",
    ),
    "the plant begins anew behind a dealer": (
        ITS_OWN,
        "            if other == \"dealer\" and role == \"plant\":\n                sums = [0, 0, 0, 0]\n" + ITS_OWN,
    ),
    "attached not summed": (ADDED, "sums = [counts[0]] + [one + more for one, more in zip(sums[1:], counts[1:])]"),
    "eight bits": (A_LINE, A_LINE.replace("*sums", "*(one % 256 for one in sums)")),
    "sixteen bits": (A_LINE, A_LINE.replace("*sums", "*(one % 65536 for one in sums)")),
    "at most 65,535": (A_LINE, A_LINE.replace("*sums", "*(min(one, 65535) for one in sums)")),
    "dealer before depot": (NAMES, NAMES.replace("\"depot\", \"dealer\"", "\"dealer\", \"depot\"")),
    "dealer first": (NAMES, "ROLES = (\"dealer\", \"depot\", \"plant\")"),
    "depot first": (NAMES, "ROLES = (\"depot\", \"plant\", \"dealer\")"),
    "in the order in which they ran": (NOBODY, "    lines = []\n    for role in dict.fromkeys([other for other, _ in ran] + list(ROLES)):\n"),
    "no line without a pass": (NOBODY, NOBODY + "        if all(other != role for other, _ in ran):\n            continue\n"),
    "no line without a count": (A_LINE, "        if any(sums):\n    " + A_LINE),
    "no lines without passes": (SAID, SAID.replace("role_lines(ran)", "role_lines(ran) if ran else []")),
    "no lines without as lines": (SAID, SAID.replace("role_lines(ran)", "role_lines(ran) if b\"(as \" in data else []")),
    "no dealer's line": (NOBODY, NOBODY.replace("ROLES", "ROLES[:2]")),
    "no plant's line": (NOBODY, NOBODY.replace("ROLES", "ROLES[1:]")),
    "before the pass lines": (PRINTED, PRINTED.replace("pass_lines + roles", "roles + pass_lines")),
    "before the heading": (PRINTED, PRINTED.replace("[\"(result 1)\"] + pass_lines + roles", "roles + [\"(result 1)\"] + pass_lines")),
    "behind the first pass line": (PRINTED, PRINTED.replace("pass_lines + roles", "pass_lines[:1] + roles + pass_lines[1:]")),
    "before the last pass line": (PRINTED, PRINTED.replace("pass_lines + roles", "pass_lines[:-1] + roles + pass_lines[-1:]")),
    "between local's line and the unmatched one": (
        PRINTED,
        PRINTED + "    if pass_lines and pass_lines[-1].startswith(\"(unmatched\"):\n"
        "        lines = lines[:1] + pass_lines[:-1] + roles + pass_lines[-1:]\n",
    ),
    "behind the cells": (PRINTED, PRINTED.replace(" + roles", ""), HOLE_LINES, "    lines += roles\n" + HOLE_LINES),
    "behind the sheet": (
        PRINTED,
        PRINTED.replace(" + roles", ""),
        AMBIGUOUS_LINES,
        AMBIGUOUS_LINES.replace("    return", "    lines += roles\n    return"),
    ),
    "without the role's name": (A_LINE, A_LINE.replace("%s ", "").replace("role, *sums", "*sums,")),
    "by the role's number": (A_LINE, A_LINE.replace("%s", "%d").replace("role,", "ROLES.index(role),")),
    "the as line's word": (A_LINE, A_LINE.replace("(role ", "(as ")),
    "attached alone printed": (A_LINE, "        lines.append(\"(role %s %d)\" % (role, sums[0]))\n"),
    "a sum of all behind them": (SAID, SAID.replace("role_lines(ran)", "role_lines(ran) + [\"(role all %d)\" % sum(c[0] for _, c in ran)]")),
    "a refusal has role lines": (A_REFUSAL, A_REFUSAL.replace("{refused}\\n\"", "{refused}\\n\" + \"\\n\".join(role_lines([])) + \"\\n\"")),
    "a role line in a frame passed over": (BEHIND, "        if line.startswith(b\"(role \"):\n            continue\n" + BEHIND),
}


WHOSE = "        return ROLES[min(self.role, 2)]\n"
ROLE_WILD = "            or self.role > 2\n"
FOUR = "        if self.kind == 1:\n            return self.attached, 0, 0, 0\n"
ROLE_LINES = "    lines += [line + \"\\n\" for line in role_lines([(outcome.whose(), outcome.counts()) for outcome in ran])]\n"
PIECE = "    while start < len(lines) and room - len(text) >= LINE_BYTES:\n        text += lines[start]\n"
PIECE_WILD = "writer_refusal(corners, ran, places, start > len(lines))"
TOO_LONG = "    if room < len(text):\n        return SHORT\n"
ANY_WILD = "any(outcome.wild() for outcome in ran)"
TWELVE = "OUTCOME_WORDS = 12\n"
LAST_WORDS = "self.shaded, self.unmatched, self.role = words[6:]"
FEW_WORDS = "    return len(words) < OUTCOME_WORDS * passes"
WRITTEN = "    text = \"\".join(counted_lines(ran, places))\n"

# Of the writers' calls: seen by the cases of writers.py.
WRITER_SLIPS = {
    "role 3 let through": (ROLE_WILD, ROLE_WILD.replace("> 2", "> 3")),
    "any role let through": (ROLE_WILD, ""),
    "role 3 alone refused": (ROLE_WILD, ROLE_WILD.replace("> 2", "== 3")),
    "roles by their low byte": (ROLE_WILD, ROLE_WILD.replace("self.role", "self.role % 256")),
    "roles by sixteen bits": (ROLE_WILD, ROLE_WILD.replace("self.role", "self.role % 65536")),
    "roles as numbers with a sign": (ROLE_WILD, ROLE_WILD.replace("self.role > 2", "2 < self.role < 2**31")),
    "role 2 refused": (ROLE_WILD, ROLE_WILD.replace("> 2", "> 1")),
    "the first outcome's role alone refused": (ANY_WILD, "any(outcome.wild() for outcome in ran[:1])"),
    "the last outcome's role not looked at": (ANY_WILD, "any(outcome.wild() for outcome in ran[:-1])"),
    "a role of local alone refused": (ROLE_WILD, ROLE_WILD.replace("self.role", "self.kind == 2 and self.role")),
    "a role above 2 is the plant's": (WHOSE, "        return ROLES[self.role if self.role < 3 else 0]\n"),
    "a role above 2 is the depot's": (WHOSE, "        return ROLES[self.role if self.role < 3 else 1]\n"),
    "a role above 2 is nobody's": (WHOSE, "        return ROLES[self.role] if self.role < 3 else None\n"),
    "a wild role before the room": (TOO_LONG, "    if any(outcome.role > 2 for outcome in ran):\n        return WILD\n" + TOO_LONG),
    "a wild role before the number of outcomes": (
        "    if len(ran) > 16 or corners > 1024:\n",
        "    if any(outcome.role > 2 for outcome in ran):\n        return WILD\n    if len(ran) > 16 or corners > 1024:\n",
    ),
    "the number of outcomes before the room": (WRITTEN, "    if len(ran) > 16:\n        return OVERFULL\n" + WRITTEN),
    "a wild role behind 5 and 6": (
        ROLE_WILD, "",
        "        return DOUBLED\n    return None\n\n\ndef write_result",
        "        return DOUBLED\n    return WILD if any(outcome.role > 2 for outcome in ran) else None\n\n\ndef write_result",
    ),
    "a wild role is 10": (
        ANY_WILD,
        "any(outcome.role < 3 and outcome.wild() for outcome in ran)",
        "    held = [(word",
        "    if any(outcome.role > 2 for outcome in ran):\n        return NOT_YOURS\n    held = [(word",
    ),
    "fill's other words summed": (FOUR, ""),
    "fill's rounds summed by the writers": (FOUR, FOUR.replace("self.attached, 0, 0, 0", "self.attached, self.rounds, 0, 0")),
    "grow's rounds summed by the writers": (
        FOUR,
        FOUR + "        if self.kind == 0:\n            return self.attached, self.none + self.rounds, self.ambiguous, self.edge\n",
    ),
    "the role in word 10": (LAST_WORDS, "self.shaded, self.role, self.unmatched = words[6:]"),
    "the role in word 9": (LAST_WORDS, "self.role, self.shaded, self.unmatched = words[6:]"),
    "eleven words": (TWELVE, "OUTCOME_WORDS = 11\n", LAST_WORDS, "self.shaded, self.unmatched, self.role = *words[6:11], 0"),
    "eleven words asked for": (
        FEW_WORDS,
        FEW_WORDS.replace("OUTCOME_WORDS", "11"),
        "self.rounds = words[:6]",
        "self.rounds = (words + [0])[:6]",
        LAST_WORDS,
        "self.shaded, self.unmatched, self.role = (words + [0])[6:12]",
    ),
    "words counted by 64 bits": (
        FEW_WORDS,
        FEW_WORDS.replace("OUTCOME_WORDS * passes", "OUTCOME_WORDS * passes % 2**64"),
        "def outcomes(passes, words):\n",
        "def outcomes(passes, words):\n    passes = min(passes, 20)\n    words = words + [0] * 240\n",
    ),
    "sums by 32 bits": (A_LINE, A_LINE.replace("*sums", "*(one % 2**32 for one in sums)")),
    "sums no higher than 2^32 - 1": (A_LINE, A_LINE.replace("*sums", "*(min(one, 2**32 - 1) for one in sums)")),
    "sums as numbers with a sign": (A_LINE, A_LINE.replace("*sums", "*((one + 2**31) % 2**32 - 2**31 for one in sums)")),
    "the role lines not in the length": (
        TOO_LONG,
        TOO_LONG.replace("len(text)", "len(text) - sum(len(line) + 1 for line in role_lines([(o.whose(), o.counts()) for o in ran]))"),
    ),
    "the length of role lines without counts": (
        TOO_LONG,
        TOO_LONG.replace("len(text)", "len(text) - sum(len(line) for line in role_lines([(o.whose(), o.counts()) for o in ran])) + 62"),
    ),
    "the role lines as one": (
        ROLE_LINES,
        ROLE_LINES.replace("lines += [line", "lines += [\"\".join(line").replace("in ran])]", "in ran]))]").replace("for line in", "for line in", 1),
    ),
    "the role lines with the last pass's": (
        ROLE_LINES,
        ROLE_LINES.replace("lines += [", "lines[-1] += \"\".join([").replace("in ran])]", "in ran])])"),
    ),
    "the role lines before the passes'": (ROLE_LINES, ROLE_LINES.replace("lines += ", "lines[1:1] = ")),
    "the role lines behind the sheet's": (
        "    return lines + cells + holes + ambiguous\n",
        "    return lines[:-3] + cells + holes + ambiguous + lines[-3:]\n",
    ),
    "lines counted without the role lines": (PIECE_WILD, PIECE_WILD.replace("len(lines)", "len(lines) - 3")),
    "one line more": (PIECE_WILD, PIECE_WILD.replace("len(lines)", "len(lines) + 1")),
    "the end told without the role lines": (
        "        start += 1\n    return text, start\n",
        "        start += 1\n    return text, start - 3 * (start == len(lines))\n",
    ),
    "a role line lost at the border": (
        PIECE,
        PIECE.replace(
            "        text",
            "        if text and lines[start].startswith(\"(role \") and room - len(text) < LINE_BYTES + 40:\n"
            "            start += 1\n            continue\n        text",
        ),
    ),
    "a role line before which 128 places are left not written": (
        PIECE,
        PIECE.replace(">= LINE_BYTES", ">= LINE_BYTES + lines[start].startswith(\"(role \")"),
    ),
    "a role line before which 127 places are left written": (
        PIECE,
        PIECE.replace(">= LINE_BYTES", ">= LINE_BYTES - lines[start].startswith(\"(role \")"),
    ),
    "the role lines always together": (
        PIECE,
        PIECE.replace("LINE_BYTES:", "LINE_BYTES + lines[start].startswith(\"(role plant \") * len(\"\".join(lines[start : start + 3])):"),
    ),
    "a piece from a role line on has the first too": (
        PIECE,
        "    if start < len(lines) and lines[start].startswith(\"(role d\"):\n        start = len(ran) + 1\n" + PIECE,
    ),
    "role lines that say nothing passed over": (
        PIECE,
        PIECE.replace("text += lines[start]", "text += lines[start] if not lines[start].endswith(\" 0 0 0 0)\\n\") else \"\""),
    ),
}


def changed(name):
    """reference.py with the slip, as a module of its own."""
    with open(os.path.join(HERE, "reference.py")) as file:
        text = file.read()
    slip = {**SLIPS, **BOX_SLIPS, **ROLE_SLIPS, **COUNT_SLIPS, **WRITER_SLIPS}[name]
    for old, new in zip(slip[::2], slip[1::2]):
        if text.count(old) != 1:
            sys.exit(f"{name}: stands {text.count(old)} times in reference.py: {old}")
        text = text.replace(old, new)
    module = types.ModuleType("slipped")
    exec(compile(text, f"reference.py, {name}", "exec"), module.__dict__)
    return module


def seen_in_frames(module, frames, folder):
    """What the Rust does otherwise, or None."""
    side = run.Side(folder, module.passes_text)
    for tried, (frame, data) in enumerate(frames, 1):
        outcome = run.compare(side, data)
        wrong = outcome.differences()
        if wrong or outcome.refusal_differs():
            where = f"a {wrong[0]['kind']} pass" if wrong else "the answer"
            return f"{where} of frame {tried}, {frame}"
    return None


def seen_in_texts(module, texts):
    """The case of cases.py that the changed model answers otherwise, or None."""
    for name, data, answer in texts:
        if module.result(data) != answer:
            return f"a text, {name}"
    return None


def seen_in_boxes(module, cases):
    """The case of a box that the changed model answers otherwise, or None."""
    for name, several, lines in cases:
        if refusals.lines_of(several, module) != lines:
            return f"a box, {name}"
    return None


def seen_in_writers(module, calls):
    """The case of writers.py that the changed model answers otherwise, or None."""
    for name, lent, answer in calls:
        if lent.modelled(module) != answer:
            return f"a writers' call, {name}"
    return None


def main():
    parser = argparse.ArgumentParser(description=__doc__.splitlines()[0])
    parser.add_argument("names", nargs="*")
    parser.add_argument("--seed", type=int, default=1)
    parser.add_argument("--count", type=int, default=1000)
    options = parser.parse_args()
    names = options.names or [*SLIPS, *BOX_SLIPS, *ROLE_SLIPS, *COUNT_SLIPS, *WRITER_SLIPS]
    if not os.path.exists(run.ORACLE) and any(name in SLIPS or name in ROLE_SLIPS for name in names):
        sys.exit("slips.py: compare/rust/out/oracle is missing: compare/rust/build builds it")
    frames = list(generate.frames(options.seed, options.count, roled=0))
    roled = list(generate.frames(options.seed, options.count // 4, roled=1))
    boxes = [(name, several, refusals.lines_of(several)) for name, _, several, _ in refusals.all_boxed()]
    texts = [one for one in cases.roles() if one[0].removeprefix("as-") in cases.STORED_ROLES]
    counts = [(name, data, reference.result(data)) for name, data, _ in cases.counts()]
    calls = list(writers.by_hand())
    modules = {name: changed(name) for name in names}
    seen = unseen = 0
    with tempfile.TemporaryDirectory() as folder:
        for name, module in modules.items():
            besides = ""
            if name in BOX_SLIPS:
                where = seen_in_boxes(module, boxes)
            elif name in ROLE_SLIPS:
                where = seen_in_texts(module, texts)
                besides = f"; and in {seen_in_frames(module, roled, folder) or 'no frame'}"
            elif name in COUNT_SLIPS:
                where = seen_in_texts(module, counts)
            elif name in WRITER_SLIPS:
                where = seen_in_writers(module, calls)
            else:
                where = seen_in_frames(module, frames, folder)
            print((f"{name}: seen in {where}" if where else f"{name}: not seen") + besides, flush=True)
            seen += where is not None
            unseen += where is None
    print(f"{seen} seen, {unseen} unseen")
    return 1 if unseen else 0


if __name__ == "__main__":
    sys.exit(main())
