#!/usr/bin/env python3
"""An executable model of the specification (01), with requests 1/14 to 3/14 and
5/14 to 7/14 of the list of requests (02), written from their text.

    reference.py < FRAME              01's result text, or (refused number line)
    reference.py --passes < FRAME     the sheet after every pass, as text

It shares no code with the Rust side. Where 01 says that the Rust fixes a
thing (the order of the sums, of the equations, of the tried cells), that is
what stands here. Sections follow 01's order and carry its headings.

Floats are Python floats that hold binary32 values. Each operation is done in
binary64 and rounded to binary32. For two binary32 operands that gives the
correctly rounded binary32 sum, difference, product, quotient and root: 53 bits
are more than twice 24 and one more, products are exact in 53 bits, sums below
the least normal number are exact, and no quotient lies within 2^-53 of a
midpoint without being it.
"""

import re
import struct
import sys
from array import array
from collections import deque
from heapq import nsmallest
from math import copysign, inf, isfinite, nan, sqrt

# ---- Number ---------------------------------------------------------------

_word = array("f", [0.0])


def rnd(value):
    """The nearest binary32, ties to even; too large becomes infinite."""
    _word[0] = value
    return _word[0]


def from_hex(digits):
    return struct.unpack(">f", bytes.fromhex(digits))[0]


def to_hex(value):
    return struct.pack(">f", value).hex()


def root(value):
    return rnd(sqrt(value))


def quotient(a, b):
    """a / b with IEEE 754's answers where b is zero."""
    if b != 0.0:
        return rnd(a / b)
    if a == 0.0 or a != a:
        return nan
    return copysign(inf, a) * copysign(1.0, b)


TINY = 2.0**-23  # 01, Candidates
LEAST_PITCH = rnd(0.001)  # 01, Edge
LEAST_LAST = rnd(1e-12)  # 01, Fit: last entry, and normalize_points4's mean
ROOT_2 = root(2.0)


# ---- Sheet ----------------------------------------------------------------

FIRST, LAST = -64, 63


def on_sheet(cell):
    return FIRST <= cell[0] <= LAST and FIRST <= cell[1] <= LAST


class Sheet:
    """Which corner a cell holds, both marks, and beside them the label box (02,
    5/14), which each new label widens."""

    def __init__(self):
        self.corner = {}
        self.holes = set()
        self.ambiguous = set()
        self.around = None

    def copy(self):
        other = Sheet()
        other.corner = dict(self.corner)
        other.holes = set(self.holes)
        other.ambiguous = set(self.ambiguous)
        other.around = self.around
        return other

    def label(self, cell, corner):
        self.corner[cell] = corner
        self.around = widened(self.around, cell)

    def search(self):
        """The label box that is found by looking at every cell."""
        if not self.corner:
            return None
        i = [cell[0] for cell in self.corner]
        j = [cell[1] for cell in self.corner]
        return min(i), max(i), min(j), max(j)

    def rim(self, rings):
        """A labelled cell lies in the outermost rings."""
        low, high = FIRST + rings, LAST - rings
        return any(
            i < low or i > high or j < low or j > high for i, j in self.corner
        )


class Watch:
    """What a pass met on its way: the kinds of case that 01 excludes from
    equality with the Rust and, if wanted, the values that decided."""

    def __init__(self, decisions=None):
        self.kinds = set()
        self.decisions = decisions

    def decided(self, *what):
        if self.decisions is not None:
            self.decisions.append(what)


# ---- Label box (02, 5/14) -------------------------------------------------
#
# Lowest and highest labelled i, lowest and highest labelled j, or None for an
# empty one. Handed to a call and answered by it are five numbers: a mark and
# these four.


def widened(around, cell):
    """The box with one cell more in it."""
    i, j = cell
    if around is None:
        return i, i, j, j
    i0, i1, j0, j1 = around
    return min(i0, i), max(i1, i), min(j0, j), max(j1, j)


def box_handed(five):
    """02, 5/14: "with a mark for an empty one, whose numbers then count for
    nothing"."""
    mark, *numbers = five
    return None if mark else tuple(numbers)


def box_answered(around):
    """Of an empty box the mark, and zeros."""
    return (1, 0, 0, 0, 0) if around is None else (0, *around)


# ---- Step, neighbour, prediction ------------------------------------------

# The 3 by 3 square, j outer and i inner, both rising, centre left out.
SQUARE = [(di, dj) for dj in (-1, 0, 1) for di in (-1, 0, 1) if (di, dj) != (0, 0)]


def neighbours(sheet, cell):
    i, j = cell
    return [
        (di, dj) for di, dj in SQUARE if (i + di, j + dj) in sheet.corner
    ]


def step_at(frame, sheet, at, along, axis):
    """Half the difference of both sides' positions, or the one-sided
    difference, or else axis times cell size."""
    here = frame.position(sheet.corner[at])
    after = sheet.corner.get((at[0] + along[0], at[1] + along[1]))
    before = sheet.corner.get((at[0] - along[0], at[1] - along[1]))
    if after is not None and before is not None:
        a, b = frame.position(after), frame.position(before)
        return rnd(rnd(a[0] - b[0]) * 0.5), rnd(rnd(a[1] - b[1]) * 0.5)
    if after is not None:
        a = frame.position(after)
        return rnd(a[0] - here[0]), rnd(a[1] - here[1])
    if before is not None:
        b = frame.position(before)
        return rnd(here[0] - b[0]), rnd(here[1] - b[1])
    return rnd(axis[0] * frame.cell), rnd(axis[1] * frame.cell)


def predict(frame, sheet, cell, near):
    """The weighted mean of what each neighbour says, in neighbour order."""
    sum_x = sum_y = sum_w = 0.0
    for di, dj in near:
        at = (cell[0] + di, cell[1] + dj)
        x, y = frame.position(sheet.corner[at])
        along_i = step_at(frame, sheet, at, (1, 0), frame.axes[0])
        along_j = step_at(frame, sheet, at, (0, 1), frame.axes[1])
        weight = 1.0 / (di * di + dj * dj)
        # From the neighbour to the cell it is -di and -dj.
        off_x = rnd(rnd(along_i[0] * -di) + rnd(along_j[0] * -dj))
        off_y = rnd(rnd(along_i[1] * -di) + rnd(along_j[1] * -dj))
        sum_x = rnd(sum_x + rnd(weight * rnd(x + off_x)))
        sum_y = rnd(sum_y + rnd(weight * rnd(y + off_y)))
        sum_w = rnd(sum_w + weight)
    return rnd(sum_x / sum_w), rnd(sum_y / sum_w)


def extrapolating(near):
    """Not all of the sides -i, +i, -j, +j have a neighbour."""
    return not (
        any(di < 0 for di, _ in near)
        and any(di > 0 for di, _ in near)
        and any(dj < 0 for _, dj in near)
        and any(dj > 0 for _, dj in near)
    )


# ---- Candidates and choice ------------------------------------------------


def takes(frame, cell, corner):
    """02, 1/14: if any shade stands, cell (i, j) takes only kind 0 where i+j
    is even and kind 1 where odd, and no corner without a shade."""
    return not frame.shades or frame.shades.get(corner) == (cell[0] + cell[1]) % 2


def candidates(frame, sheet, cell, point, radius, watch):
    """(distance, corner) of each unlabelled corner that the cell takes and
    whose squared distance is at most the squared radius, by distance, then
    corner number; and how many unlabelled corners within the radius the cell
    does not take. A non-finite prediction has none of either."""
    px, py = point
    if not (isfinite(px) and isfinite(py)):
        watch.kinds.add("prediction")
        return [], 0
    square = rnd(radius * radius)
    # Rounding moves a squared distance by less than its 2^20th part, or by
    # less than 2^-140 where it is that small: what is further off than this is
    # neither a candidate nor near the radius.
    reach = square * (1.0 + 2.0**-14) + 2.0**-140
    taken = frame.taken(sheet)
    found = []
    passed = 0
    for n, x, y in frame.numbered:
        ex = x - px
        ey = y - py
        if ex * ex + ey * ey > reach or n in taken:
            continue
        dx = rnd(x - px)
        dy = rnd(y - py)
        d2 = rnd(rnd(dx * dx) + rnd(dy * dy))
        if abs(d2 - square) <= square / 65536:
            watch.kinds.add("radius")
        if d2 <= square:
            if takes(frame, cell, n):
                found.append((root(d2), n))
            else:
                passed += 1
        watch.decided("radius", d2, square)
    found.sort()
    return found, passed


AMBIGUOUS = "ambiguous"


def choose(found, factor, raised, watch):
    """None, AMBIGUOUS or the corner. Grow says ambiguous at a first distance
    of at most 2^-23; fill and local (raised) raise it to that."""
    if not found:
        return None
    if len(found) >= 2:
        first, second = found[0][0], found[1][0]
        if raised:
            first = max(first, TINY)
        elif first <= TINY:
            return AMBIGUOUS
        ratio = rnd(second / first)
        watch.decided("quotient", ratio, factor)
        if ratio < factor:
            return AMBIGUOUS
    return found[0][1]


# ---- Edge -----------------------------------------------------------------

CARDINAL = [(1, 0), (-1, 0), (0, 1), (0, -1)]


def edge_accepted(frame, corner, other, watch):
    x, y = frame.position(corner)
    ox, oy = frame.position(other)
    dx = rnd(x - ox)
    dy = rnd(y - oy)
    length = root(rnd(rnd(dx * dx) + rnd(dy * dy)))
    expected = rnd(0.5 * rnd(frame.pitch[corner] + frame.pitch[other]))
    watch.decided("pitch", expected, corner)
    if not expected > LEAST_PITCH:
        expected = frame.cell
    ratio = rnd(length / expected)
    watch.decided("edge", ratio, frame.band)
    return rnd(1.0 - frame.band) <= ratio <= rnd(1.0 + frame.band)


def passes_edges(frame, sheet, cell, corner, watch):
    """An accepted edge to a cardinal neighbour, or no such neighbour."""
    present = False
    for di, dj in CARDINAL:
        other = sheet.corner.get((cell[0] + di, cell[1] + dj))
        if other is not None:
            present = True
            if edge_accepted(frame, corner, other, watch):
                return True
    return not present


# ---- Fit ------------------------------------------------------------------


class NoFit(Exception):
    """`nonfinite` names what was not finite, if that was the reason."""

    def __init__(self, nonfinite):
        self.nonfinite = nonfinite


def step(value):
    """One step of the fit: rounded, and no fit if it is not finite."""
    _word[0] = value
    value = _word[0]
    if value - value != 0.0:
        raise NoFit("fit")
    return value


def row_sum(row, column):
    """A row times a column, left to right, zeros included."""
    left = step(step(row[0] * column[0]) + step(row[1] * column[1]))
    return step(left + step(row[2] * column[2]))


def normalise(points):
    """In the order of normalize_points4: points, scale, centre, matrix."""
    cx = cy = 0.0
    for x, y in points:
        cx = step(cx + x)
        cy = step(cy + y)
    cx = step(cx / 4.0)
    cy = step(cy / 4.0)
    mean = 0.0
    for x, y in points:
        dx = step(x - cx)
        dy = step(y - cy)
        mean = step(mean + step(sqrt(step(step(dx * dx) + step(dy * dy)))))
    mean = step(mean / 4.0)
    s = step(ROOT_2 / mean) if mean > LEAST_LAST else 1.0
    matrix = [[s, 0.0, step(-s * cx)], [0.0, s, step(-s * cy)], [0.0, 0.0, 1.0]]
    moved = []
    for x, y in points:
        column = (x, y, 1.0)
        moved.append((row_sum(matrix[0], column), row_sum(matrix[1], column)))
    return moved, s, (cx, cy), matrix


def solve(a):
    """Elimination and back substitution of eight rows of nine."""
    for c in range(8):
        pivot = c
        for r in range(c + 1, 8):
            if abs(a[r][c]) > abs(a[pivot][c]):
                pivot = r
        if a[pivot][c] == 0.0:
            raise NoFit(None)
        a[c], a[pivot] = a[pivot], a[c]
        if c == 7:
            break
        top = a[c]
        reciprocal = step(1.0 / top[c])
        for r in range(c + 1, 8):
            low = a[r]
            multiplier = step(low[c] * reciprocal)
            for k in range(c + 1, 9):
                low[k] = step(low[k] + step(multiplier * -top[k]))
    answers = [0.0] * 8
    for c in range(7, -1, -1):
        answer = step(a[c][8] / a[c][c])
        answers[c] = answer
        for r in range(c):
            a[r][8] = step(a[r][8] + step(-answer * a[r][c]))
    return answers


def product(a, b):
    columns = [[b[r][c] for r in range(3)] for c in range(3)]
    return [[row_sum(a[r], columns[c]) for c in range(3)] for r in range(3)]


def fit(cells, corners):
    """Three rows of three, the last entry 1; raises NoFit."""
    from_cells, _, _, s_matrix = normalise(cells)
    from_corners, t_scale, (tx, ty), _ = normalise(corners)
    equations = []
    for (x, y), (u, v) in zip(from_cells, from_corners):
        equations.append(
            [x, y, 1.0, 0.0, 0.0, 0.0, step(-u * x), step(-u * y), u]
        )
        equations.append(
            [0.0, 0.0, 0.0, x, y, 1.0, step(-v * x), step(-v * y), v]
        )
    h = solve(equations)
    h = [h[0:3], h[3:6], [h[6], h[7], 1.0]]
    back = step(1.0 / t_scale)
    t_back = [[back, 0.0, tx], [0.0, back, ty], [0.0, 0.0, 1.0]]
    m = product(product(t_back, h), s_matrix)
    last = m[2][2]
    if abs(last) < LEAST_LAST:
        raise NoFit(None)
    return [[step(entry / last) for entry in row] for row in m]


def map_point(h, x, y):
    """Row sums left to right, the first two divided by the third. Not a step
    of the fit: the answer may be anything."""

    def line(row):
        left = rnd(rnd(row[0] * x) + rnd(row[1] * y))
        return rnd(left + row[2])

    w = line(h[2])
    return quotient(line(h[0]), w), quotient(line(h[1]), w)


def supported_fit(frame, sheet, supports):
    """The fit on four supports: matrix, residuals, what was not finite. No
    fit, or a non-finite residual, has no matrix and records nothing."""
    numbers = tuple(sheet.corner[cell] for cell in supports)
    known = frame.fits.get((supports, numbers))
    if known is not None:
        return known
    corners = [frame.position(n) for n in numbers]
    try:
        h = fit([(float(i), float(j)) for i, j in supports], corners)
        residuals = []
        for (i, j), (x, y) in zip(supports, corners):
            mx, my = map_point(h, float(i), float(j))
            dx = rnd(mx - x)
            dy = rnd(my - y)
            square = rnd(rnd(dx * dx) + rnd(dy * dy))
            residual = root(square) if square == square else nan
            if not isfinite(residual):
                raise NoFit("residual")
            residuals.append(residual)
        answer = (h, residuals, None)
    except NoFit as no:
        answer = (None, [], no.nonfinite)
    frame.fits[(supports, numbers)] = answer
    return answer


# ---- Grow -----------------------------------------------------------------


class Answer:
    """A pass line, the new cells in order, what the sums of its role take of it,
    for grow the visited cells and, for local where any shade stands, the corners
    passed over for their kind. A library call answers the label box too, as five
    numbers."""

    def __init__(self, line, attached, counts=None, visited=None, unmatched=None):
        self.line = line
        self.attached = attached
        self.counts = counts  # attached, no candidate, ambiguous, edge
        self.visited = visited
        self.unmatched = unmatched
        self.box = None

    def lines(self):
        """What the result says of the pass."""
        if self.unmatched is None:
            return [self.line]
        return [self.line, f"(unmatched {self.unmatched})"]


def yes_no(flag):
    return "yes" if flag else "no"


def grow(frame, sheet, numbers, watch):
    search, factor, boundary = numbers
    queue = deque()
    queued = set()
    visited, attached = [], []
    none = ambiguous = edge = 0

    def enqueue(cell):
        for di, dj in CARDINAL:
            other = (cell[0] + di, cell[1] + dj)
            if on_sheet(other) and other not in sheet.corner and other not in queued:
                queued.add(other)
                queue.append(other)

    for cell in sorted(sheet.corner):
        enqueue(cell)
    while queue:
        cell = queue.popleft()
        visited.append(cell)
        near = neighbours(sheet, cell)
        point = predict(frame, sheet, cell, near)
        radius = rnd(search * frame.cell)
        if extrapolating(near):
            radius = rnd(radius * boundary)
        found, _ = candidates(frame, sheet, cell, point, radius, watch)
        choice = choose(found, factor, False, watch)
        if choice is None:
            none += 1
            sheet.holes.add(cell)
        elif choice is AMBIGUOUS:
            ambiguous += 1
            sheet.ambiguous.add(cell)
        elif not passes_edges(frame, sheet, cell, choice, watch):
            edge += 1
            sheet.holes.add(cell)
        else:
            sheet.label(cell, choice)
            attached.append((cell, choice))
            enqueue(cell)
    rim = yes_no(sheet.rim(1))
    line = f"(grow {len(attached)} {none} {ambiguous} {edge} {rim})"
    return Answer(line, attached, (len(attached), none, ambiguous, edge), visited)


# ---- Fill -----------------------------------------------------------------


def fill_cells(sheet):
    """The unlabelled cells of the label box and one strip along each whole
    side, by i, then j."""
    i0, i1, j0, j1 = sheet.around
    cells = [
        (i, j)
        for i in range(i0 - 1, i1 + 2)
        for j in range(j0 - 1, j1 + 2)
        if i0 <= i <= i1 or j0 <= j <= j1
    ]
    return [c for c in cells if on_sheet(c) and c not in sheet.corner]


def fill(frame, sheet, numbers, watch):
    search, factor, limit = numbers
    attached = []
    rounds = 0
    radius = rnd(search * frame.cell)
    while sheet.corner and rounds < max(limit, 1):
        rounds += 1
        before = len(attached)
        for cell in fill_cells(sheet):
            near = neighbours(sheet, cell)
            if not near:
                continue
            point = predict(frame, sheet, cell, near)
            found, _ = candidates(frame, sheet, cell, point, radius, watch)
            if len(found) >= 2 and found[0][0] == found[1][0]:
                watch.kinds.add("equal")
            choice = choose(found, factor, True, watch)
            if choice is None or choice is AMBIGUOUS:
                continue
            if passes_edges(frame, sheet, cell, choice, watch):
                sheet.label(cell, choice)
                attached.append((cell, choice))
        if len(attached) == before:
            break
    rim = yes_no(sheet.rim(1))
    return Answer(f"(fill {len(attached)} {rounds} {rim})", attached, (len(attached), 0, 0, 0))


# ---- Local ----------------------------------------------------------------


def local_cells(sheet, depth):
    """The unlabelled cells of the box, strips of the depth on labelled rows
    and columns only, and four corner blocks, by i, then j."""
    i0, i1, j0, j1 = sheet.around
    with_i = {i for i, _ in sheet.corner}
    with_j = {j for _, j in sheet.corner}

    def walked(i, j):
        if i0 <= i <= i1 and j0 <= j <= j1:
            return (i, j) not in sheet.corner
        if i0 <= i <= i1:
            return i in with_i
        if j0 <= j <= j1:
            return j in with_j
        return True

    return [
        (i, j)
        for i in range(i0 - depth, i1 + depth + 1)
        for j in range(j0 - depth, j1 + depth + 1)
        if on_sheet((i, j)) and walked(i, j)
    ]


def nearest_supports(sheet, cell):
    """The 4 nearest labelled cells by |di|+|dj|, then i, then j."""
    i, j = cell
    order = ((abs(a - i) + abs(b - j), a, b) for a, b in sheet.corner)
    return tuple((a, b) for _, a, b in nsmallest(4, order))


def local(frame, sheet, numbers, watch):
    search, factor, limit, residual, depth = numbers
    depth = max(depth, 1)
    attached = []
    none = ambiguous = edge = rounds = unmatched = 0
    largest = None
    radius = rnd(search * frame.cell)
    gate = rnd(residual * frame.cell)
    while len(sheet.corner) >= 4 and rounds < limit:
        rounds += 1
        before = len(attached)
        for cell in local_cells(sheet, depth):
            supports = nearest_supports(sheet, cell)
            h, residuals, nonfinite = supported_fit(frame, sheet, supports)
            if nonfinite:
                watch.kinds.add(nonfinite)
            if h is None:
                continue
            worst = max(residuals)
            largest = worst if largest is None else max(largest, worst)
            watch.decided("gate", worst, gate)
            if worst > gate:
                continue
            point = map_point(h, float(cell[0]), float(cell[1]))
            found, passed = candidates(frame, sheet, cell, point, radius, watch)
            unmatched += passed
            choice = choose(found, factor, True, watch)
            if choice is None:
                none += 1
            elif choice is AMBIGUOUS:
                ambiguous += 1
            elif not passes_edges(frame, sheet, cell, choice, watch):
                edge += 1
            else:
                sheet.label(cell, choice)
                sheet.holes.discard(cell)
                sheet.ambiguous.discard(cell)
                attached.append((cell, choice))
        if len(attached) == before:
            break
    word = "none" if largest is None else to_hex(largest)
    rim = yes_no(sheet.rim(depth))
    line = f"(local {len(attached)} {none} {ambiguous} {edge} {rounds} {word} {rim})"
    counts = (len(attached), none, ambiguous, edge)
    return Answer(line, attached, counts, unmatched=unmatched if frame.shades else None)


PASSES = {"grow": grow, "fill": fill, "local": local}


def run_pass(frame, sheet, number, watch=None):
    """Runs pass `number` (from 0) on the sheet, which it changes."""
    kind, numbers = frame.passes[number]
    watch = watch or Watch()
    answer = PASSES[kind](frame, sheet, numbers, watch)
    if answer.line.endswith(" yes)"):
        watch.kinds.add("rim")
    return answer


# ---- Library calls --------------------------------------------------------


def lent_shades(shades, n):
    """The shades that a call on n corners is lent, one byte a corner: 0 none,
    1 kind 0, 2 kind 1; what lies past the first n is not looked at. The kinds
    by corner, or the refusal's number: too few 7, any other byte 3."""
    if len(shades) < n:
        return SHORT
    if any(byte > 2 for byte in shades[:n]):
        return WILD
    return {corner: byte - 1 for corner, byte in enumerate(shades[:n]) if byte}


AS_LEFT = "as left"  # the box that is handed is the one beside the sheet


class Call:
    """A library call: its pass and the numbers of it; cell size, axes and band;
    the shades and how many places of each buffer it is lent; the box that it is
    handed, five numbers or as left."""

    def __init__(self, kind, settings, numbers, lent, shades, around=AS_LEFT):
        self.kind = kind
        self.settings = settings  # cell, axes, band
        self.numbers = list(numbers)
        self.lent = dict(lent)  # of ys, pitches, sheet, queue, attached, shades
        self.shades = list(shades)  # a byte for each corner
        self.around = around

    def box(self, sheet):
        return box_answered(sheet.around) if self.around == AS_LEFT else self.around

    def kinds(self, n):
        """What is lent past a byte for each corner is 0."""
        more = [0] * (self.lent["shades"] - len(self.shades))
        return lent_shades((self.shades + more)[: self.lent["shades"]], n)


def outside(value, least, most):
    return not least <= value <= most  # also where it is not a number


def number_outside(frame, call):
    """A number out of range: a corner's, cell size, axes, band or the pass's."""
    cell, axes, band = call.settings
    corners = zip(frame.x, frame.y, frame.pitch)
    return (
        any(outside(x, *POSITION) or outside(y, *POSITION) or outside(p, *PITCH) for x, y, p in corners)
        or outside(cell, *CELL)
        or any(outside(part, *AXIS) for axis in axes for part in axis)
        or outside(band, *BAND)
        or any(outside(value, *ends) for value, (_, *ends) in zip(call.numbers, _RANGES[call.kind]))
    )


def refusal(frame, sheet, call):
    """01: "The library tries 7, 2, 3, 5, 6"; 02, 5/14: "A library call handed a
    sheet and a box that differs from it gets 3". None if it is accepted."""
    n = len(frame.x)
    kinds = call.kinds(n)
    needed = {"ys": n, "pitches": n, "sheet": 16384, "attached": n}
    if call.kind == "grow":
        needed["queue"] = 4 * n
    if kinds == SHORT or any(call.lent[name] < least for name, least in needed.items()):
        return SHORT
    if n > 1024:
        return OVERFULL
    if kinds == WILD or number_outside(frame, call):
        return WILD
    if box_handed(call.box(sheet)) != sheet.search():
        return WILD
    corners = list(sheet.corner.values())
    if any(corner >= n for corner in corners):
        return STRANGER
    if len(set(corners)) < len(corners):
        return DOUBLED
    return None


def library_call(frame, sheet, call):
    """Runs a call on the frame's corners and the sheet, which it changes unless
    it is refused. The answer, or the refusal's number."""
    number = refusal(frame, sheet, call)
    if number is not None:
        return number
    frame.cell, frame.axes, frame.band = call.settings
    frame.shades = call.kinds(len(frame.x))
    frame.passes.append((call.kind, tuple(call.numbers)))
    sheet.around = box_handed(call.box(sheet))
    answer = run_pass(frame, sheet, len(frame.passes) - 1)
    answer.box = box_answered(sheet.around)
    return answer


# ---- Joining two patches --------------------------------------------------


def shifted(labels, shift):
    return [(corner, (i + shift[0], j + shift[1])) for corner, (i, j) in labels]


def union(labels, others):
    known = set(labels)
    return labels + [label for label in others if label not in known]


def one_each(labels):
    """Every corner has one cell and every cell one corner."""
    corners = {corner for corner, _ in labels}
    cells = {cell for _, cell in labels}
    return len(corners) == len(labels) and len(cells) == len(labels)


def join(first, second):
    """02, 3/14: the union of two sets of labels (corner, cell), the second one
    shifted so that every shared corner has one cell and every cell one corner;
    or the refusal's number: 8 if no corner is in both, 9 if there is no such
    shift, on the sheet or not, 4 if it takes a label off the sheet. Tried are
    all shifts that give some shared corner one cell."""
    asked = {
        (cell[0] - other[0], cell[1] - other[1])
        for corner, cell in first
        for shared, other in second
        if corner == shared
    }
    if not asked:
        return APART
    fitting = [shift for shift in asked if one_each(union(first, shifted(second, shift)))]
    if not fitting:
        return CLASH
    (shift,) = fitting  # two shifts would give a shared corner two cells
    joined = union(first, shifted(second, shift))
    if not all(on_sheet(cell) for _, cell in joined):
        return OFF_SHEET
    return joined


# ---- Frame and result -----------------------------------------------------


class Frame:
    def __init__(self):
        self.cell = 0.0
        self.axes = ((0.0, 0.0), (0.0, 0.0))
        self.band = 0.0
        self.x, self.y, self.pitch = [], [], []
        self.sets = [[]]  # of labels (corner, cell), in the order of their lines
        self.patch = None  # the patch line's number; behind it the second set
        self.labels = []  # the given ones: the first set, or both joined
        self.around = None  # the label box of the given ones
        self.shades = {}  # kind by corner, of those that have a shade
        self.passes = []  # (kind, numbers)
        self.roles = []  # for each pass that was read, who runs it
        self.numbered = []  # (corner, x, y)
        self.fits = {}  # fits already worked out

    def position(self, corner):
        return self.x[corner], self.y[corner]

    def taken(self, sheet):
        return set(sheet.corner.values())

    def given(self):
        sheet = Sheet()
        for corner, cell in self.labels:
            sheet.corner[cell] = corner
        sheet.around = self.around
        return sheet


class Refused(Exception):
    def __init__(self, number, line):
        super().__init__(f"(refused {number} {line})")
        self.number = number
        self.line = line


class NotJoined(Refused):
    """Every line is as it should be, but the two sets are not joined."""


class NotRun(Refused):
    """02, 6/14: behind an as line stands no pass, or the role may not run it."""


BENT, OVERFULL, WILD, OFF_SHEET, STRANGER, DOUBLED, SHORT, APART, CLASH, NOT_YOURS = range(1, 11)

_FLOAT = r"([0-9a-f]{8})"
_WHOLE = r"(0|-?[1-9][0-9]*)"
_FORMS = {
    kind: re.compile(form.replace("F", _FLOAT).replace("W", _WHOLE).encode())
    for kind, form in {
        "frame": r"\(frame 1\)",
        "cell": r"\(cell F\)",
        "axes": r"\(axes \(F F\) \(F F\)\)",
        "band": r"\(band F\)",
        "corner": r"\(corner \(F F\) F\)",
        "label": r"\(label W \(W W\)\)",
        "patch": r"\(patch\)",
        "shade": r"\(shade W W\)",
        "as": r"\(as (dealer|depot|plant)\)",
        "grow": r"\(grow(?: F F F)?\)",
        "fill": r"\(fill(?: F F W)?\)",
        "local": r"\(local F F W F W\)",
    }.items()
}


def _whole(digits):
    """The value, or one far outside every range: digits may be any number."""
    if len(digits) > 9:
        return -(10**9) if digits[:1] == b"-" else 10**9
    return int(digits)


def _float(digits):
    return from_hex(digits.decode())


_HEAD = ["frame", "cell", "axes", "band"]
_RANK = {"corner": 0, "label": 1, "patch": 2, "shade": 4, "as": 5, "grow": 5, "fill": 5, "local": 5}
_SECOND = 3  # the rank of a label behind the patch line
BARE = {
    "grow": (rnd(0.35), 1.5, 1.25),  # 02, 2/14: a boundary multiple of 1.25
    "fill": (rnd(0.35), 1.5, 1),
}
POSITION, PITCH, CELL = (-16384, 16384), (0, 16384), (2.0**-10, 16384)
AXIS, BAND = (-4, 4), (0, 4)
# How each of a pass's numbers is read, its least and its most.
_MULTIPLE, _FACTOR = (_float, 0, 16), (_float, 0, 1000)
_ROUNDS, _DEPTH = (_whole, 0, 64), (_whole, 0, 4)
_RANGES = {
    "grow": (_MULTIPLE, _FACTOR, _MULTIPLE),
    "fill": (_MULTIPLE, _FACTOR, _ROUNDS),
    "local": (_MULTIPLE, _FACTOR, _ROUNDS, _MULTIPLE, _DEPTH),
}


def may_run(role, kind, bare):
    """02, 6/14: "A dealer may run bare grow and bare fill; a depot any grow and
    fill; the plant all"."""
    if role == "dealer":
        return bare and kind in ("grow", "fill")
    if role == "depot":
        return kind in ("grow", "fill")
    return role == "plant"


def read(data):
    """The frame, or raises Refused."""
    frame = read_lines(data)
    frame.labels = frame.sets[0]
    if frame.patch is not None:
        frame.labels = join(*frame.sets)
        if frame.labels in (APART, CLASH, OFF_SHEET):
            raise NotJoined(frame.labels, frame.patch)
        for _, cell in frame.labels[len(frame.sets[0]) :]:  # those that are new
            frame.around = widened(frame.around, cell)
    return frame


def read_lines(data):
    """The frame, its two sets not joined yet, or raises Refused."""
    if len(data) > 65536:
        raise Refused(OVERFULL, 0)
    lines = data.split(b"\n")
    unfinished = lines.pop()  # what stands after the last LF
    frame = Frame()
    rank = 0
    role = "plant"  # until the first as line
    named = False  # the line before is an as line
    for number, line in enumerate(lines, 1):
        if number <= 4:
            _read_head(frame, _HEAD[number - 1], line, number)
            continue
        kind, match = _form_of(line)
        if named and kind not in PASSES:
            raise NotRun(BENT, number)
        if kind is None or kind == "patch" and frame.patch is not None:
            raise Refused(BENT, number)
        named = kind == "as"
        before = rank
        rank = _SECOND if kind == "label" and frame.patch is not None else _RANK[kind]
        if rank < before:
            raise Refused(BENT, number)
        if kind == "corner":
            _read_corner(frame, match, number)
        elif kind == "label":
            _read_label(frame, match, number)
        elif kind == "patch":
            frame.patch = number
            frame.sets.append([])
        elif kind == "shade":
            _read_shade(frame, match, number)
        elif kind == "as":
            role = match.group(1).decode()
        else:
            _read_pass(frame, role, kind, match, number)
    if named:
        raise NotRun(BENT, len(lines) + 1)
    if unfinished or len(lines) < 4:
        raise Refused(BENT, len(lines) + 1)
    frame.numbered = list(zip(range(len(frame.x)), frame.x, frame.y))
    return frame


def _form_of(line):
    for kind in _RANK:
        match = _FORMS[kind].fullmatch(line)
        if match:
            return kind, match
    return None, None


def _floats(match, line, *ranges):
    values = [_float(group) for group in match.groups()]
    for value, ends in zip(values, ranges):
        if outside(value, *ends):
            raise Refused(WILD, line)
    return values


def _read_head(frame, kind, line, number):
    match = _FORMS[kind].fullmatch(line)
    if not match:
        raise Refused(BENT, number)
    if kind == "cell":
        (frame.cell,) = _floats(match, number, CELL)
    elif kind == "axes":
        a, b, c, d = _floats(match, number, *[AXIS] * 4)
        frame.axes = ((a, b), (c, d))
    elif kind == "band":
        (frame.band,) = _floats(match, number, BAND)


def _read_corner(frame, match, number):
    if len(frame.x) == 1024:
        raise Refused(OVERFULL, number)
    x, y, pitch = _floats(match, number, POSITION, POSITION, PITCH)
    frame.x.append(x)
    frame.y.append(y)
    frame.pitch.append(pitch)


def _read_label(frame, match, number):
    """02, 3/14: 5 and 6 are tried inside each set alone."""
    corner, i, j = (_whole(group) for group in match.groups())
    if not on_sheet((i, j)):
        raise Refused(OFF_SHEET, number)
    if not 0 <= corner < len(frame.x):
        raise Refused(STRANGER, number)
    if any(corner == other or (i, j) == cell for other, cell in frame.sets[-1]):
        raise Refused(DOUBLED, number)
    frame.sets[-1].append((corner, (i, j)))
    if frame.patch is None:
        frame.around = widened(frame.around, (i, j))


def _read_shade(frame, match, number):
    """02, 1/14: a k other than 0 or 1 is number 1, an unknown corner 5, a
    second shade 6."""
    corner, kind = (_whole(group) for group in match.groups())
    if kind not in (0, 1):
        raise Refused(BENT, number)
    if not 0 <= corner < len(frame.x):
        raise Refused(STRANGER, number)
    if corner in frame.shades:
        raise Refused(DOUBLED, number)
    frame.shades[corner] = kind


def _read_pass(frame, role, kind, match, number):
    """01, 2 and 3; then 02, 6/14: 10 "at the pass line, after number 3"."""
    if len(frame.passes) == 16:
        raise Refused(OVERFULL, number)
    bare = match.group(1) is None
    values = []
    for group, (value_of, least, most) in zip(match.groups(), () if bare else _RANGES[kind]):
        value = value_of(group)
        if outside(value, least, most):
            raise Refused(WILD, number)
        values.append(value)
    if not may_run(role, kind, bare):
        raise NotRun(NOT_YOURS, number)
    frame.passes.append((kind, BARE[kind] if bare else tuple(values)))
    frame.roles.append(role)


def result(data):
    """01's result text of a frame's bytes."""
    try:
        frame = read(data)
    except Refused as refused:
        return f"{refused}\n"
    sheet = frame.given()
    lines, ran = [], []
    for number, role in enumerate(frame.roles):
        answer = run_pass(frame, sheet, number)
        lines += answer.lines()
        ran.append((role, answer.counts))
    return result_text(lines, role_lines(ran), sheet)


def result_text(pass_lines, roles, sheet):
    """01's result: the pass lines as run, each with its unmatched line; then the
    role lines (02, 7/14), then the sheet."""
    lines = ["(result 1)"] + pass_lines + roles
    for (i, j), corner in sorted(sheet.corner.items()):
        lines.append(f"(cell ({i} {j}) {corner})")
    lines += [f"(hole ({i} {j}))" for i, j in sorted(sheet.holes)]
    lines += [f"(ambiguous ({i} {j}))" for i, j in sorted(sheet.ambiguous)]
    return "\n".join(lines) + "\n"


# ---- Counts for each role (02, 7/14) --------------------------------------

ROLES = ("plant", "depot", "dealer")


def role_lines(ran):
    """"(role name attached none ambiguous edge)" for plant, depot, dealer: of each
    the sums over the passes run under it. `ran` are, for each pass, its role and
    its four counts."""
    lines = []
    for role in ROLES:
        sums = [0, 0, 0, 0]
        for other, counts in ran:
            if other == role:
                sums = [one + more for one, more in zip(sums, counts)]
        lines.append("(role %s %d %d %d %d)" % (role, *sums))
    return lines


# ---- The writers' calls ----------------------------------------------------
#
# The library's calls that write a result's text from words (c/projective_grid.h):
# of each pass twelve, the last of them its role since 02, 7/14.

OUTCOME_WORDS = 12
LINE_BYTES = 128  # of a piece: room for any one line
PLACES = 16384
HOLE, AMBIGUOUS_MARK, CORNER_BITS = 0x4000, 0x8000, 0x3FFF
LARGEST_COUNT = 64 * PLACES
LARGEST_UNMATCHED = LARGEST_COUNT * 1024


class Outcome:
    """Twelve words of a pass, any numbers. Those that no pass has still have a
    line, so that the text has a length: any other kind is local, any other
    role the dealer, any other flag and rim a yes."""

    def __init__(self, words):
        self.kind, self.attached, self.none, self.ambiguous, self.edge, self.rounds = words[:6]
        self.recorded, self.residual, self.rim, self.shaded, self.unmatched, self.role = words[6:]

    def wild(self):
        """Words that no pass has: 3."""
        return (
            self.kind > 2
            or max(self.attached, self.none, self.ambiguous, self.edge) > LARGEST_COUNT
            or self.rounds > 64
            or self.recorded > 1
            or (self.recorded == 1 and not isfinite(from_hex("%08x" % self.residual)))
            or self.rim > 1
            or self.shaded > 1
            or (self.shaded == 1 and (self.kind != 2 or self.unmatched > LARGEST_UNMATCHED))
            or (self.shaded == 0 and self.unmatched != 0)
            or self.role > 2
        )

    def counts(self):
        """02, 7/14: "fill adds to attached alone"."""
        if self.kind == 1:
            return self.attached, 0, 0, 0
        return self.attached, self.none, self.ambiguous, self.edge

    def lines(self):
        rim = yes_no(self.rim)
        if self.kind == 1:
            return [f"(fill {self.attached} {self.rounds} {rim})"]
        four = f"{self.attached} {self.none} {self.ambiguous} {self.edge}"
        if self.kind == 0:
            return [f"(grow {four} {rim})"]
        word = "%08x" % self.residual if self.recorded else "none"
        lines = [f"(local {four} {self.rounds} {word} {rim})"]
        return lines + [f"(unmatched {self.unmatched})"] if self.shaded else lines

    def whose(self):
        return ROLES[min(self.role, 2)]


def outcomes(passes, words):
    return [Outcome(words[OUTCOME_WORDS * k : OUTCOME_WORDS * (k + 1)]) for k in range(passes)]


def counted_lines(ran, places):
    """The text as the piece call counts its lines: the heading, one for each
    pass, local's two being one, the three role lines, then 16,384 each of cells,
    holes and ambiguous cells, most of them empty."""
    lines = ["(result 1)\n"]
    lines += ["".join(line + "\n" for line in outcome.lines()) for outcome in ran]
    lines += [line + "\n" for line in role_lines([(outcome.whose(), outcome.counts()) for outcome in ran])]
    cells, holes, ambiguous = ([""] * PLACES for _ in range(3))
    for place, word in enumerate(places[:PLACES]):
        if word:
            cell = f"({place // 128 + FIRST} {place % 128 + FIRST})"
            if word & CORNER_BITS:
                cells[place] = f"(cell {cell} {(word & CORNER_BITS) - 1})\n"
            if word & HOLE:
                holes[place] = f"(hole {cell})\n"
            if word & AMBIGUOUS_MARK:
                ambiguous[place] = f"(ambiguous {cell})\n"
    return lines + cells + holes + ambiguous


def lent_too_short(passes, words, places):
    return len(words) < OUTCOME_WORDS * passes or len(places) < PLACES


def writer_refusal(corners, ran, places, wild=False):
    """2, 3, 5 and 6, or None."""
    if len(ran) > 16 or corners > 1024:
        return OVERFULL
    if wild or any(outcome.wild() for outcome in ran):
        return WILD
    held = [(word & CORNER_BITS) - 1 for word in places[:PLACES] if word & CORNER_BITS]
    if any(corner >= corners for corner in held):
        return STRANGER
    if len(set(held)) < len(held):
        return DOUBLED
    return None


def write_result(corners, passes, words, places, room, out):
    """The whole text, or the refusal's number. `room` and `out` are how many
    places there are for the text and for the numbers that are answered."""
    if lent_too_short(passes, words, places) or out < 1:
        return SHORT
    ran = outcomes(passes, words)
    text = "".join(counted_lines(ran, places))
    if room < len(text):
        return SHORT
    return writer_refusal(corners, ran, places) or text


def write_piece(corners, passes, words, places, start, room, out):
    """Whole lines from line `start` on, as long as 128 bytes are left before each,
    and which line comes next; or the refusal's number."""
    if lent_too_short(passes, words, places) or room < LINE_BYTES or out < 2:
        return SHORT
    ran = outcomes(passes, words)
    lines = counted_lines(ran, places)
    number = writer_refusal(corners, ran, places, start > len(lines))
    if number is not None:
        return number
    text = ""
    while start < len(lines) and room - len(text) >= LINE_BYTES:
        text += lines[start]
        start += 1
    return text, start


# ---- What the comparing programs read -------------------------------------


def pass_text(frame, number, answer, sheet):
    """One pass in the form that the comparing program reads."""
    return answer_text(f"pass {number + 1} {frame.passes[number][0]}", answer, sheet)


def answer_text(heading, answer, sheet):
    lines = [heading] + answer.lines()
    if answer.visited is not None:
        lines += [f"visited {i} {j}" for i, j in answer.visited]
    lines += [f"attached {i} {j} {corner}" for (i, j), corner in answer.attached]
    if answer.box is not None:
        lines.append("box " + " ".join(str(part) for part in answer.box))
    for (i, j), corner in sorted(sheet.corner.items()):
        lines.append(f"cell {i} {j} {corner}")
    lines += [f"hole {i} {j}" for i, j in sorted(sheet.holes)]
    lines += [f"ambiguous {i} {j}" for i, j in sorted(sheet.ambiguous)]
    return "\n".join(lines) + "\n"


def passes_text(data):
    """Every pass of a frame's bytes, or the refusal."""
    try:
        frame = read(data)
    except Refused as refused:
        return f"{refused}\n"
    sheet = frame.given()
    texts = []
    for number in range(len(frame.passes)):
        answer = run_pass(frame, sheet, number)
        texts.append(pass_text(frame, number, answer, sheet))
    return "".join(texts)


def main():
    data = sys.stdin.buffer.read()
    if sys.argv[1:] == ["--passes"]:
        sys.stdout.write(passes_text(data))
    elif sys.argv[1:]:
        sys.exit("usage: reference.py [--passes] < FRAME")
    else:
        sys.stdout.write(result(data))


if __name__ == "__main__":
    main()
