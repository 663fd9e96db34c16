"""The equations of the four-point fit solved plainly, to measure the fit by.

    solved(cells, corners)         in binary64: nine entries, or None
    solved_exactly(cells, corners) in fractions, with no rounding: the same

Both take the equations of 01's section "Fit": for a cell (x, y) and its corner
(u, v), (x y 1 0 0 0 -ux -uy | u) and (0 0 0 x y 1 -vx -vy | v). In binary64 they
stand over normalised points, as in 01, in fractions over the points as they
are: the answer is the same matrix. None is answered where a pivot or the last
entry is zero. No code is shared with reference.py or with the Rust.
"""

import math
from fractions import Fraction


def normalised(points):
    cx = sum(x for x, _ in points) / 4
    cy = sum(y for _, y in points) / 4
    mean = sum(math.hypot(x - cx, y - cy) for x, y in points) / 4
    s = math.sqrt(2) / mean if mean > 0 else 1.0
    return [(s * (x - cx), s * (y - cy)) for x, y in points], s, cx, cy


def equations(cells, corners):
    rows = []
    for (x, y), (u, v) in zip(cells, corners):
        rows.append([x, y, 1, 0, 0, 0, -u * x, -u * y, u])
        rows.append([0, 0, 0, x, y, 1, -v * x, -v * y, v])
    return rows


def eliminated(rows):
    """Gauss with the largest pivot of each column; None where it is zero."""
    n = len(rows)
    for c in range(n):
        pivot = max(range(c, n), key=lambda r: abs(rows[r][c]))
        if rows[pivot][c] == 0:
            return None
        rows[c], rows[pivot] = rows[pivot], rows[c]
        for r in range(c + 1, n):
            by = rows[r][c] / rows[c][c]
            if by:
                rows[r] = [a - by * b for a, b in zip(rows[r], rows[c])]
    answers = [0] * n
    for c in reversed(range(n)):
        known = sum(rows[c][k] * answers[k] for k in range(c + 1, n))
        answers[c] = (rows[c][n] - known) / rows[c][c]
    return answers


def product(a, b):
    return [[sum(a[r][k] * b[k][c] for k in range(3)) for c in range(3)] for r in range(3)]


def solved(cells, corners):
    cells, s, sx, sy = normalised(cells)
    corners, t, tx, ty = normalised(corners)
    answers = eliminated([[float(a) for a in row] for row in equations(cells, corners)])
    if answers is None:
        return None
    h = [answers[0:3], answers[3:6], answers[6:8] + [1.0]]
    back = [[1 / t, 0.0, tx], [0.0, 1 / t, ty], [0.0, 0.0, 1.0]]
    to = [[s, 0.0, -s * sx], [0.0, s, -s * sy], [0.0, 0.0, 1.0]]
    m = product(product(back, h), to)
    if m[2][2] == 0.0:
        return None
    return [entry / m[2][2] for row in m for entry in row]


def solved_exactly(cells, corners):
    exact = lambda points: [(Fraction(x), Fraction(y)) for x, y in points]
    rows = equations(exact(cells), exact(corners))
    answers = eliminated([[Fraction(a) for a in row] for row in rows])
    return None if answers is None else answers + [Fraction(1)]


def mapped(h, x, y):
    """Where a point maps; None on the horizon."""
    w = h[6] * x + h[7] * y + h[8]
    if w == 0:
        return None
    return float((h[0] * x + h[1] * y + h[2]) / w), float((h[3] * x + h[4] * y + h[5]) / w)
