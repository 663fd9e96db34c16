//! The four-point fit, written from the section "Fit" of the specification
//! (01), in its order: a copy of what the proved fit has to be. It is compared
//! with the proved one bit for bit, and stands in for it where that is not
//! linked in (see `glue/geometry.rs`).
//!
//! Every sum, product, quotient and root is a step; a step that is not finite
//! means no fit. What is never read again is not worked out.

/// A step's value, or no fit if it is not finite.
fn step(value: f32) -> Option<f32> {
    if value.is_finite() {
        Some(value)
    } else {
        None
    }
}

/// What normalising gives: the four points, the scale s, the centre.
struct Normalised {
    x: [f32; 4],
    y: [f32; 4],
    s: f32,
    cx: f32,
    cy: f32,
    /// The last column of the matrix: (-s) * cx and (-s) * cy.
    tx: f32,
    ty: f32,
}

/// In the order of `normalize_points4`: the sum of the four from zero, divided
/// by 4; the sum of the four distances from zero, divided by 4; the root of 2
/// divided by that mean, or 1 where the mean is at most 10^-12; then each
/// point by the matrix rows (s 0 -s*cx), (0 s -s*cy), summed left to right.
fn normalise(x: &[f32; 4], y: &[f32; 4]) -> Option<Normalised> {
    let mut cx = 0.0;
    let mut cy = 0.0;
    for k in 0..4 {
        cx = step(cx + x[k])?;
        cy = step(cy + y[k])?;
    }
    cx = step(cx / 4.0)?;
    cy = step(cy / 4.0)?;

    let mut mean = 0.0;
    for k in 0..4 {
        let dx = step(x[k] - cx)?;
        let dy = step(y[k] - cy)?;
        let square = step(step(dx * dx)? + step(dy * dy)?)?;
        mean = step(mean + step(square.sqrt())?)?;
    }
    mean = step(mean / 4.0)?;

    let s = if mean > 1e-12 { step(2.0_f32.sqrt() / mean)? } else { 1.0 };
    let tx = step(-s * cx)?;
    let ty = step(-s * cy)?;
    let mut n = Normalised { x: [0.0; 4], y: [0.0; 4], s, cx, cy, tx, ty };
    for k in 0..4 {
        n.x[k] = row(&[s, 0.0, tx], &[x[k], y[k], 1.0])?;
        n.y[k] = row(&[0.0, s, ty], &[x[k], y[k], 1.0])?;
    }
    Some(n)
}

/// A row times a column, summed left to right, zeros included.
fn row(a: &[f32; 3], b: &[f32; 3]) -> Option<f32> {
    let first = step(step(a[0] * b[0])? + step(a[1] * b[1])?)?;
    step(first + step(a[2] * b[2])?)
}

/// The eight equations in the order of `homography_from_4pt`, the right side
/// as the ninth entry.
fn equations(cells: &Normalised, corners: &Normalised) -> Option<[[f32; 9]; 8]> {
    let mut a = [[0.0; 9]; 8];
    for k in 0..4 {
        let (x, y) = (cells.x[k], cells.y[k]);
        let (u, v) = (corners.x[k], corners.y[k]);
        a[2 * k] = [x, y, 1.0, 0.0, 0.0, 0.0, step(-u * x)?, step(-u * y)?, u];
        a[2 * k + 1] = [0.0, 0.0, 0.0, x, y, 1.0, step(-v * x)?, step(-v * y)?, v];
    }
    Some(a)
}

/// Each column takes the largest magnitude at or below the diagonal, the first
/// of equals; a zero means no fit. Lower rows gain multiplier times the
/// negated pivot row, right of the pivot and in the right side.
fn eliminate(a: &mut [[f32; 9]; 8]) -> Option<()> {
    for c in 0..8 {
        let mut pivot = c;
        for r in c + 1..8 {
            if a[r][c].abs() > a[pivot][c].abs() {
                pivot = r;
            }
        }
        if a[pivot][c] == 0.0 {
            return None;
        }
        a.swap(c, pivot);
        if c == 7 {
            break;
        }
        let reciprocal = step(1.0 / a[c][c])?;
        for r in c + 1..8 {
            let multiplier = step(a[r][c] * reciprocal)?;
            for k in c + 1..9 {
                let gain = step(multiplier * -a[c][k])?;
                a[r][k] = step(a[r][k] + gain)?;
            }
        }
    }
    Some(())
}

/// From the last row to the first: the right side divided by the diagonal;
/// the answer, negated and times its column, added to the right sides above.
fn substitute_back(a: &mut [[f32; 9]; 8]) -> Option<[f32; 8]> {
    let mut answers = [0.0; 8];
    for c in (0..8).rev() {
        let answer = step(a[c][8] / a[c][c])?;
        answers[c] = answer;
        for r in 0..c {
            let gain = step(-answer * a[r][c])?;
            a[r][8] = step(a[r][8] + gain)?;
        }
    }
    Some(answers)
}

fn product(a: &[[f32; 3]; 3], b: &[[f32; 3]; 3]) -> Option<[[f32; 3]; 3]> {
    let mut m = [[0.0; 3]; 3];
    for r in 0..3 {
        for c in 0..3 {
            m[r][c] = row(&a[r], &[b[0][c], b[1][c], b[2][c]])?;
        }
    }
    Some(m)
}

/// The fit: the nine entries row by row, the last one 1, or none.
pub fn fit(
    cells_x: &[f32; 4],
    cells_y: &[f32; 4],
    corners_x: &[f32; 4],
    corners_y: &[f32; 4],
) -> Option<[f32; 9]> {
    let cells = normalise(cells_x, cells_y)?;
    let corners = normalise(corners_x, corners_y)?;
    let mut a = equations(&cells, &corners)?;
    eliminate(&mut a)?;
    let x = substitute_back(&mut a)?;

    // Undoing: (T^-1 * H) * S.
    let h = [[x[0], x[1], x[2]], [x[3], x[4], x[5]], [x[6], x[7], 1.0]];
    let back = step(1.0 / corners.s)?;
    let t = [[back, 0.0, corners.cx], [0.0, back, corners.cy], [0.0, 0.0, 1.0]];
    let s = [[cells.s, 0.0, cells.tx], [0.0, cells.s, cells.ty], [0.0, 0.0, 1.0]];
    let m = product(&product(&t, &h)?, &s)?;

    let last = m[2][2];
    if last.abs() < 1e-12 {
        return None;
    }
    let mut out = [0.0; 9];
    for r in 0..3 {
        for c in 0..3 {
            out[3 * r + c] = step(m[r][c] / last)?;
        }
    }
    Some(out)
}
