//! A stand-in for the crate `nalgebra`, which is not at hand: only the types
//! and operations that the source files name, in plain scalar code. This is
//! our own code, not nalgebra's.
//!
//! Each operation says the order in which it rounds. The orders are those of
//! nalgebra as we know it, and each is also fixed by a sentence of the
//! specification (01), quoted below it. Rust neither contracts a product and
//! a sum into one operation nor reorders them, so what is written is what is
//! rounded.

use std::fmt::Debug;
use std::ops::{Add, AddAssign, Div, DivAssign, Index, IndexMut, Mul, Neg, Sub};

/// The numbers: in nalgebra a wide tower of traits, here what is used of it.
pub trait RealField:
    Copy
    + Debug
    + Default
    + PartialEq
    + PartialOrd
    + Add<Output = Self>
    + Sub<Output = Self>
    + Mul<Output = Self>
    + Div<Output = Self>
    + Neg<Output = Self>
    + AddAssign
    + DivAssign
    + 'static
{
    fn zero() -> Self;
    fn one() -> Self;
    fn sqrt(self) -> Self;
    fn abs(self) -> Self;
    fn max_value() -> Option<Self>;
    fn default_epsilon() -> Self;
}

macro_rules! real_field {
    ($t:ident) => {
        impl RealField for $t {
            fn zero() -> Self {
                0.0
            }
            fn one() -> Self {
                1.0
            }
            /// IEEE 754's root. Demand 2: "The square root is IEEE 754's."
            fn sqrt(self) -> Self {
                <$t>::sqrt(self)
            }
            fn abs(self) -> Self {
                <$t>::abs(self)
            }
            fn max_value() -> Option<Self> {
                Some(<$t>::MAX)
            }
            fn default_epsilon() -> Self {
                <$t>::EPSILON
            }
        }
    };
}
real_field!(f32);
real_field!(f64);

/// A position.
#[derive(Clone, Copy, Debug, Default, PartialEq)]
pub struct Point2<T> {
    pub x: T,
    pub y: T,
}

impl<T> Point2<T> {
    pub fn new(x: T, y: T) -> Self {
        Point2 { x, y }
    }
}

/// Position minus position: each part on its own, one rounding each.
/// 01, Step: "the difference of both sides' positions".
impl<T: RealField> Sub for Point2<T> {
    type Output = Vector2<T>;
    fn sub(self, other: Self) -> Vector2<T> {
        Vector2::new(self.x - other.x, self.y - other.y)
    }
}

/// A step between positions.
#[derive(Clone, Copy, Debug, Default, PartialEq)]
pub struct Vector2<T> {
    pub x: T,
    pub y: T,
}

impl<T: RealField> Vector2<T> {
    pub fn new(x: T, y: T) -> Self {
        Vector2 { x, y }
    }

    /// The root of `x*x + y*y`: both products rounded, then the sum, then the
    /// root. nalgebra takes the dot product of the vector with itself, which
    /// for two parts is that sum, adds it to a zero, and takes the root; the
    /// zero changes nothing, as the sum is never -0.
    /// 01, Edge: "Length/expected"; Number: the root.
    pub fn norm(&self) -> T {
        (self.x * self.x + self.y * self.y).sqrt()
    }
}

/// Vector times number: each part times the number, one rounding each.
/// 01, Step: "half the difference", "axis times cell size".
impl<T: RealField> Mul<T> for Vector2<T> {
    type Output = Self;
    fn mul(self, factor: T) -> Self {
        Vector2::new(self.x * factor, self.y * factor)
    }
}

/// Vector plus vector: each part on its own, one rounding each.
/// 01, Step: "each operation rounded as written".
impl<T: RealField> Add for Vector2<T> {
    type Output = Self;
    fn add(self, other: Self) -> Self {
        Vector2::new(self.x + other.x, self.y + other.y)
    }
}

/// A matrix of fixed size, `at[row][column]`.
#[derive(Clone, Copy, Debug, PartialEq)]
pub struct SMatrix<T, const R: usize, const C: usize> {
    at: [[T; C]; R],
}

pub type SVector<T, const R: usize> = SMatrix<T, R, 1>;
pub type Vector3<T> = SMatrix<T, 3, 1>;
pub type Matrix3<T> = SMatrix<T, 3, 3>;

impl<T: RealField> SMatrix<T, 3, 1> {
    pub fn new(x: T, y: T, z: T) -> Self {
        SMatrix { at: [[x], [y], [z]] }
    }
}

impl<T: RealField> SMatrix<T, 3, 3> {
    /// The nine entries row by row.
    #[allow(clippy::too_many_arguments)]
    pub fn new(a: T, b: T, c: T, d: T, e: T, f: T, g: T, h: T, i: T) -> Self {
        SMatrix { at: [[a, b, c], [d, e, f], [g, h, i]] }
    }

    /// The inverse by minors, as nalgebra has it for three rows; a zero
    /// determinant has none. Only the measuring of the published fit reads it:
    /// 01, Fit, writes the inverse out instead.
    pub fn try_inverse(self) -> Option<Self> {
        let [[m11, m12, m13], [m21, m22, m23], [m31, m32, m33]] = self.at;
        let minor_1 = m22 * m33 - m32 * m23;
        let minor_2 = m21 * m33 - m31 * m23;
        let minor_3 = m21 * m32 - m31 * m22;
        let det = m11 * minor_1 - m12 * minor_2 + m13 * minor_3;
        if det == T::zero() {
            return None;
        }
        Some(SMatrix {
            at: [
                [
                    minor_1 / det,
                    (m13 * m32 - m33 * m12) / det,
                    (m12 * m23 - m22 * m13) / det,
                ],
                [
                    -minor_2 / det,
                    (m11 * m33 - m31 * m13) / det,
                    (m13 * m21 - m23 * m11) / det,
                ],
                [
                    minor_3 / det,
                    (m12 * m31 - m32 * m11) / det,
                    (m11 * m22 - m21 * m12) / det,
                ],
            ],
        })
    }

    /// Named by `HomographyQuality`, which 01 leaves out. Never called here.
    pub fn determinant(&self) -> T {
        unimplemented!("the stand-in has no determinant")
    }

    /// Named by `HomographyQuality`, which 01 leaves out. Never called here.
    pub fn svd(self, _u: bool, _v: bool) -> Svd<T> {
        unimplemented!("the stand-in has no singular values")
    }
}

pub struct Svd<T> {
    pub singular_values: [T; 3],
}

impl<T: RealField, const R: usize, const C: usize> SMatrix<T, R, C> {
    pub fn zeros() -> Self {
        SMatrix { at: [[T::zero(); C]; R] }
    }

    pub fn from_row_slice(entries: &[T]) -> Self {
        assert_eq!(entries.len(), R * C);
        let mut m = Self::zeros();
        for r in 0..R {
            m.at[r].copy_from_slice(&entries[r * C..(r + 1) * C]);
        }
        m
    }

    pub fn from_column_slice(entries: &[T]) -> Self {
        assert_eq!(entries.len(), R * C);
        let mut m = Self::zeros();
        for r in 0..R {
            for c in 0..C {
                m.at[r][c] = entries[c * R + r];
            }
        }
        m
    }

    pub fn transpose(&self) -> SMatrix<T, C, R> {
        let mut m = SMatrix::zeros();
        for r in 0..R {
            for c in 0..C {
                m.at[c][r] = self.at[r][c];
            }
        }
        m
    }

    pub fn column(&self, c: usize) -> SVector<T, R> {
        let mut v = SVector::zeros();
        for r in 0..R {
            v.at[r][0] = self.at[r][c];
        }
        v
    }
}

impl<T: RealField, const R: usize, const C: usize> Index<(usize, usize)> for SMatrix<T, R, C> {
    type Output = T;
    fn index(&self, (r, c): (usize, usize)) -> &T {
        &self.at[r][c]
    }
}

impl<T: RealField, const R: usize, const C: usize> IndexMut<(usize, usize)> for SMatrix<T, R, C> {
    fn index_mut(&mut self, (r, c): (usize, usize)) -> &mut T {
        &mut self.at[r][c]
    }
}

/// One number counts down the columns, as in nalgebra.
impl<T: RealField, const R: usize, const C: usize> Index<usize> for SMatrix<T, R, C> {
    type Output = T;
    fn index(&self, k: usize) -> &T {
        &self.at[k % R][k / R]
    }
}

impl<T: RealField, const R: usize, const C: usize> IndexMut<usize> for SMatrix<T, R, C> {
    fn index_mut(&mut self, k: usize) -> &mut T {
        &mut self.at[k % R][k / R]
    }
}

/// Matrix times matrix (or vector): each entry is the first product, then the
/// second added, then the third, each product and each sum rounded; no zero in
/// front, zero entries not skipped. nalgebra gets there column by column: it
/// sets the answer to the first column times the first factor and adds the
/// next column times its factor to it.
/// 01, Fit: "matrix rows summed left to right", "sums left to right, zeros
/// included", "A point maps by row sums left to right".
impl<T: RealField, const R: usize, const C: usize, const K: usize> Mul<SMatrix<T, C, K>>
    for SMatrix<T, R, C>
{
    type Output = SMatrix<T, R, K>;
    fn mul(self, other: SMatrix<T, C, K>) -> SMatrix<T, R, K> {
        let mut m = SMatrix::zeros();
        for r in 0..R {
            for k in 0..K {
                let mut sum = self.at[r][0] * other.at[0][k];
                for c in 1..C {
                    sum = self.at[r][c] * other.at[c][k] + sum;
                }
                m.at[r][k] = sum;
            }
        }
        m
    }
}

/// Matrix by number: each entry divided, one rounding each, and no reciprocal.
/// 01, Fit: "all nine are divided by it".
impl<T: RealField, const R: usize, const C: usize> Div<T> for SMatrix<T, R, C> {
    type Output = Self;
    fn div(mut self, divisor: T) -> Self {
        for row in self.at.iter_mut() {
            for entry in row.iter_mut() {
                *entry = *entry / divisor;
            }
        }
        self
    }
}

/// Read only by the fit on five or more points, which 01 leaves out.
impl<T: RealField, const R: usize, const C: usize> AddAssign for SMatrix<T, R, C> {
    fn add_assign(&mut self, other: Self) {
        for r in 0..R {
            for c in 0..C {
                self.at[r][c] += other.at[r][c];
            }
        }
    }
}

impl<T: RealField, const N: usize> SMatrix<T, N, N> {
    /// Elimination with row exchanges. Only the measuring of the published
    /// `homography_from_4pt` reads it; the passes call our own fit.
    ///
    /// The order is nalgebra's as we know it: in each column the largest
    /// magnitude at or below the diagonal, the first of equals; a zero one is
    /// passed over; multipliers are entries times the pivot's reciprocal; the
    /// rest of a row gains the negated pivot row times its multiplier.
    pub fn lu(self) -> Lu<T, N> {
        let mut m = self.at;
        let mut exchanges = Vec::new();
        for c in 0..N {
            let mut pivot = c;
            for r in c + 1..N {
                if m[r][c].abs() > m[pivot][c].abs() {
                    pivot = r;
                }
            }
            if m[pivot][c] == T::zero() {
                continue;
            }
            if pivot != c {
                exchanges.push((c, pivot));
                m.swap(c, pivot);
            }
            let reciprocal = T::one() / m[c][c];
            for r in c + 1..N {
                m[r][c] = m[r][c] * reciprocal;
                for k in c + 1..N {
                    m[r][k] = -m[c][k] * m[r][c] + m[r][k];
                }
            }
        }
        Lu { m, exchanges }
    }

    /// Read only by the fit on five or more points, which 01 leaves out.
    pub fn symmetric_eigen(self) -> SymmetricEigen<T, N> {
        unimplemented!("the stand-in has no eigenvalues")
    }
}

pub struct Lu<T, const N: usize> {
    m: [[T; N]; N],
    exchanges: Vec<(usize, usize)>,
}

impl<T: RealField, const N: usize> Lu<T, N> {
    /// Forward with ones on the diagonal, then back, each answer at once taken
    /// out of the rows that remain. A zero on the diagonal has no answer.
    pub fn solve(&self, right: &SVector<T, N>) -> Option<SVector<T, N>> {
        let mut b = *right;
        for &(one, other) in &self.exchanges {
            b.at.swap(one, other);
        }
        for c in 0..N {
            let coefficient = b[c] / T::one();
            for r in c + 1..N {
                b[r] = -coefficient * self.m[r][c] + b[r];
            }
        }
        for c in (0..N).rev() {
            if self.m[c][c] == T::zero() {
                return None;
            }
            let coefficient = b[c] / self.m[c][c];
            b[c] = coefficient;
            for r in 0..c {
                b[r] = -coefficient * self.m[r][c] + b[r];
            }
        }
        Some(b)
    }
}

pub struct SymmetricEigen<T, const N: usize> {
    pub eigenvalues: SVector<T, N>,
    pub eigenvectors: SMatrix<T, N, N>,
}
