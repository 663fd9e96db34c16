//! Glue, ours, in place of `geometry/mod.rs`, which is not at hand.
//!
//! 01: "For local, the Rust's `estimate_homography` calls our fit." `local.rs`
//! takes `estimate_homography` from this module, so it is here that the call
//! goes to our fit. The source file `homography.rs` stands beside it
//! unchanged: its `Homography` and `apply` are the ones that local uses, and
//! its own `homography_from_4pt` is there to be measured.

use nalgebra::{Matrix3, Point2};
use std::sync::atomic::{AtomicBool, Ordering};

#[path = "../source/crates/projective-grid/src/geometry/homography.rs"]
pub mod homography;

pub use homography::Homography;

#[cfg(proved_fit)]
extern "C" {
    /// The proved fit, from the linked library (crates/fit_export): four cells,
    /// four pictured corners, nine places for the answer; 1 if there is a fit,
    /// else 0. A slice is passed as where it starts and its length.
    fn homography_from_4pt_fit(
        cells_x: *const f32,
        cells_x_len: usize,
        cells_y: *const f32,
        cells_y_len: usize,
        corners_x: *const f32,
        corners_x_len: usize,
        corners_y: *const f32,
        corners_y_len: usize,
        out: *mut f32,
        out_len: usize,
    ) -> u32;
}

/// Our fit: the proved one where it is linked in, else its copy in `fit.rs`.
pub fn our_fit(
    cells_x: &[f32; 4],
    cells_y: &[f32; 4],
    corners_x: &[f32; 4],
    corners_y: &[f32; 4],
) -> Option<[f32; 9]> {
    #[cfg(proved_fit)]
    {
        let mut out = [0.0_f32; 9];
        let found = unsafe {
            homography_from_4pt_fit(
                cells_x.as_ptr(),
                cells_x.len(),
                cells_y.as_ptr(),
                cells_y.len(),
                corners_x.as_ptr(),
                corners_x.len(),
                corners_y.as_ptr(),
                corners_y.len(),
                out.as_mut_ptr(),
                out.len(),
            )
        };
        match found {
            0 => None,
            1 => Some(out),
            other => panic!("homography_from_4pt_fit answered {other}"),
        }
    }
    #[cfg(not(proved_fit))]
    crate::fit::fit(cells_x, cells_y, corners_x, corners_y)
}

static FINITE_RESIDUALS: AtomicBool = AtomicBool::new(false);

/// 01 adds that a non-finite support residual means no fit. That is a rule of
/// our local pass, not of the fit, and the Rust's local has no such rule: 01
/// excludes those passes. With this set, the fit that the Rust calls answers
/// none there too, so that such passes can be compared beyond what 01 asks.
pub fn want_finite_residuals(wanted: bool) {
    FINITE_RESIDUALS.store(wanted, Ordering::Relaxed);
}

/// A support's residual, as `local.rs` takes it.
fn residual(h: &Homography<f32>, cell: Point2<f32>, corner: Point2<f32>) -> f32 {
    let at = h.apply(cell);
    let (dx, dy) = (at.x - corner.x, at.y - corner.y);
    (dx * dx + dy * dy).sqrt()
}

/// What `local.rs` calls. It always brings four supports (`k_nearest` and
/// `min_k` are 4).
pub fn estimate_homography(
    cells: &[Point2<f32>],
    corners: &[Point2<f32>],
) -> Option<Homography<f32>> {
    let cells: &[Point2<f32>; 4] = cells.try_into().expect("four supports");
    let corners: &[Point2<f32>; 4] = corners.try_into().expect("four supports");
    let h = our_fit(
        &cells.map(|p| p.x),
        &cells.map(|p| p.y),
        &corners.map(|p| p.x),
        &corners.map(|p| p.y),
    )?;
    let h = Homography::new(Matrix3::from_row_slice(&h));
    let finite = |k: usize| residual(&h, cells[k], corners[k]).is_finite();
    if FINITE_RESIDUALS.load(Ordering::Relaxed) && !(0..4).all(finite) {
        return None;
    }
    Some(h)
}
