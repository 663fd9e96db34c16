//! Glue, ours, in place of `shared/mod.rs`, which is not at hand. The policy
//! is private to this module, so the three passes are called from here.
//!
//! 02, 1/14: "The oracle becomes the positions policy with `required_label_at`
//! and `label_of` filled in." `ShadedPolicy` is that: all else it leaves to the
//! source's `PositionsAttachPolicy`.

use nalgebra::Point2;

#[path = "../source/crates/projective-grid/src/shared/extension/mod.rs"]
pub mod extension;
#[path = "../source/crates/projective-grid/src/shared/fill.rs"]
pub mod fill;
#[path = "../source/crates/projective-grid/src/shared/grow/mod.rs"]
pub mod grow;
#[path = "../source/crates/projective-grid/src/shared/grow_extend.rs"]
pub mod grow_extend;
#[path = "../source/crates/projective-grid/src/shared/positions_policy.rs"]
mod positions_policy;

use crate::feature::{LocalAxis, OrientedFeature, PointFeature};
use extension::{extend_via_local_homography, ExtensionStats, LocalExtensionParams};
use fill::{fill_grid_holes, FillParams, FillStats};
use grow::{Admit, FillEdgeCtx, GrowParams, GrowResult, LabelledNeighbour, SquareAttachPolicy};
use grow_extend::{extend_from_labelled, BfsExtensionStats};
use positions_policy::{PositionsAttachPolicy, PositionsTolerances};

/// What a frame gives to every pass.
pub struct Given {
    pub positions: Vec<Point2<f32>>,
    pub pitch: Vec<f32>,
    /// Each corner's kind, where it has a shade.
    pub shades: Vec<Option<u8>>,
    pub cell: f32,
    pub band: f32,
}

/// The numbers of `(local search factor rounds residual depth)`.
pub struct LocalNumbers {
    pub search: f32,
    pub factor: f32,
    pub rounds: u32,
    pub residual: f32,
    pub depth: u32,
}

/// The positions policy with the two label questions filled in: where any
/// shade stands, a cell asks for the kind of its parity, and a corner answers
/// with its own kind, if it has one.
struct ShadedPolicy<'a> {
    positions: PositionsAttachPolicy<'a>,
    shades: &'a [Option<u8>],
    any: bool,
}

impl SquareAttachPolicy for ShadedPolicy<'_> {
    fn is_eligible(&self, idx: usize) -> bool {
        self.positions.is_eligible(idx)
    }

    fn required_label_at(&self, i: i32, j: i32) -> Option<u8> {
        self.any.then(|| (i + j).rem_euclid(2) as u8)
    }

    fn label_of(&self, idx: usize) -> Option<u8> {
        self.shades[idx]
    }

    fn accept_candidate(
        &self,
        idx: usize,
        at: (i32, i32),
        prediction: Point2<f32>,
        neighbours: &[LabelledNeighbour],
    ) -> Admit {
        self.positions.accept_candidate(idx, at, prediction, neighbours)
    }

    fn edge_ok(
        &self,
        candidate_idx: usize,
        neighbour_idx: usize,
        at_candidate: (i32, i32),
        at_neighbour: (i32, i32),
    ) -> bool {
        self.positions.edge_ok(candidate_idx, neighbour_idx, at_candidate, at_neighbour)
    }

    fn eligible_for_fill(&self, idx: usize) -> bool {
        self.positions.eligible_for_fill(idx)
    }

    fn fill_edge_ok(&self, ctx: FillEdgeCtx<'_>) -> bool {
        self.positions.fill_edge_ok(ctx)
    }
}

impl Given {
    /// Whether any shade stands.
    pub fn shaded(&self) -> bool {
        self.shades.iter().any(Option::is_some)
    }

    fn policy<'a>(&'a self, features: &'a [OrientedFeature<2>]) -> ShadedPolicy<'a> {
        let tol = self.tolerances();
        ShadedPolicy {
            positions: PositionsAttachPolicy::new(features, &self.positions, &self.pitch, tol),
            shades: &self.shades,
            any: self.shaded(),
        }
    }

    /// The axis cue changes no answer: every corner gets the same two axes.
    fn features(&self) -> Vec<OrientedFeature<2>> {
        let axes = [LocalAxis::new(0.0, None), LocalAxis::new(1.5, None)];
        let feature = |(k, &p): (usize, &Point2<f32>)| {
            OrientedFeature::new(PointFeature::new(k, p), axes)
        };
        self.positions.iter().enumerate().map(feature).collect()
    }

    fn tolerances(&self) -> PositionsTolerances {
        PositionsTolerances {
            soft_axis_tol_rad: 50.0_f32.to_radians(),
            edge_length_tol: self.band,
            cell_size: self.cell,
        }
    }

    pub fn grow(&self, sheet: &mut GrowResult, params: &GrowParams) -> BfsExtensionStats {
        let features = self.features();
        let policy = self.policy(&features);
        extend_from_labelled(&self.positions, sheet, self.cell, params, &policy)
    }

    pub fn fill(&self, sheet: &mut GrowResult, params: &FillParams) -> FillStats {
        let features = self.features();
        let policy = self.policy(&features);
        fill_grid_holes(&self.positions, sheet, self.cell, params, &policy)
    }

    pub fn local(&self, sheet: &mut GrowResult, numbers: &LocalNumbers) -> ExtensionStats {
        let features = self.features();
        let policy = self.policy(&features);
        let mut params = LocalExtensionParams::default();
        params.common.search_rel = numbers.search;
        params.common.ambiguity_factor = numbers.factor;
        params.common.max_iters = numbers.rounds;
        params.common.max_residual_rel = numbers.residual;
        params.k_nearest = 4;
        params.min_k = 4;
        params.extend_depth = numbers.depth;
        extend_via_local_homography(&self.positions, sheet, self.cell, &params, &policy)
    }
}

/// Grow's numbers; the parameters' type cannot be written out elsewhere.
pub fn grow_params(search: f32, factor: f32, boundary: f32) -> GrowParams {
    let mut params = GrowParams::new(search, factor);
    params.boundary_search_factor = boundary;
    params
}
