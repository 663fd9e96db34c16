//! A stand-in for the crate `kiddo`, which is not at hand: its KD-tree
//! interface over a plain scan of the points. This is our own code, not
//! kiddo's.
//!
//! A point is found if its squared distance is at most the squared radius.
//! 01, Candidates: "squared distance is at most the squared radius".
//!
//! The published tree promises no order of what it finds, and 01 excludes
//! squared distances near the squared radius. So that nothing leans on this
//! scan's own habits, the order and the treatment of the radius itself can be
//! set before the passes run: no answer that 01 compares may change.

use std::sync::atomic::{AtomicU64, AtomicUsize, Ordering};

/// 0 as added, 1 the last added first, 2 mixed up anew for each question.
static ORDER: AtomicUsize = AtomicUsize::new(0);
/// 0 at most the squared radius, 1 below it.
static EDGE: AtomicUsize = AtomicUsize::new(0);
static MIX: AtomicU64 = AtomicU64::new(1);

/// Sets order ("rising", "falling", "mixed") and edge ("at-most", "below").
pub fn set_habits(order: &str, edge: &str) {
    let order = ["rising", "falling", "mixed"].iter().position(|&o| o == order);
    let edge = ["at-most", "below"].iter().position(|&e| e == edge);
    ORDER.store(order.expect("order: rising, falling or mixed"), Ordering::Relaxed);
    EDGE.store(edge.expect("edge: at-most or below"), Ordering::Relaxed);
}

/// What a question finds.
#[derive(Clone, Copy, Debug)]
pub struct NearestNeighbour {
    pub distance: f32,
    pub item: u64,
}

pub trait DistanceMetric {
    fn dist(a: &[f32; 2], b: &[f32; 2]) -> f32;
}

/// `dx*dx + dy*dy`: both differences rounded, both squares, then the sum.
/// kiddo adds the squares to a zero one after the other, which is the same.
/// 01 names the squared distance and leaves its order to the Rust.
pub struct SquaredEuclidean;

impl DistanceMetric for SquaredEuclidean {
    fn dist(a: &[f32; 2], b: &[f32; 2]) -> f32 {
        let dx = a[0] - b[0];
        let dy = a[1] - b[1];
        dx * dx + dy * dy
    }
}

pub struct KdTree<A, const K: usize> {
    points: Vec<([A; K], u64)>,
}

impl KdTree<f32, 2> {
    #[allow(clippy::new_without_default)]
    pub fn new() -> Self {
        KdTree { points: Vec::new() }
    }

    pub fn add(&mut self, point: &[f32; 2], item: u64) {
        self.points.push((*point, item));
    }

    pub fn within_unsorted<D: DistanceMetric>(
        &self,
        from: &[f32; 2],
        most: f32,
    ) -> Vec<NearestNeighbour> {
        let below = EDGE.load(Ordering::Relaxed) == 1;
        let mut found = Vec::new();
        for (point, item) in &self.points {
            let distance = D::dist(from, point);
            if distance < most || (!below && distance == most) {
                found.push(NearestNeighbour { distance, item: *item });
            }
        }
        match ORDER.load(Ordering::Relaxed) {
            0 => {}
            1 => found.reverse(),
            _ => mix(&mut found),
        }
        found
    }
}

/// Exchanges each entry with one at or before it, drawn by a fixed rule.
fn mix(found: &mut [NearestNeighbour]) {
    for k in 1..found.len() {
        let draw = MIX.load(Ordering::Relaxed);
        let draw = draw.wrapping_mul(6364136223846793005).wrapping_add(1442695040888963407);
        MIX.store(draw, Ordering::Relaxed);
        found.swap(k, (draw >> 33) as usize % (k + 1));
    }
}
