//! Glue, ours, in place of `cluster/mod.rs`, which is not at hand.

#[path = "../source/crates/projective-grid/src/cluster/circular.rs"]
pub mod circular;

pub use circular::angular_dist_pi;
