//! Glue, ours: builds the source files, unchanged, into one crate. The
//! published crate's own `lib.rs` and the module files below are not at hand.
//! Nothing here computes; each module is a source file or names one.

#[path = "../source/crates/projective-grid/src/float.rs"]
pub mod float;

#[path = "../source/crates/projective-grid/src/feature/mod.rs"]
pub mod feature;

pub mod cluster;
#[path = "../fit.rs"]
pub mod fit;
pub mod geometry;
pub mod lattice;
pub mod shared;
