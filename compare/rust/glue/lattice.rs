//! Glue, ours, in place of `lattice`, which is not at hand. `feature/mod.rs`
//! names `Coord` in a type that no pass reads.

#[derive(Clone, Copy, Debug, PartialEq, Eq)]
pub struct Coord {
    pub i: i32,
    pub j: i32,
}
