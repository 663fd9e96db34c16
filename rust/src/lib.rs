//! A safe wrapper over the proved grid recovery: three passes that give the corners of a pictured grid their cells.
//!
//! A [`Frame`] is read from text and [recovered](Frame::recover). Or a [`Recovery`] is made of corners, settings and
//! given labels, and its passes [`grow`](Recovery::grow), [`fill`](Recovery::fill) and [`local`](Recovery::local) are run
//! in any order. The parameters have the names of the crate `projective-grid`.
//!
//! ```
//! use projective_grid_verified::{Cell, Corner, CornerNumber, GrowParams, Recovery, Settings};
//!
//! let settings = Settings { cell_size: 10.0, axis_i: [1.0, 0.0], axis_j: [0.0, 1.0], edge_length_tol: 0.25 };
//! let corners = [10.0, 20.0, 30.0].map(|x| Corner { x, y: 10.0, pitch: 0.0, shade: None });
//! let labels = [0, 1].map(|k| (CornerNumber::new(k).unwrap(), Cell::new(k as i8, 0).unwrap()));
//! let mut recovery = Recovery::new(settings, &corners, &labels)?;
//! let grown = recovery.grow(GrowParams::default())?;
//! assert_eq!(grown.attached, [Cell::new(2, 0).unwrap()]);
//! for (cell, corner) in recovery.sheet().labelled() {
//!     println!("the cell {cell} has corner {corner}");
//! }
//! # Ok::<(), projective_grid_verified::Refusal>(())
//! ```
//!
//! What the library does is proved; this wrapper is not. It lends every buffer with the places that are needed.
#![deny(missing_docs, unsafe_code, unsafe_op_in_unsafe_fn)]

mod calls;
mod frame;
mod recovery;
mod refusal;
mod sheet;

pub use frame::{Frame, Outcome, Role};
pub use recovery::{Corner, FillOutcome, FillParams, GrowOutcome, GrowParams, Kind};
pub use recovery::{LocalOutcome, LocalParams, Pass, PassOutcome, Recovery, RoleCounts, Settings};
pub use refusal::{Refusal, RefusedFrame};
pub use sheet::{Cell, CornerNumber, LabelBox, Sheet};

/// The most corners.
pub const MAX_CORNERS: usize = 1024;
/// The most passes of a frame, and of a text.
pub const MAX_PASSES: usize = 16;
/// The most bytes of a frame.
pub const MAX_FRAME_BYTES: usize = 65_536;
