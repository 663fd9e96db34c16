//! Fits one homography a line and prints three answers beside each other.
//!
//!     measure < QUADS
//!
//! A line of QUADS is sixteen floats in hexadecimal digits: the four cells' x,
//! the four cells' y, the four corners' x, the four corners' y. For each it
//! prints `ours`, `copy` and `source`, each with nine floats or `none`: the
//! fit that local calls, the copy of it in fit.rs (the same one where no
//! proved fit is linked in), and the source's `homography_from_4pt` over the
//! stand-in elimination.

use std::io::Read;

use nalgebra::Point2;
use projective_grid::geometry::homography::homography_from_4pt;
use projective_grid::{fit, geometry};

fn main() {
    let mut text = String::new();
    std::io::stdin().read_to_string(&mut text).expect("standard input");
    let mut out = String::new();
    for line in text.lines() {
        let v: Vec<f32> = line
            .split(' ')
            .map(|w| f32::from_bits(u32::from_str_radix(w, 16).expect("hexadecimal digits")))
            .collect();
        assert_eq!(v.len(), 16, "sixteen floats");
        let four = |k: usize| -> [f32; 4] { [v[k], v[k + 1], v[k + 2], v[k + 3]] };
        let (cx, cy, px, py) = (four(0), four(4), four(8), four(12));
        let points = |x: [f32; 4], y: [f32; 4]| {
            [0, 1, 2, 3].map(|k: usize| Point2::new(x[k], y[k]))
        };
        let source = homography_from_4pt(&points(cx, cy), &points(px, py)).map(|h| {
            let [[a, b, c], [d, e, f], [g, i, j]] = h.to_array();
            [a, b, c, d, e, f, g, i, j]
        });
        for (name, answer) in [
            ("ours", geometry::our_fit(&cx, &cy, &px, &py)),
            ("copy", fit::fit(&cx, &cy, &px, &py)),
            ("source", source),
        ] {
            out.push_str(name);
            match answer {
                None => out.push_str(" none"),
                Some(h) => h.iter().for_each(|x| out.push_str(&format!(" {:08x}", x.to_bits()))),
            }
            out.push('\n');
        }
    }
    print!("{out}");
}
