//! The calls into the proved library: the only unsafe code of this crate.
//!
//! The library checks every value that it is lent. What its proof asks of a caller, and nothing checks, holds here by
//! the types:
//! - a start and a length name places that are there, and a start is aligned and not null: both come from one slice;
//! - no two buffers of a call overlap: what is lent mutably is borrowed mutably, and what is only read is owned by
//!   different vectors (`Corners` owns its four) or has different types;
//! - no other thread writes to a buffer during a call: it is borrowed for as long.
//!
//! No call keeps a pointer. The declarations are those of `c/projective_grid.h`: a slice is its start and its length.
#![allow(unsafe_code)]
use crate::sheet::{LabelBox, Sheet, PLACES};
use crate::{Corner, FillParams, GrowParams, Kind, LocalParams, Pass, Refusal, RefusedFrame, Settings};
use crate::{MAX_CORNERS, MAX_PASSES};

#[cfg(test)]
mod tests;

/// The words that say a pass, the last of them who runs it.
pub(crate) const PASS_WORDS: usize = 7;
/// The words that say what a pass did, and which of them, the last, says who ran it.
pub(crate) const OUTCOME_WORDS: usize = 12;
pub(crate) const ROLE_WORD: usize = 11;
/// The lines of a result's text beside those of the passes: the first one, one for each role, and three for each cell, most
/// of them empty.
const LINES: usize = 1 + 3 + 3 * PLACES;

#[rustfmt::skip]
extern "C" {
    fn projective_grid_extend_from_labelled(
        xs: *const f32, xs_len: usize, ys: *const f32, ys_len: usize, pitches: *const f32, pitches_len: usize,
        shades: *const u8, shades_len: usize, sheet: *mut u16, sheet_len: usize, around: *mut i32, around_len: usize,
        queue: *mut u16, queue_len: usize, attached: *mut u16, attached_len: usize,
        cell_size: f32, axis_i_x: f32, axis_i_y: f32, axis_j_x: f32, axis_j_y: f32, edge_length_tol: f32,
        attach_search_rel: f32, attach_ambiguity_factor: f32, boundary_search_factor: f32,
        out: *mut u32, out_len: usize,
    ) -> u32;
    fn projective_grid_fill_grid_holes(
        xs: *const f32, xs_len: usize, ys: *const f32, ys_len: usize, pitches: *const f32, pitches_len: usize,
        shades: *const u8, shades_len: usize, sheet: *mut u16, sheet_len: usize, around: *mut i32, around_len: usize,
        attached: *mut u16, attached_len: usize,
        cell_size: f32, axis_i_x: f32, axis_i_y: f32, axis_j_x: f32, axis_j_y: f32, edge_length_tol: f32,
        attach_search_rel: f32, attach_ambiguity_factor: f32, max_iters: u32,
        out: *mut u32, out_len: usize,
    ) -> u32;
    fn projective_grid_extend_via_local_homography(
        xs: *const f32, xs_len: usize, ys: *const f32, ys_len: usize, pitches: *const f32, pitches_len: usize,
        shades: *const u8, shades_len: usize, sheet: *mut u16, sheet_len: usize, around: *mut i32, around_len: usize,
        attached: *mut u16, attached_len: usize,
        cell_size: f32, axis_i_x: f32, axis_i_y: f32, axis_j_x: f32, axis_j_y: f32, edge_length_tol: f32,
        search_rel: f32, ambiguity_factor: f32, max_iters: u32, max_residual_rel: f32, extend_depth: u32,
        out: *mut u32, out_len: usize,
    ) -> u32;
    fn projective_grid_read_frame(
        text: *const u8, text_len: usize,
        xs: *mut f32, xs_len: usize, ys: *mut f32, ys_len: usize, pitches: *mut f32, pitches_len: usize,
        shades: *mut u8, shades_len: usize, sheet: *mut u16, sheet_len: usize, around: *mut i32, around_len: usize,
        passes: *mut u32, passes_len: usize, settings: *mut f32, settings_len: usize,
        out: *mut u32, out_len: usize,
    ) -> u32;
    fn projective_grid_write_result_piece(
        corners: usize, passes: usize, words: *const u32, words_len: usize, sheet: *const u16, sheet_len: usize,
        from: usize, text: *mut u8, text_len: usize, out: *mut u32, out_len: usize,
    ) -> u32;
}

/// A shade as the library takes it.
fn byte(shade: Option<Kind>) -> u8 {
    match shade {
        None => 0,
        Some(Kind::Zero) => 1,
        Some(Kind::One) => 2,
    }
}

fn shade(byte: u8) -> Option<Kind> {
    [None, Some(Kind::Zero), Some(Kind::One)][usize::from(byte)]
}

/// The corners as the library takes them: four lists of one length.
#[derive(Clone, Debug)]
pub(crate) struct Corners {
    xs: Vec<f32>,
    ys: Vec<f32>,
    pitches: Vec<f32>,
    shades: Vec<u8>,
}

impl Corners {
    pub(crate) fn new(corners: &[Corner]) -> Corners {
        Corners {
            xs: corners.iter().map(|c| c.x).collect(),
            ys: corners.iter().map(|c| c.y).collect(),
            pitches: corners.iter().map(|c| c.pitch).collect(),
            shades: corners.iter().map(|c| byte(c.shade)).collect(),
        }
    }

    pub(crate) fn len(&self) -> usize {
        self.xs.len()
    }

    pub(crate) fn get(&self, k: usize) -> Option<Corner> {
        let (&x, &y, &pitch) = (self.xs.get(k)?, self.ys.get(k)?, self.pitches.get(k)?);
        Some(Corner { x, y, pitch, shade: shade(*self.shades.get(k)?) })
    }

    /// Gives a corner another shade, or none; whether there is such a corner.
    pub(crate) fn set_shade(&mut self, k: usize, shade: Option<Kind>) -> bool {
        let place = self.shades.get_mut(k);
        place.map(|place| *place = byte(shade)).is_some()
    }
}

fn done(answer: u32) -> Result<(), Refusal> {
    match answer {
        0 => Ok(()),
        n => Err(Refusal::from_number(n).expect("the library answers 0 to 10")),
    }
}

/// What a pass did: its twelve words, the last of them the plant's number, and the places of its new cells and, for grow, of its visited ones, in order.
#[derive(Debug, PartialEq, Eq)]
pub(crate) struct Done {
    pub(crate) words: [u32; OUTCOME_WORDS],
    pub(crate) attached: Vec<u16>,
    pub(crate) visited: Vec<u16>,
}

/// The buffers of a pass. No place of the sheet has the number 65,535, which the lists hold before.
fn lent(corners: &Corners, pass: &Pass) -> Done {
    let queue_per_corner = if let Pass::Grow(_) = pass { 4 } else { 0 };
    Done {
        words: [0; OUTCOME_WORDS],
        attached: vec![u16::MAX; corners.len()],
        visited: vec![u16::MAX; queue_per_corner * corners.len()],
    }
}

impl Done {
    /// Leaves what the pass wrote, which stands at the front of both lists: the second word counts the new cells, and
    /// behind the visited ones the list is as it was.
    fn written(mut self) -> Done {
        self.attached.truncate(self.words[1] as usize);
        let visited = self.visited.iter().take_while(|&&place| place != u16::MAX).count();
        self.visited.truncate(visited);
        self
    }
}

/// Runs a pass on a sheet. It is lent these places for the label box, and the box that it writes there is kept.
pub(crate) fn run(c: &Corners, s: &Settings, p: &Pass, sheet: &mut Sheet, around: &mut [i32]) -> Result<Done, Refusal> {
    let mut b = lent(c, p);
    done(pass(c, s, p, sheet.places_mut(), around, &mut b))?;
    sheet.keep_box(around);
    Ok(b.written())
}

/// The answer of a pass that is lent these places for sheet and label box, and these buffers.
fn pass(c: &Corners, s: &Settings, p: &Pass, places: &mut [u16], around: &mut [i32], b: &mut Done) -> u32 {
    match p {
        Pass::Grow(p) => grow(c, s, p, places, around, b),
        Pass::Fill(p) => fill(c, s, p, places, around, b),
        Pass::Local(p) => local(c, s, p, places, around, b),
    }
}

#[rustfmt::skip]
fn grow(c: &Corners, s: &Settings, p: &GrowParams, places: &mut [u16], around: &mut [i32], b: &mut Done) -> u32 {
    // SAFETY: each start stands beside the length of the same slice. Sheet, label box and `b` are borrowed mutably, each by
    // itself, queue, attached list and words are three fields of `b`, and the lists that are only read are four vectors of `c`.
    unsafe {
        projective_grid_extend_from_labelled(
            c.xs.as_ptr(), c.xs.len(), c.ys.as_ptr(), c.ys.len(), c.pitches.as_ptr(), c.pitches.len(),
            c.shades.as_ptr(), c.shades.len(), places.as_mut_ptr(), places.len(), around.as_mut_ptr(), around.len(),
            b.visited.as_mut_ptr(), b.visited.len(), b.attached.as_mut_ptr(), b.attached.len(),
            s.cell_size, s.axis_i[0], s.axis_i[1], s.axis_j[0], s.axis_j[1], s.edge_length_tol,
            p.attach_search_rel, p.attach_ambiguity_factor, p.boundary_search_factor,
            b.words.as_mut_ptr(), b.words.len(),
        )
    }
}

#[rustfmt::skip]
fn fill(c: &Corners, s: &Settings, p: &FillParams, places: &mut [u16], around: &mut [i32], b: &mut Done) -> u32 {
    // SAFETY: as for `grow`, without a queue.
    unsafe {
        projective_grid_fill_grid_holes(
            c.xs.as_ptr(), c.xs.len(), c.ys.as_ptr(), c.ys.len(), c.pitches.as_ptr(), c.pitches.len(),
            c.shades.as_ptr(), c.shades.len(), places.as_mut_ptr(), places.len(), around.as_mut_ptr(), around.len(),
            b.attached.as_mut_ptr(), b.attached.len(),
            s.cell_size, s.axis_i[0], s.axis_i[1], s.axis_j[0], s.axis_j[1], s.edge_length_tol,
            p.attach_search_rel, p.attach_ambiguity_factor, p.max_iters,
            b.words.as_mut_ptr(), b.words.len(),
        )
    }
}

#[rustfmt::skip]
fn local(c: &Corners, s: &Settings, p: &LocalParams, places: &mut [u16], around: &mut [i32], b: &mut Done) -> u32 {
    // SAFETY: as for `grow`, without a queue.
    unsafe {
        projective_grid_extend_via_local_homography(
            c.xs.as_ptr(), c.xs.len(), c.ys.as_ptr(), c.ys.len(), c.pitches.as_ptr(), c.pitches.len(),
            c.shades.as_ptr(), c.shades.len(), places.as_mut_ptr(), places.len(), around.as_mut_ptr(), around.len(),
            b.attached.as_mut_ptr(), b.attached.len(),
            s.cell_size, s.axis_i[0], s.axis_i[1], s.axis_j[0], s.axis_j[1], s.edge_length_tol,
            p.search_rel, p.ambiguity_factor, p.max_iters, p.max_residual_rel, p.extend_depth,
            b.words.as_mut_ptr(), b.words.len(),
        )
    }
}

/// A frame as it is read: its settings, corners and given labels, and seven words for each pass.
pub(crate) struct Read {
    pub(crate) settings: Settings,
    pub(crate) corners: Corners,
    pub(crate) sheet: Sheet,
    pub(crate) passes: Vec<u32>,
}

pub(crate) fn read_frame(text: &[u8]) -> Result<Read, RefusedFrame> {
    read_lent(text, &mut [0; PASS_WORDS * MAX_PASSES])
}

/// The frame that is read where these places are lent for its passes.
fn read_lent(text: &[u8], passes: &mut [u32]) -> Result<Read, RefusedFrame> {
    let room = || vec![0.0; MAX_CORNERS];
    let (mut xs, mut ys, mut pitches, mut shades) = (room(), room(), room(), vec![0; MAX_CORNERS]);
    let (mut sheet, mut around) = (Sheet::empty(), LabelBox::places(None));
    let places = sheet.places_mut();
    let (mut floats, mut out) = ([0.0; 6], [0; 2]);
    // SAFETY: each start stands beside the length of the same slice. All that is written are different locals and
    // `passes`, which is borrowed mutably, and `text` is borrowed from elsewhere.
    #[rustfmt::skip]
    let answer = unsafe {
        projective_grid_read_frame(
            text.as_ptr(), text.len(),
            xs.as_mut_ptr(), xs.len(), ys.as_mut_ptr(), ys.len(), pitches.as_mut_ptr(), pitches.len(),
            shades.as_mut_ptr(), shades.len(), places.as_mut_ptr(), places.len(), around.as_mut_ptr(), around.len(),
            passes.as_mut_ptr(), passes.len(), floats.as_mut_ptr(), floats.len(), out.as_mut_ptr(), out.len(),
        )
    };
    // A refused frame's answer is the number plus 16 times the line.
    done(answer % 16).map_err(|refusal| RefusedFrame { refusal, line: answer / 16 })?;
    sheet.keep_box(&around);
    let [corner_count, pass_count] = out;
    for list in [&mut xs, &mut ys, &mut pitches] {
        list.truncate(corner_count as usize);
    }
    shades.truncate(corner_count as usize);
    let [cell_size, i_x, i_y, j_x, j_y, edge_length_tol] = floats;
    Ok(Read {
        settings: Settings { cell_size, axis_i: [i_x, i_y], axis_j: [j_x, j_y], edge_length_tol },
        corners: Corners { xs, ys, pitches, shades },
        sheet,
        passes: passes[..PASS_WORDS * pass_count as usize].to_vec(),
    })
}

/// The text of a result, from twelve words for each pass.
pub(crate) fn write_result(corners: usize, words: &[u32], sheet: &Sheet) -> Result<Vec<u8>, Refusal> {
    let passes = words.len() / OUTCOME_WORDS;
    let (mut text, mut room, mut line) = (Vec::new(), vec![0; 1 << 16], 0);
    while line < passes + LINES {
        let (bytes, next) = write_piece(corners, passes, words, sheet.places(), line, &mut room)?;
        text.extend_from_slice(&room[..bytes]);
        line = next;
    }
    Ok(text)
}

/// Writes the lines from this one on that there is room for: how many bytes, and the line behind them.
#[rustfmt::skip]
fn write_piece(
    corners: usize, passes: usize, words: &[u32], places: &[u16], line: usize, room: &mut [u8],
) -> Result<(usize, usize), Refusal> {
    let mut out = [0; 2];
    // SAFETY: each start stands beside the length of the same slice. What is written are a local and `room`, which is
    // borrowed mutably, and what is only read are slices of two types that are borrowed from elsewhere.
    let answer = unsafe {
        projective_grid_write_result_piece(
            corners, passes, words.as_ptr(), words.len(), places.as_ptr(), places.len(),
            line, room.as_mut_ptr(), room.len(), out.as_mut_ptr(), out.len(),
        )
    };
    done(answer).map(|()| (out[0] as usize, out[1] as usize))
}
