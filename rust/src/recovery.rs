//! A recovery: corners, settings and the sheet that the passes fill.
use crate::calls::{self, Corners, Done};
use crate::sheet::{Cell, CornerNumber, LabelBox, Sheet};
use crate::{Refusal, Role};

/// The kind of a corner, on panels that print two.
#[derive(Clone, Copy, Debug, PartialEq, Eq, Hash)]
pub enum Kind {
    /// Kind 0: that of cells whose i + j is even.
    Zero,
    /// Kind 1: that of cells whose i + j is odd.
    One,
}

impl Kind {
    /// The kind that a cell takes.
    pub fn at(cell: Cell) -> Kind {
        match (i32::from(cell.i()) + i32::from(cell.j())).rem_euclid(2) {
            0 => Kind::Zero,
            _ => Kind::One,
        }
    }
}

/// A pictured corner: its position, -16,384 to 16,384, its pitch, 0 to 16,384 (0 if unknown), and its kind.
///
/// Where any corner of a recovery has a kind, a cell takes only corners of its own, and none without.
#[derive(Clone, Copy, Debug, PartialEq)]
pub struct Corner {
    /// Its position from left to right.
    pub x: f32,
    /// Its position from top to bottom.
    pub y: f32,
    /// The distance of its neighbours about it.
    pub pitch: f32,
    /// Its kind, if it has one.
    pub shade: Option<Kind>,
}

/// What all passes of a recovery share.
#[derive(Clone, Copy, Debug, PartialEq)]
pub struct Settings {
    /// The size of a cell, 2^-10 to 16,384.
    pub cell_size: f32,
    /// The axis of i, its parts -4 to 4.
    pub axis_i: [f32; 2],
    /// The axis of j, its parts -4 to 4.
    pub axis_j: [f32; 2],
    /// The band of an edge's length about the expected one, 0 to 4.
    pub edge_length_tol: f32,
}

/// The numbers of a grow pass. The default is that of a bare `(grow)`, whose boundary is 1.25 since the change request
/// 2/14; before, it was 2.0, which is the default of the crate `projective-grid`.
#[derive(Clone, Copy, Debug, PartialEq)]
pub struct GrowParams {
    /// Search, 0 to 16, in cell sizes.
    pub attach_search_rel: f32,
    /// Factor, 0 to 1,000.
    pub attach_ambiguity_factor: f32,
    /// Boundary, 0 to 16.
    pub boundary_search_factor: f32,
}

impl Default for GrowParams {
    fn default() -> GrowParams {
        GrowParams { attach_search_rel: 0.35, attach_ambiguity_factor: 1.5, boundary_search_factor: 1.25 }
    }
}

/// The numbers of a fill pass. The default is that of a bare `(fill)`.
#[derive(Clone, Copy, Debug, PartialEq)]
pub struct FillParams {
    /// Search, 0 to 16, in cell sizes.
    pub attach_search_rel: f32,
    /// Factor, 0 to 1,000.
    pub attach_ambiguity_factor: f32,
    /// Rounds at most, 0 to 64; 0 acts as 1.
    pub max_iters: u32,
}

impl Default for FillParams {
    fn default() -> FillParams {
        FillParams { attach_search_rel: 0.35, attach_ambiguity_factor: 1.5, max_iters: 1 }
    }
}

/// The numbers of a local pass.
#[derive(Clone, Copy, Debug, PartialEq)]
pub struct LocalParams {
    /// Search, 0 to 16, in cell sizes.
    pub search_rel: f32,
    /// Factor, 0 to 1,000.
    pub ambiguity_factor: f32,
    /// Rounds at most, 0 to 64.
    pub max_iters: u32,
    /// The residual gate, 0 to 16, in cell sizes.
    pub max_residual_rel: f32,
    /// Depth, 0 to 4; 0 acts as 1.
    pub extend_depth: u32,
}

/// A pass and its numbers.
#[derive(Clone, Copy, Debug, PartialEq)]
pub enum Pass {
    /// Grow.
    Grow(GrowParams),
    /// Fill.
    Fill(FillParams),
    /// Local.
    Local(LocalParams),
}

/// What grow did.
#[derive(Clone, Debug, PartialEq, Eq)]
pub struct GrowOutcome {
    /// The new cells, in the order in which they were attached.
    pub attached: Vec<Cell>,
    /// The visited cells, in order.
    pub visited: Vec<Cell>,
    /// How many cells had no candidate.
    pub no_candidate: u32,
    /// How many were ambiguous.
    pub ambiguous: u32,
    /// How many were refused by their edges.
    pub edge: u32,
    /// Whether a labelled cell lies in the outermost ring.
    pub rim: bool,
}

/// What fill did.
#[derive(Clone, Debug, PartialEq, Eq)]
pub struct FillOutcome {
    /// The new cells, in the order in which they were attached.
    pub added: Vec<Cell>,
    /// The rounds.
    pub rounds: u32,
    /// Whether a labelled cell lies in the outermost ring.
    pub rim: bool,
}

/// What local did.
#[derive(Clone, Debug, PartialEq)]
pub struct LocalOutcome {
    /// The new cells, in the order in which they were attached.
    pub attached: Vec<Cell>,
    /// How many cells had no candidate.
    pub no_candidate: u32,
    /// How many were ambiguous.
    pub ambiguous: u32,
    /// How many were refused by their edges.
    pub edge: u32,
    /// The rounds.
    pub rounds: u32,
    /// The largest residual that was recorded.
    pub largest_residual: Option<f32>,
    /// Whether a labelled cell lies in the outermost rings, as many as the depth.
    pub rim: bool,
    /// How many unlabelled corners within the radius were passed over for their kind, or for having none, counted each
    /// time that candidates were gathered. `None` where no corner has a kind.
    pub unmatched: Option<u32>,
}

/// What a pass did.
#[derive(Clone, Debug, PartialEq)]
pub enum PassOutcome {
    /// Of grow.
    Grow(GrowOutcome),
    /// Of fill.
    Fill(FillOutcome),
    /// Of local.
    Local(LocalOutcome),
}

/// What the passes of a role did together: each number the sum over them.
#[derive(Clone, Copy, Debug, Default, PartialEq, Eq)]
pub struct RoleCounts {
    /// How many cells grow, fill and local attached.
    pub attached: u64,
    /// How many cells had no candidate, at grow and local.
    pub no_candidate: u64,
    /// How many were ambiguous, at grow and local.
    pub ambiguous: u64,
    /// How many were refused by their edges, at grow and local.
    pub edge: u64,
}

fn cells(places: &[u16]) -> Vec<Cell> {
    places.iter().map(|&p| Cell::of_place(usize::from(p))).collect()
}

/// Corners, settings and a sheet that starts with the given labels.
///
/// Only its passes write to the sheet, and settings and corners, but for their kinds, stay as they are: what is proved of
/// lists of passes asks for that. Each pass may have kinds of its own.
#[derive(Clone, Debug)]
pub struct Recovery {
    settings: Settings,
    corners: Corners,
    sheet: Sheet,
    /// Twelve words for each pass that was run, the last of them the number of the role that ran it.
    words: Vec<u32>,
}

impl Recovery {
    /// A recovery over these corners, with these labels given.
    ///
    /// Refused if there are more than 1,024 corners, if a number is not finite or out of its range, if a label's corner
    /// is not given, or if a cell or a corner is labelled twice.
    pub fn new(settings: Settings, corners: &[Corner], labels: &[(CornerNumber, Cell)]) -> Result<Recovery, Refusal> {
        let mut sheet = Sheet::empty();
        let doubled = labels.iter().filter(|&&(corner, cell)| !sheet.give(cell, corner)).count();
        let mut recovery = Recovery::of_parts(settings, Corners::new(corners), sheet);
        // A local pass of no rounds does nothing but check what it is lent.
        recovery.local(LocalParams {
            search_rel: 0.0,
            ambiguity_factor: 0.0,
            max_iters: 0,
            max_residual_rel: 0.0,
            extend_depth: 0,
        })?;
        recovery.words.clear();
        match doubled {
            0 => Ok(recovery),
            _ => Err(Refusal::Duplicate),
        }
    }

    /// A recovery of parts that the library has checked.
    pub(crate) fn of_parts(settings: Settings, corners: Corners, sheet: Sheet) -> Recovery {
        Recovery { settings, corners, sheet, words: Vec::new() }
    }

    /// Grows from the labelled cells.
    pub fn grow(&mut self, params: GrowParams) -> Result<GrowOutcome, Refusal> {
        self.grow_lent(params, &mut self.kept_box())
    }

    /// Fills the holes of the labelled box and the strips along it.
    pub fn fill(&mut self, params: FillParams) -> Result<FillOutcome, Refusal> {
        self.fill_lent(params, &mut self.kept_box())
    }

    /// Extends by maps that are fitted to the four nearest labelled cells.
    pub fn local(&mut self, params: LocalParams) -> Result<LocalOutcome, Refusal> {
        self.local_lent(params, &mut self.kept_box())
    }

    /// Runs a pass of any kind, which is counted for the plant, as are those of [`grow`](Recovery::grow),
    /// [`fill`](Recovery::fill), [`local`](Recovery::local) and [`run_lent`](Recovery::run_lent).
    pub fn run(&mut self, pass: Pass) -> Result<PassOutcome, Refusal> {
        self.run_lent(pass, &mut self.kept_box())
    }

    /// Runs a pass that is counted for this role. Nothing else depends on the role, and none is refused: only a frame asks
    /// whether its roles may run its passes.
    pub fn run_as(&mut self, role: Role, pass: Pass) -> Result<PassOutcome, Refusal> {
        let outcome = self.run(pass)?;
        // What the library wrote of the pass ends with the plant's number.
        *self.words.last_mut().expect("a pass was run") = role.number();
        Ok(outcome)
    }

    /// Runs a pass that is lent these places for the label box, in place of the box that is kept with the sheet: a mark, 1
    /// where there are no labels and else 0, then low i, high i, low j and high j, as [`LabelBox::places`] has them. For
    /// those who keep the box themselves; all other passes hand the right one.
    ///
    /// Refused by [`Refusal::BufferTooShort`] if there are fewer than five places, and by [`Refusal::OutOfRange`] if the box
    /// is not that of the sheet or the mark is neither 0 nor 1; the places are then as they were. With the mark 1 the four
    /// numbers count for nothing. A pass that is done writes the box of the sheet that it leaves, which is also kept, and
    /// leaves places behind the fifth as they were.
    pub fn run_lent(&mut self, pass: Pass, around: &mut [i32]) -> Result<PassOutcome, Refusal> {
        Ok(match pass {
            Pass::Grow(params) => PassOutcome::Grow(self.grow_lent(params, around)?),
            Pass::Fill(params) => PassOutcome::Fill(self.fill_lent(params, around)?),
            Pass::Local(params) => PassOutcome::Local(self.local_lent(params, around)?),
        })
    }

    /// The box that is kept with the sheet, as it is lent.
    fn kept_box(&self) -> [i32; 5] {
        LabelBox::places(self.sheet.label_box())
    }

    fn grow_lent(&mut self, params: GrowParams, around: &mut [i32]) -> Result<GrowOutcome, Refusal> {
        let done = self.lent(Pass::Grow(params), around)?;
        let [_, _, no_candidate, ambiguous, edge, _, _, _, rim, ..] = done.words;
        Ok(GrowOutcome {
            attached: cells(&done.attached),
            visited: cells(&done.visited),
            no_candidate,
            ambiguous,
            edge,
            rim: rim == 1,
        })
    }

    fn fill_lent(&mut self, params: FillParams, around: &mut [i32]) -> Result<FillOutcome, Refusal> {
        let done = self.lent(Pass::Fill(params), around)?;
        let [_, _, _, _, _, rounds, _, _, rim, ..] = done.words;
        Ok(FillOutcome { added: cells(&done.attached), rounds, rim: rim == 1 })
    }

    fn local_lent(&mut self, params: LocalParams, around: &mut [i32]) -> Result<LocalOutcome, Refusal> {
        let done = self.lent(Pass::Local(params), around)?;
        let [_, _, no_candidate, ambiguous, edge, rounds, has_residual, residual, rim, shaded, unmatched, _] =
            done.words;
        Ok(LocalOutcome {
            attached: cells(&done.attached),
            no_candidate,
            ambiguous,
            edge,
            rounds,
            largest_residual: (has_residual == 1).then(|| f32::from_bits(residual)),
            rim: rim == 1,
            unmatched: (shaded == 1).then_some(unmatched),
        })
    }

    /// Runs a pass, and keeps its words for the text.
    fn lent(&mut self, pass: Pass, around: &mut [i32]) -> Result<Done, Refusal> {
        let done = calls::run(&self.corners, &self.settings, &pass, &mut self.sheet, around)?;
        self.words.extend_from_slice(&done.words);
        Ok(done)
    }

    /// The sheet as the last pass left it.
    pub fn sheet(&self) -> &Sheet {
        &self.sheet
    }

    /// The settings.
    pub fn settings(&self) -> &Settings {
        &self.settings
    }

    /// The corner of this number, if there is one.
    pub fn corner(&self, number: CornerNumber) -> Option<Corner> {
        self.corners.get(number.index())
    }

    /// Gives a corner another kind, or none, for the passes from now on; whether there is such a corner.
    pub fn set_shade(&mut self, number: CornerNumber, shade: Option<Kind>) -> bool {
        self.corners.set_shade(number.index(), shade)
    }

    /// The corners and their numbers, from 0 on.
    pub fn corners(&self) -> impl Iterator<Item = (CornerNumber, Corner)> + '_ {
        (0..self.corners.len()).filter_map(|k| Some((CornerNumber::new(k)?, self.corners.get(k)?)))
    }

    /// How many passes were run; a refused one does not count.
    pub fn passes_run(&self) -> usize {
        self.words.len() / calls::OUTCOME_WORDS
    }

    /// Who ran each of them, in order.
    pub fn roles(&self) -> impl Iterator<Item = Role> + '_ {
        self.outcomes().map(|words| Role::numbered(words[calls::ROLE_WORD]))
    }

    /// What the passes of a role did together, as its role line says it.
    pub fn counts(&self, role: Role) -> RoleCounts {
        let mut counts = RoleCounts::default();
        for words in self.outcomes().filter(|words| words[calls::ROLE_WORD] == role.number()) {
            // Of fill, the words behind the first count are 0.
            let [attached, no_candidate, ambiguous, edge] = [1, 2, 3, 4].map(|k| u64::from(words[k]));
            counts.attached += attached;
            counts.no_candidate += no_candidate;
            counts.ambiguous += ambiguous;
            counts.edge += edge;
        }
        counts
    }

    /// The words of each pass that was run.
    fn outcomes(&self) -> impl Iterator<Item = &[u32]> + '_ {
        self.words.chunks_exact(calls::OUTCOME_WORDS)
    }

    /// The text of the result: the passes that were run, a line for each role, then the sheet.
    ///
    /// Refused by [`Refusal::OverLimit`] if more than 16 passes were run, and by nothing else.
    pub fn text(&self) -> Result<Vec<u8>, Refusal> {
        calls::write_result(self.corners.len(), &self.words, &self.sheet)
    }
}
