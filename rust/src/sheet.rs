//! Cells, corner numbers and the sheet.
use std::fmt;

/// Cells along a side of the sheet.
const SIDE: usize = 128;
/// The cell (-64, -64) has place 0.
const LEAST: i8 = -64;
/// Places of the sheet.
pub(crate) const PLACES: usize = SIDE * SIDE;
/// Places of its label box.
const BOX: usize = 5;
const CORNER_BITS: u16 = 0x3fff;
const HOLE: u16 = 0x4000;
const AMBIGUOUS: u16 = 0x8000;

/// A cell of the sheet: i and j are from -64 to 63. Cells are ordered by i, then j.
#[derive(Clone, Copy, Debug, PartialEq, Eq, PartialOrd, Ord, Hash)]
pub struct Cell {
    i: i8,
    j: i8,
}

impl Cell {
    /// The cell (i, j), if it is on the sheet.
    pub const fn new(i: i8, j: i8) -> Option<Cell> {
        if i < LEAST || i > 63 || j < LEAST || j > 63 {
            return None;
        }
        Some(Cell { i, j })
    }

    /// Its i.
    pub const fn i(self) -> i8 {
        self.i
    }

    /// Its j.
    pub const fn j(self) -> i8 {
        self.j
    }

    /// Its place on the sheet.
    pub(crate) fn place(self) -> usize {
        let side = |n: i8| (i16::from(n) - i16::from(LEAST)) as usize;
        side(self.i) * SIDE + side(self.j)
    }

    /// The cell of a place below `PLACES`.
    pub(crate) fn of_place(place: usize) -> Cell {
        assert!(place < PLACES, "a place is on the sheet");
        let side = |n: usize| (n as i16 + i16::from(LEAST)) as i8;
        Cell { i: side(place / SIDE), j: side(place % SIDE) }
    }
}

impl fmt::Display for Cell {
    fn fmt(&self, f: &mut fmt::Formatter<'_>) -> fmt::Result {
        write!(f, "({} {})", self.i, self.j)
    }
}

/// The number of a corner, counted from 0: below 1,024.
#[derive(Clone, Copy, Debug, PartialEq, Eq, PartialOrd, Ord, Hash)]
pub struct CornerNumber(u16);

impl CornerNumber {
    /// The number, if there can be a corner of that number.
    pub const fn new(number: usize) -> Option<CornerNumber> {
        if number >= crate::MAX_CORNERS {
            return None;
        }
        Some(CornerNumber(number as u16))
    }

    /// It as an index.
    pub const fn index(self) -> usize {
        self.0 as usize
    }
}

impl fmt::Display for CornerNumber {
    fn fmt(&self, f: &mut fmt::Formatter<'_>) -> fmt::Result {
        self.0.fmt(f)
    }
}

/// The label box of a sheet that has labels: the lowest and highest labelled i and j.
#[derive(Clone, Copy, Debug, PartialEq, Eq, Hash)]
pub struct LabelBox {
    /// The cell of the lowest i and the lowest j.
    pub low: Cell,
    /// The cell of the highest i and the highest j.
    pub high: Cell,
}

impl LabelBox {
    /// A box, or that of a sheet without labels, as the library takes it: a mark, 1 where there are no labels, then low i,
    /// high i, low j and high j.
    pub fn places(around: Option<LabelBox>) -> [i32; BOX] {
        around.map_or([1, 0, 0, 0, 0], |LabelBox { low, high }| [0, low.i, high.i, low.j, high.j].map(i32::from))
    }

    /// The box that the library wrote.
    pub(crate) fn of_places(places: &[i32]) -> Option<LabelBox> {
        let line = |k: usize| i8::try_from(places[k]).expect("a line of the sheet");
        let cell = |i, j| Cell::new(line(i), line(j)).expect("a cell of the sheet");
        (places[0] == 0).then(|| LabelBox { low: cell(1, 3), high: cell(2, 4) })
    }

    /// The box with one cell more in it.
    fn widened(around: Option<LabelBox>, cell: Cell) -> LabelBox {
        let LabelBox { low, high } = around.unwrap_or(LabelBox { low: cell, high: cell });
        LabelBox {
            low: Cell { i: low.i.min(cell.i), j: low.j.min(cell.j) },
            high: Cell { i: high.i.max(cell.i), j: high.j.max(cell.j) },
        }
    }
}

/// A sheet of 128 by 128 cells. Each holds a corner or none, a hole mark and an ambiguous mark.
///
/// A sheet is read only and belongs to its [`Recovery`](crate::Recovery): none but the passes write to it. Its label box is
/// kept with it.
#[derive(Clone, PartialEq, Eq)]
pub struct Sheet {
    places: Box<[u16; PLACES]>,
    around: Option<LabelBox>,
}

impl Sheet {
    pub(crate) fn empty() -> Sheet {
        Sheet { places: Box::new([0; PLACES]), around: None }
    }

    pub(crate) fn places(&self) -> &[u16; PLACES] {
        &self.places
    }

    pub(crate) fn places_mut(&mut self) -> &mut [u16; PLACES] {
        &mut self.places
    }

    /// Keeps the box that the call which wrote the places has written.
    pub(crate) fn keep_box(&mut self, places: &[i32]) {
        self.around = LabelBox::of_places(places);
    }

    /// Labels a cell that has no corner; false if it has one.
    pub(crate) fn give(&mut self, cell: Cell, corner: CornerNumber) -> bool {
        let place = &mut self.places[cell.place()];
        if *place & CORNER_BITS != 0 {
            return false;
        }
        *place |= corner.0 + 1;
        self.around = Some(LabelBox::widened(self.around, cell));
        true
    }

    /// The label box, or none where no cell is labelled.
    pub fn label_box(&self) -> Option<LabelBox> {
        self.around
    }

    /// The corner that the cell is labelled with.
    pub fn label(&self, cell: Cell) -> Option<CornerNumber> {
        let corner = self.places[cell.place()] & CORNER_BITS;
        corner.checked_sub(1).map(CornerNumber)
    }

    /// Whether the cell has the hole mark.
    pub fn is_hole(&self, cell: Cell) -> bool {
        self.places[cell.place()] & HOLE != 0
    }

    /// Whether the cell has the ambiguous mark.
    pub fn is_ambiguous(&self, cell: Cell) -> bool {
        self.places[cell.place()] & AMBIGUOUS != 0
    }

    /// All cells, by i, then j.
    pub fn cells() -> impl Iterator<Item = Cell> {
        (0..PLACES).map(Cell::of_place)
    }

    /// The labelled cells and their corners, by i, then j.
    pub fn labelled(&self) -> impl Iterator<Item = (Cell, CornerNumber)> + '_ {
        Self::cells().filter_map(|cell| Some((cell, self.label(cell)?)))
    }

    /// The cells with the hole mark, by i, then j.
    pub fn holes(&self) -> impl Iterator<Item = Cell> + '_ {
        Self::cells().filter(|&cell| self.is_hole(cell))
    }

    /// The cells with the ambiguous mark, by i, then j.
    pub fn ambiguous(&self) -> impl Iterator<Item = Cell> + '_ {
        Self::cells().filter(|&cell| self.is_ambiguous(cell))
    }
}

impl fmt::Debug for Sheet {
    fn fmt(&self, f: &mut fmt::Formatter<'_>) -> fmt::Result {
        f.debug_struct("Sheet")
            .field("labelled", &self.labelled().collect::<Vec<_>>())
            .field("around", &self.around)
            .field("holes", &self.holes().collect::<Vec<_>>())
            .field("ambiguous", &self.ambiguous().collect::<Vec<_>>())
            .finish()
    }
}
