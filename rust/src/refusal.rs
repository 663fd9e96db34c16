//! The refusals.
use std::error::Error;
use std::fmt;

/// Why a call was refused. A refused call changes nothing. Later requests may add cases.
#[derive(Clone, Copy, Debug, PartialEq, Eq, Hash)]
#[non_exhaustive]
pub enum Refusal {
    /// 1, "bent": a line is missing, out of order or ill-formed.
    Malformed = 1,
    /// 2, "overfull": a limit on bytes, corners or passes is passed.
    OverLimit = 2,
    /// 3, "wild": a number is not finite or is out of its range, or a lent label box is not the sheet's.
    OutOfRange = 3,
    /// 4, "off sheet": the cell of a label is outside the sheet, or will be once the second set is moved (at the patch line).
    OffSheet = 4,
    /// 5, "stranger": the corner of a label or of a shade is not given.
    UnknownCorner = 5,
    /// 6, "doubled": a cell or a corner is labelled twice in one set, or a corner is shaded twice.
    Duplicate = 6,
    /// 7, "short": a lent buffer is too short. It comes up only where
    /// [`Recovery::run_lent`](crate::Recovery::run_lent) is given fewer than five places: this crate lends no other that is.
    BufferTooShort = 7,
    /// 8, "apart": a frame has two sets of labels and no corner is in both.
    NoSharedCorner = 8,
    /// 9, "clash": no shift of a frame's second set gives every shared corner one cell and every cell one corner.
    PatchesClash = 9,
    /// 10, "not yours": a frame has a pass that its role may not run. The calls of a pass know no role.
    NotPermitted = 10,
}

impl Refusal {
    const ALL: [Refusal; 10] = [
        Refusal::Malformed,
        Refusal::OverLimit,
        Refusal::OutOfRange,
        Refusal::OffSheet,
        Refusal::UnknownCorner,
        Refusal::Duplicate,
        Refusal::BufferTooShort,
        Refusal::NoSharedCorner,
        Refusal::PatchesClash,
        Refusal::NotPermitted,
    ];

    /// The refusal of this number, 1 to 10.
    pub fn from_number(number: u32) -> Option<Refusal> {
        Self::ALL.into_iter().find(|r| r.number() == number)
    }

    /// Its number, 1 to 10.
    pub fn number(self) -> u32 {
        self as u32
    }

    /// The word for it: the specification's, for 10 the request's or, for 8 and 9, which have none there, ours.
    pub fn word(self) -> &'static str {
        match self {
            Refusal::Malformed => "bent",
            Refusal::OverLimit => "overfull",
            Refusal::OutOfRange => "wild",
            Refusal::OffSheet => "off sheet",
            Refusal::UnknownCorner => "stranger",
            Refusal::Duplicate => "doubled",
            Refusal::BufferTooShort => "short",
            Refusal::NoSharedCorner => "apart",
            Refusal::PatchesClash => "clash",
            Refusal::NotPermitted => "not yours",
        }
    }
}

impl fmt::Display for Refusal {
    fn fmt(&self, f: &mut fmt::Formatter<'_>) -> fmt::Result {
        f.write_str(match self {
            Refusal::Malformed => "a line is missing, out of order or ill-formed",
            Refusal::OverLimit => "there are too many bytes, corners or passes",
            Refusal::OutOfRange => "a number is not finite or out of range",
            Refusal::OffSheet => "the cell of a label is outside the sheet",
            Refusal::UnknownCorner => "the corner of a label or a shade is not given",
            Refusal::Duplicate => "a cell or a corner is labelled twice, or a corner shaded twice",
            Refusal::BufferTooShort => "a lent buffer is too short",
            Refusal::NoSharedCorner => "no corner is in both sets of labels",
            Refusal::PatchesClash => "no shift gives each shared corner one cell and each cell one corner",
            Refusal::NotPermitted => "a pass may not be run by its role",
        })
    }
}

impl Error for Refusal {}

/// A frame that was refused: why, and at which line.
#[derive(Clone, Copy, Debug, PartialEq, Eq, Hash)]
pub struct RefusedFrame {
    /// Why.
    pub refusal: Refusal,
    /// The line, counted from 1; 0 where the frame has too many bytes.
    pub line: u32,
}

impl RefusedFrame {
    /// What the program `recover` prints for it: `(refused number line)` and a line feed.
    pub fn text(&self) -> Vec<u8> {
        format!("(refused {} {})\n", self.refusal.number(), self.line).into_bytes()
    }
}

impl fmt::Display for RefusedFrame {
    fn fmt(&self, f: &mut fmt::Formatter<'_>) -> fmt::Result {
        write!(f, "line {}: {}", self.line, self.refusal)
    }
}

impl Error for RefusedFrame {
    fn source(&self) -> Option<&(dyn Error + 'static)> {
        Some(&self.refusal)
    }
}
