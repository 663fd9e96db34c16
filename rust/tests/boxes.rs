//! The label box that is kept with the sheet, and passes that are lent another.
use projective_grid_verified::{
    Cell, Corner, CornerNumber, FillParams, Frame, GrowParams, LabelBox, LocalParams, Pass, PassOutcome, Recovery,
    Refusal, Settings, Sheet,
};

const SETTINGS: Settings = Settings { cell_size: 10.0, axis_i: [1.0, 0.0], axis_j: [0.0, 1.0], edge_length_tol: 0.25 };
const LOCAL: LocalParams =
    LocalParams { search_rel: 0.35, ambiguity_factor: 1.5, max_iters: 1, max_residual_rel: 0.5, extend_depth: 1 };

fn passes() -> [Pass; 3] {
    [Pass::Grow(GrowParams::default()), Pass::Fill(FillParams::default()), Pass::Local(LOCAL)]
}

fn cell(i: i8, j: i8) -> Cell {
    Cell::new(i, j).expect("a cell of the sheet")
}

/// A lattice of six by six corners, with these of them labelled.
fn lattice(labelled: &[usize]) -> Recovery {
    let corner = |k: usize| Corner { x: 10.0 * (k / 6) as f32, y: 10.0 * (k % 6) as f32, pitch: 0.0, shade: None };
    let label = |&k: &usize| (CornerNumber::new(k).expect("below 1,024"), cell((k / 6) as i8, (k % 6) as i8));
    let corners: Vec<Corner> = (0..36).map(corner).collect();
    let labels: Vec<_> = labelled.iter().map(label).collect();
    Recovery::new(SETTINGS, &corners, &labels).expect("in range")
}

/// What a search of the sheet finds.
fn searched(sheet: &Sheet) -> Option<LabelBox> {
    let lines = |line: fn(Cell) -> i8| sheet.labelled().map(move |(cell, _)| line(cell));
    let (low_i, high_i) = (lines(Cell::i).min()?, lines(Cell::i).max()?);
    let (low_j, high_j) = (lines(Cell::j).min()?, lines(Cell::j).max()?);
    Some(LabelBox { low: cell(low_i, low_j), high: cell(high_i, high_j) })
}

/// A pass that is lent that, is refused so, and changes nothing.
fn refused(recovery: &mut Recovery, pass: Pass, around: &[i32], refusal: Refusal) {
    let (before, mut lent) = (recovery.clone(), around.to_vec());
    assert_eq!(recovery.run_lent(pass, &mut lent), Err(refusal), "{pass:?}, {around:?}");
    assert_eq!(lent, around);
    assert_eq!(recovery.sheet(), before.sheet());
    assert_eq!(recovery.passes_run(), before.passes_run());
    assert_eq!(recovery.text(), before.text());
}

#[test]
fn it_is_kept_by_readings_joins_and_passes() {
    let frame = |labels: &str| {
        let head = "(frame 1)\n(cell 41200000)\n(axes (3f800000 00000000) (00000000 3f800000))\n(band 3e800000)\n";
        let corner = |k: usize| format!("(corner ({:08x} 41200000) 00000000)\n", (10.0 * k as f32).to_bits());
        let corners: String = (0..5).map(corner).collect();
        Frame::parse(format!("{head}{corners}{labels}").as_bytes()).expect("accepted")
    };
    for labels in ["", "(label 0 (-64 63))\n", "(label 0 (3 -7))\n(label 2 (5 -7))\n(label 1 (4 9))\n"] {
        let start = frame(labels).start().clone();
        assert_eq!(start.sheet().label_box(), searched(start.sheet()));
    }
    // The second set is moved by (-5 3).
    let joined = frame("(label 0 (0 0))\n(patch)\n(label 1 (6 -3))\n(label 0 (5 -3))\n(label 4 (9 -9))\n(grow)\n");
    assert_eq!(joined.start().sheet().label_box(), Some(LabelBox { low: cell(0, -6), high: cell(4, 0) }));
    let outcome = joined.recover();
    assert_eq!(outcome.sheet().label_box(), searched(outcome.sheet()));

    let mut recovery = lattice(&[7, 8, 13, 14]);
    assert_eq!(recovery.sheet().label_box(), Some(LabelBox { low: cell(1, 1), high: cell(2, 2) }));
    let [grow, fill, local] = passes();
    for pass in [local, fill, local, grow, fill] {
        recovery.run(pass).expect("in range");
        assert_eq!(recovery.sheet().label_box(), searched(recovery.sheet()), "{pass:?}");
    }
    assert_eq!(recovery.sheet().label_box(), Some(LabelBox { low: cell(0, 0), high: cell(5, 5) }));
    let none = lattice(&[]);
    assert_eq!((none.sheet().label_box(), LabelBox::places(None)), (None, [1, 0, 0, 0, 0]));
}

#[test]
fn another_box_is_refused() {
    for labelled in [&[7, 8, 13, 14][..], &[]] {
        let mut recovery = lattice(labelled);
        let right = LabelBox::places(recovery.sheet().label_box());
        for pass in passes() {
            let mut out_of_range = |place: usize, number: i32| {
                let mut around = right;
                around[place] = number;
                refused(&mut recovery, pass, &around, Refusal::OutOfRange);
            };
            // A mark of neither kind, the other mark, and each number off by one; those of an empty box count for nothing.
            for mark in [-1, 1 - right[0], 2] {
                out_of_range(0, mark);
            }
            for k in if right[0] == 0 { 1..5 } else { 0..0 } {
                out_of_range(k, right[k] - 1);
                out_of_range(k, right[k] + 1);
            }
            for count in 0..5 {
                refused(&mut recovery, pass, &right[..count], Refusal::BufferTooShort);
            }
        }
    }
    let mut recovery = lattice(&[7, 8]);
    for pass in passes() {
        refused(&mut recovery, pass, &LabelBox::places(None), Refusal::OutOfRange);
    }
}

#[test]
fn the_right_box_lent_by_hand() {
    for (labelled, lent) in [(&[7, 8, 13, 14][..], [0, 1, 2, 1, 2]), (&[], [1, 5, -5, i32::MIN, i32::MAX])] {
        for pass in passes() {
            let (mut by_hand, mut kept) = (lattice(labelled), lattice(labelled));
            let mut around = [&lent[..], &[77, 78]].concat();
            let done: Result<PassOutcome, Refusal> = by_hand.run_lent(pass, &mut around);
            assert_eq!(done, kept.run(pass));
            assert_eq!(by_hand.sheet(), kept.sheet());
            let left = LabelBox::places(searched(by_hand.sheet()));
            assert_eq!(around, [&left[..], &[77, 78]].concat(), "{pass:?}");
            // And on with what it left.
            assert_eq!(by_hand.run_lent(pass, &mut around), kept.run(pass));
        }
    }
}
