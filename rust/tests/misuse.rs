//! What cannot be made, and what is refused.
use projective_grid_verified::{
    Cell, Corner, CornerNumber, FillParams, GrowParams, Kind, LocalParams, Recovery, Refusal, Settings, MAX_CORNERS,
};

const SETTINGS: Settings = Settings { cell_size: 10.0, axis_i: [1.0, 0.0], axis_j: [0.0, 1.0], edge_length_tol: 0.25 };
const LOCAL: LocalParams =
    LocalParams { search_rel: 0.35, ambiguity_factor: 1.5, max_iters: 1, max_residual_rel: 0.5, extend_depth: 1 };

fn row(count: usize) -> Vec<Corner> {
    let corner = |k| Corner { x: 10.0 * k as f32, y: 0.0, pitch: 0.0, shade: None };
    (0..count).map(corner).collect()
}

fn label(corner: usize, i: i8) -> (CornerNumber, Cell) {
    let number = CornerNumber::new(corner).expect("below 1,024");
    (number, Cell::new(i, 0).expect("a cell of the sheet"))
}

fn made(settings: Settings, corners: &[Corner], labels: &[(CornerNumber, Cell)]) -> Result<(), Refusal> {
    Recovery::new(settings, corners, labels).map(|_| ())
}

#[test]
fn cells_and_corner_numbers_have_their_ranges() {
    for (i, j) in [(-65, 0), (64, 0), (0, -65), (0, 64), (i8::MIN, i8::MAX)] {
        assert_eq!(Cell::new(i, j), None);
    }
    for (i, j) in [(-64, -64), (-64, 63), (63, -64), (63, 63), (0, 0)] {
        let cell = Cell::new(i, j).expect("on the sheet");
        assert_eq!((cell.i(), cell.j()), (i, j));
    }
    assert!(CornerNumber::new(MAX_CORNERS - 1).is_some());
    assert_eq!(CornerNumber::new(MAX_CORNERS), None);
}

#[test]
fn a_recovery_is_checked_when_it_is_made() {
    assert_eq!(made(SETTINGS, &row(3), &[label(0, 0), label(2, 63)]), Ok(()));
    assert_eq!(made(SETTINGS, &[], &[]), Ok(()));
    let still = vec![row(1)[0]; MAX_CORNERS + 1];
    assert_eq!(made(SETTINGS, &still[1..], &[label(MAX_CORNERS - 1, -64)]), Ok(()));
    assert_eq!(made(SETTINGS, &still, &[]), Err(Refusal::OverLimit));
    for wild in [f32::NAN, f32::INFINITY, 0.0, 16_385.0] {
        let settings = Settings { cell_size: wild, ..SETTINGS };
        assert_eq!(made(settings, &row(3), &[]), Err(Refusal::OutOfRange));
    }
    let mut corners = row(3);
    corners[2].pitch = -1.0;
    assert_eq!(made(SETTINGS, &corners, &[]), Err(Refusal::OutOfRange));
    assert_eq!(made(SETTINGS, &row(3), &[label(3, 0)]), Err(Refusal::UnknownCorner));
    assert_eq!(made(SETTINGS, &row(3), &[label(0, 0), label(0, 1)]), Err(Refusal::Duplicate));
    assert_eq!(made(SETTINGS, &row(3), &[label(0, 0), label(1, 0)]), Err(Refusal::Duplicate));
}

#[test]
fn a_refused_pass_changes_nothing() {
    let mut recovery = Recovery::new(SETTINGS, &row(9), &[label(0, 0), label(1, 1)]).expect("in range");
    recovery.grow(GrowParams::default()).expect("in range");
    let before = recovery.clone();
    let grow = GrowParams { attach_search_rel: f32::NAN, ..GrowParams::default() };
    let fill = FillParams { max_iters: 65, ..FillParams::default() };
    let local = LocalParams { extend_depth: 5, ..LOCAL };
    assert_eq!(recovery.grow(grow), Err(Refusal::OutOfRange));
    assert_eq!(recovery.fill(fill), Err(Refusal::OutOfRange));
    assert_eq!(recovery.local(local), Err(Refusal::OutOfRange));
    assert_eq!(recovery.sheet(), before.sheet());
    assert_eq!(recovery.passes_run(), 1);
    assert_eq!(recovery.text(), before.text());
}

#[test]
fn more_passes_than_a_text_has() {
    let mut recovery = Recovery::new(SETTINGS, &row(9), &[label(0, 0), label(1, 1)]).expect("in range");
    for _ in 0..16 {
        recovery.fill(FillParams::default()).expect("in range");
    }
    assert!(recovery.text().is_ok());
    recovery.local(LOCAL).expect("in range");
    assert_eq!(recovery.text(), Err(Refusal::OverLimit));
}

#[test]
fn no_labels_and_few() {
    let mut recovery = Recovery::new(SETTINGS, &row(9), &[]).expect("in range");
    let grown = recovery.grow(GrowParams::default()).expect("in range");
    assert!(grown.attached.is_empty() && grown.visited.is_empty());
    let filled = recovery.fill(FillParams::default()).expect("in range");
    assert!(filled.added.is_empty());
    let local = recovery.local(LOCAL).expect("in range");
    assert_eq!((local.attached.len(), local.largest_residual, local.unmatched), (0, None, None));
}

#[test]
fn kinds_from_pass_to_pass() {
    let mut corners = row(4);
    corners[2].shade = Some(Kind::One);
    let mut recovery = Recovery::new(SETTINGS, &corners, &[label(0, 0), label(1, 1)]).expect("in range");
    let number = |k| CornerNumber::new(k).expect("below 1,024");
    let attached = |recovery: &mut Recovery| recovery.grow(GrowParams::default()).expect("in range").attached.len();
    // Cell (2, 0) takes kind 0, and no corner without a shade while another has one.
    assert_eq!(attached(&mut recovery.clone()), 0);
    assert!(recovery.set_shade(number(2), None) && recovery.set_shade(number(0), Some(Kind::Zero)));
    assert_eq!(attached(&mut recovery.clone()), 0);
    assert!(recovery.set_shade(number(2), Some(Kind::Zero)));
    assert_eq!(attached(&mut recovery), 1);
    // Without any, all are taken as they come.
    assert!(recovery.set_shade(number(2), None) && recovery.set_shade(number(0), None));
    assert_eq!(attached(&mut recovery), 1);
    assert_eq!(recovery.corner(number(3)).expect("there").shade, None);
    assert!(!recovery.set_shade(number(4), Some(Kind::One)), "there is no corner 4");
}

#[test]
fn the_kind_of_a_cell() {
    for (i, j, kind) in
        [(0, 0, Kind::Zero), (-1, 0, Kind::One), (0, -1, Kind::One), (-64, 63, Kind::One), (63, 63, Kind::Zero)]
    {
        assert_eq!(Kind::at(Cell::new(i, j).expect("on the sheet")), kind);
    }
}

#[test]
fn recoveries_can_go_to_other_threads() {
    let recovery = Recovery::new(SETTINGS, &row(9), &[label(0, 0), label(1, 1)]).expect("in range");
    let run = |mut recovery: Recovery| {
        recovery.grow(GrowParams::default()).expect("in range");
        recovery.text().expect("one pass")
    };
    let here = run(recovery.clone());
    let threads: Vec<_> = (0..4).map(|_| recovery.clone()).map(|r| std::thread::spawn(move || run(r))).collect();
    for thread in threads {
        assert_eq!(thread.join().expect("done"), here);
    }
}
