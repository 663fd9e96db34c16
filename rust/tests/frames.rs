//! Frames: the specification's example by hand, each refusal, and the frame's passes one by one.
use projective_grid_verified::{
    Cell, Corner, FillParams, Frame, GrowParams, Kind, LocalParams, Pass, PassOutcome, Recovery, Refusal, RefusedFrame,
    Role, RoleCounts, Settings, MAX_FRAME_BYTES,
};

const HEAD: &str = "(frame 1)
(cell 41200000)
(axes (3f800000 00000000) (00000000 3f800000))
(band 3e800000)
";
const ROW: &str = "(corner (41200000 41200000) 00000000)
(corner (41a00000 41200000) 00000000)
(corner (41f00000 41200000) 00000000)
(label 0 (0 0))
(label 1 (1 0))
";
const RESULT: &str = "(result 1)
(grow 1 8 0 0 no)
(role plant 1 8 0 0)
(role depot 0 0 0 0)
(role dealer 0 0 0 0)
(cell (0 0) 0)
(cell (1 0) 1)
(cell (2 0) 2)
(hole (-1 0))
(hole (0 -1))
(hole (0 1))
(hole (1 -1))
(hole (1 1))
(hole (2 -1))
(hole (2 1))
(hole (3 0))
";

/// The role lines where no pass has run.
const NO_COUNTS: &str = "(role plant 0 0 0 0)\n(role depot 0 0 0 0)\n(role dealer 0 0 0 0)\n";

fn parse(text: String) -> Result<Frame, RefusedFrame> {
    Frame::parse(text.as_bytes())
}

fn cell(i: i8, j: i8) -> Cell {
    Cell::new(i, j).expect("a cell of the sheet")
}

/// A lattice of eight by eight corners, four of them labelled; one of its inside is far away.
fn lattice(passes: &str) -> String {
    let mut text = HEAD.to_string();
    for k in 0..64 {
        let (x, y) = if k == 27 { (500, 500) } else { (10 * (k / 8), 10 * (k % 8)) };
        let bits = |n: i16| f32::from(n).to_bits();
        text += &format!("(corner ({:08x} {:08x}) 00000000)\n", bits(x), bits(y));
    }
    text += "(label 0 (0 0))\n(label 1 (0 1))\n(label 8 (1 0))\n(label 9 (1 1))\n";
    text + passes
}

#[test]
fn the_example() {
    let frame = parse(format!("{HEAD}{ROW}(grow)\n")).expect("accepted");
    let (start, settings) = (frame.start(), frame.start().settings());
    let expected = Settings { cell_size: 10.0, axis_i: [1.0, 0.0], axis_j: [0.0, 1.0], edge_length_tol: 0.25 };
    assert_eq!(*settings, expected);
    let xs: Vec<f32> = start.corners().map(|(_, corner)| corner.x).collect();
    assert_eq!(xs, [10.0, 20.0, 30.0]);
    let given: Vec<(Cell, usize)> = start.sheet().labelled().map(|(c, n)| (c, n.index())).collect();
    assert_eq!(given, [(cell(0, 0), 0), (cell(1, 0), 1)]);
    let text = String::from_utf8(start.text().expect("no pass")).expect("text");
    assert_eq!(text, format!("(result 1)\n{NO_COUNTS}(cell (0 0) 0)\n(cell (1 0) 1)\n"));

    let outcome = frame.recover();
    let [PassOutcome::Grow(grown)] = outcome.passes() else {
        panic!("one grow pass: {:?}", outcome.passes());
    };
    assert_eq!(grown.attached, [cell(2, 0)]);
    assert_eq!(grown.visited.len(), 9);
    let counts = (grown.no_candidate, grown.ambiguous, grown.edge, grown.rim);
    assert_eq!(counts, (8, 0, 0, false));
    let sheet = outcome.sheet();
    let of_cell = |i, j| sheet.label(cell(i, j)).map(|n| n.index());
    assert_eq!((of_cell(2, 0), of_cell(3, 0)), (Some(2), None));
    assert!(sheet.is_hole(cell(3, 0)) && !sheet.is_hole(cell(2, 0)));
    assert!(sheet.holes().is_sorted() && sheet.holes().count() == 8);
    assert_eq!(sheet.ambiguous().count(), 0);
    assert_eq!(String::from_utf8(outcome.text()).expect("text"), RESULT);
}

#[test]
fn each_refusal() {
    let refused = |text: String| parse(text).expect_err("refused");
    let expect = |text: String, refusal, line| assert_eq!(refused(text), RefusedFrame { refusal, line });
    expect(String::new(), Refusal::Malformed, 1);
    expect(HEAD.replace("cell", "size"), Refusal::Malformed, 2);
    expect(" ".repeat(MAX_FRAME_BYTES + 1), Refusal::OverLimit, 0);
    expect(format!("{HEAD}{}", "(grow)\n".repeat(17)), Refusal::OverLimit, 21);
    expect(HEAD.replace("41200000", "7fc00000"), Refusal::OutOfRange, 2);
    expect(format!("{HEAD}{ROW}(label 2 (64 0))\n"), Refusal::OffSheet, 10);
    expect(format!("{HEAD}{ROW}(label 3 (2 0))\n"), Refusal::UnknownCorner, 10);
    expect(format!("{HEAD}{ROW}(label 2 (1 0))\n"), Refusal::Duplicate, 10);
    expect(format!("{HEAD}{ROW}(label 1 (2 0))\n"), Refusal::Duplicate, 10);
    expect(format!("{HEAD}{ROW}(shade 9 2)\n"), Refusal::Malformed, 10);
    expect(format!("{HEAD}{ROW}(shade 3 0)\n"), Refusal::UnknownCorner, 10);
    expect(format!("{HEAD}{ROW}(shade 2 0)\n(shade 2 1)\n"), Refusal::Duplicate, 11);
    expect(format!("{HEAD}{ROW}(shade 2 0)\n(label 2 (2 0))\n"), Refusal::Malformed, 11);
    expect(format!("{HEAD}{ROW}(patch)\n"), Refusal::NoSharedCorner, 10);
    expect(format!("{HEAD}{ROW}(patch)\n(label 2 (0 0))\n(grow)\n"), Refusal::NoSharedCorner, 10);
    expect(format!("{HEAD}{ROW}(patch)\n(label 0 (5 5))\n(label 1 (7 5))\n"), Refusal::PatchesClash, 10);
    expect(format!("{HEAD}{ROW}(patch)\n(label 0 (5 5))\n(label 2 (6 5))\n"), Refusal::PatchesClash, 10);
    expect(format!("{HEAD}{ROW}(patch)\n(label 0 (-64 5))\n(label 2 (63 5))\n"), Refusal::OffSheet, 10);
    expect(format!("{HEAD}{ROW}(patch)\n(label 2 (64 0))\n"), Refusal::OffSheet, 11);
    expect(format!("{HEAD}{ROW}(patch)\n(label 0 (5 5))\n(label 0 (6 5))\n"), Refusal::Duplicate, 12);
    expect(format!("{HEAD}{ROW}(patch)\n(patch)\n"), Refusal::Malformed, 11);
    expect(format!("{HEAD}{ROW}(patch)\n(grow)"), Refusal::Malformed, 11);
    expect(format!("{HEAD}{ROW}(as dealer)\n"), Refusal::Malformed, 11);
    expect(format!("{HEAD}{ROW}(as dealer)\n(grow 3eb33333 3fc00000 3fa00000)\n"), Refusal::NotPermitted, 11);

    let bent = refused(String::new());
    assert_eq!(bent.text(), b"(refused 1 1)\n");
    assert_eq!(bent.to_string(), "line 1: a line is missing, out of order or ill-formed");
}

#[test]
fn numbers_and_words() {
    let words: Vec<_> = (0..12).map(|n| Refusal::from_number(n).map(|r| (r.number(), r.word()))).collect();
    let table =
        ["bent", "overfull", "wild", "off sheet", "stranger", "doubled", "short", "apart", "clash", "not yours"];
    assert_eq!((words[0], words[11]), (None, None));
    for (n, word) in (1..).zip(table) {
        assert_eq!(words[n as usize], Some((n, word)));
    }
}

#[test]
fn two_sets_of_labels() {
    // The example with its labels in two sets; corner 0 is in both, and the second is moved by (-5 3).
    let corners: String = ROW.lines().take(3).map(|line| format!("{line}\n")).collect();
    let frame = parse(format!("{HEAD}{corners}(label 0 (0 0))\n(patch)\n(label 1 (6 -3))\n(label 0 (5 -3))\n(grow)\n"));
    let frame = frame.expect("accepted");
    let given: Vec<(Cell, usize)> = frame.start().sheet().labelled().map(|(c, n)| (c, n.index())).collect();
    assert_eq!(given, [(cell(0, 0), 0), (cell(1, 0), 1)]);
    assert_eq!(String::from_utf8(frame.recover().text()).expect("text"), RESULT);
    // Up to the sheet's last cells, in the first set's numbers.
    let rim = parse(format!("{HEAD}{corners}(label 0 (62 63))\n(patch)\n(label 0 (-64 -64))\n(label 2 (-63 -64))\n"));
    let text = String::from_utf8(rim.expect("accepted").recover().text()).expect("text");
    assert_eq!(text, format!("(result 1)\n{NO_COUNTS}(cell (62 63) 0)\n(cell (63 63) 2)\n"));
    let apart = parse(format!("{HEAD}{ROW}(patch)\n")).expect_err("refused");
    assert_eq!(apart.text(), b"(refused 8 10)\n");
    assert_eq!(apart.to_string(), "line 10: no corner is in both sets of labels");
}

#[test]
fn two_kinds() {
    let local = "(local 3eb33333 3fc00000 1 3f000000 1)\n";
    // The lattice by parity, but corner 2, of cell (0 2), of the other kind and corner 16, of cell (2 0), without one.
    let kinds: String = (0..64)
        .filter(|&k| k != 16)
        .map(|k| format!("(shade {k} {})\n", (k / 8 + k + i32::from(k == 2)) % 2))
        .collect();
    let frame = parse(lattice(&format!("{kinds}(grow)\n{local}"))).expect("accepted");
    let shade = |k: usize| frame.start().corners().nth(k).expect("64 corners").1.shade;
    assert_eq!((shade(0), shade(1), shade(2), shade(16)), (Some(Kind::Zero), Some(Kind::One), Some(Kind::One), None));
    let outcome = frame.recover();
    let [PassOutcome::Grow(_), PassOutcome::Local(mapped)] = outcome.passes() else {
        panic!("grow and local: {:?}", outcome.passes());
    };
    // Each is passed over at its cell, and corner 16 also at (2 -1), three of whose supports are in a line.
    assert_eq!(mapped.unmatched, Some(3));
    assert!(mapped.attached.is_empty());
    let sheet = outcome.sheet();
    assert_eq!((sheet.label(cell(0, 2)), sheet.label(cell(2, 0))), (None, None));
    assert_eq!(sheet.labelled().count(), 61);
    for (cell, corner) in sheet.labelled() {
        let shade = outcome.clone().into_recovery().corner(corner).expect("there").shade;
        assert_eq!(shade, Some(Kind::at(cell)));
    }
    let text = String::from_utf8(outcome.text()).expect("text");
    assert_eq!(text.lines().nth(3), Some("(unmatched 3)"));
    // Without a shade nothing of it is printed.
    let plain = parse(lattice(&format!("(grow)\n{local}"))).expect("accepted").recover();
    assert!(matches!(&plain.passes()[1], PassOutcome::Local(mapped) if mapped.unmatched.is_none()));
    assert!(!String::from_utf8(plain.text()).expect("text").contains("unmatched"));
}

#[test]
fn passes_are_read_as_written() {
    let frame = parse(format!("{HEAD}(grow)\n(fill)\n(local 3f000000 40000000 7 3e800000 2)\n")).expect("accepted");
    let local =
        LocalParams { search_rel: 0.5, ambiguity_factor: 2.0, max_iters: 7, max_residual_rel: 0.25, extend_depth: 2 };
    let expected = [Pass::Grow(GrowParams::default()), Pass::Fill(FillParams::default()), Pass::Local(local)];
    assert_eq!(frame.passes(), expected);
}

#[test]
fn bare_grow_and_the_old_one() {
    let passes = |line: &str| parse(format!("{HEAD}{line}\n")).expect("accepted").passes().to_vec();
    let grow = |boundary_search_factor| {
        vec![Pass::Grow(GrowParams { attach_search_rel: 0.35, attach_ambiguity_factor: 1.5, boundary_search_factor })]
    };
    assert_eq!(passes("(grow)"), grow(1.25));
    assert_eq!(passes("(grow 3eb33333 3fc00000 3fa00000)"), grow(1.25));
    assert_eq!(passes("(grow 3eb33333 3fc00000 40000000)"), grow(2.0));
}

#[test]
fn one_by_one_as_the_frame() {
    let passes = "(fill 3eb33333 3fc00000 2)\n(local 3eb33333 3fc00000 1 3f000000 1)\n(grow)\n(local 3eb33333 3fc00000 0 3f000000 0)\n";
    let frame = parse(lattice(passes)).expect("accepted");
    let start = frame.start();
    let corners: Vec<Corner> = start.corners().map(|(_, corner)| corner).collect();
    let labels: Vec<_> = start.sheet().labelled().map(|(cell, corner)| (corner, cell)).collect();
    let mut recovery = Recovery::new(*start.settings(), &corners, &labels).expect("in range");

    let wanted = frame.passes().to_vec();
    let outcome = frame.recover();
    let mut labelled = labels.len();
    for (pass, expected) in wanted.into_iter().zip(outcome.passes()) {
        let (done, new) = match pass {
            Pass::Grow(params) => {
                let done = recovery.grow(params).expect("in range");
                let new = done.attached.clone();
                assert_eq!(new.len() + (done.no_candidate + done.ambiguous + done.edge) as usize, done.visited.len());
                (PassOutcome::Grow(done), new)
            }
            Pass::Fill(params) => {
                let done = recovery.fill(params).expect("in range");
                let new = done.added.clone();
                (PassOutcome::Fill(done), new)
            }
            Pass::Local(params) => {
                let done = recovery.local(params).expect("in range");
                assert_eq!(done.largest_residual.is_some(), params.max_iters > 0);
                let new = done.attached.clone();
                (PassOutcome::Local(done), new)
            }
        };
        assert_eq!(done, *expected);
        assert!(new.iter().all(|&cell| recovery.sheet().label(cell).is_some()));
        labelled += new.len();
        assert_eq!(recovery.sheet().labelled().count(), labelled);
    }
    assert_eq!(recovery.passes_run(), 4);
    assert_eq!(labelled, 63, "all but the one far away");
    assert_eq!(recovery.sheet(), outcome.sheet());
    let text = recovery.text().expect("four passes");
    assert_eq!(text, outcome.text());
    // As the frame program prints them.
    let lines =
        "(result 1)\n(fill 11 2 no)\n(local 6 7 0 0 1 38c69856 no)\n(grow 42 33 0 0 no)\n(local 0 0 0 0 0 none no)\n\
         (role plant 59 40 0 0)\n(role depot 0 0 0 0)\n(role dealer 0 0 0 0)\n(cell ";
    assert!(text.starts_with(lines.as_bytes()), "{}", String::from_utf8_lossy(&text));
}

#[test]
fn counts_for_each_role() {
    let passes = "(as depot)\n(fill 3eb33333 3fc00000 2)\n(as plant)\n(local 3eb33333 3fc00000 1 3f000000 1)\n\
                  (as dealer)\n(grow)\n(as plant)\n(local 3eb33333 3fc00000 0 3f000000 0)\n";
    let outcome = parse(lattice(passes)).expect("accepted").recover();
    assert_eq!(outcome.roles(), [Role::Depot, Role::Plant, Role::Dealer, Role::Plant]);
    let counts = Role::ALL.map(|role| {
        let RoleCounts { attached, no_candidate, ambiguous, edge } = outcome.counts(role);
        [attached, no_candidate, ambiguous, edge]
    });
    assert_eq!(counts, [[6, 7, 0, 0], [11, 0, 0, 0], [42, 33, 0, 0]]);
    // All cells that are not given.
    assert_eq!(outcome.sheet().labelled().count(), 4 + 6 + 11 + 42);
    let text = String::from_utf8(outcome.text()).expect("text");
    let roles: Vec<&str> = text.lines().skip(5).take(4).collect();
    assert_eq!(&roles[..3], ["(role plant 6 7 0 0)", "(role depot 11 0 0 0)", "(role dealer 42 33 0 0)"]);
    assert_eq!(roles[3], "(cell (0 0) 0)");
    // Only these lines tell it from the frame without as lines.
    let plain: String =
        passes.lines().filter(|line| !line.starts_with("(as ")).map(|line| format!("{line}\n")).collect();
    let others = |text: &str| -> Vec<String> {
        text.lines().filter(|line| !line.starts_with("(role ")).map(String::from).collect()
    };
    let plain = String::from_utf8(parse(lattice(&plain)).expect("accepted").recover().text()).expect("text");
    assert_eq!(others(&plain), others(&text));
    // A pass that is run behind them is the plant's, or whose it is said to be.
    let mut recovery = outcome.into_recovery();
    recovery.grow(GrowParams::default()).expect("in range");
    recovery.run_as(Role::Depot, Pass::Grow(GrowParams::default())).expect("in range");
    assert_eq!(recovery.counts(Role::Dealer).attached, 42);
    let grown = [Role::Plant, Role::Depot].map(|role| recovery.counts(role).no_candidate);
    let [PassOutcome::Grow(again)] = [recovery.run(Pass::Grow(GrowParams::default())).expect("in range")] else {
        panic!("grow");
    };
    assert_eq!(grown, [7 + u64::from(again.no_candidate), u64::from(again.no_candidate)]);
}
