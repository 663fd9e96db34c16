//! Runs the Rust's three passes over one frame and prints, after each pass,
//! its answer, its attached list in order and the whole sheet.
//!
//!     oracle [--sheets FILE] [--order rising|falling|mixed] [--edge at-most|below]
//!            [--fit plain|finite-residuals] [--print passes|roles|result] < FRAME
//!
//! The frame is 01's text and has to be an accepted one: anything else ends
//! the program with a message, but two sets of labels that are not joined (02,
//! 3/14), an as line before what is no pass, and a pass that is not its role's
//! (02, 6/14), for which it prints `(refused NUMBER LINE)` alone. The join and
//! the roles are this program's own: the source has neither, and a pass that is
//! run knows no role. Output, pass by pass:
//!
//!     pass K KIND              K counts from 1
//!     (grow 1 8 0 0 no)        the pass line of 01's result
//!     (unmatched COUNT)        behind local's, if any shade stands (02, 1/14)
//!     attached I J CORNER      in order
//!     cell I J CORNER          by i, then j
//!     hole I J
//!     ambiguous I J
//!
//! or, where the Rust panics, `panic MESSAGE` in place of all but the first.
//! With `--print roles` the three role lines (02, 7/14) stand behind the last
//! pass; a pass in which the Rust panicked counts for none of them. With `--print
//! result` it prints 01's result text instead, once, at the end.
//! The source does not record the cells that grow visits, so they are not
//! printed.
//!
//! FILE holds the other side's output in the same form. Where a pass there has
//! a line `excluded`, or the Rust panicked in it, the Rust's sheet is set to
//! FILE's sheet of that pass before the next one. `--order` and `--edge` set the
//! habits of the stand-in tree, `--fit` what the fit does with a residual that
//! is not finite (see kiddo/lib.rs and glue/geometry.rs).

use std::collections::{HashMap, HashSet};
use std::io::Read;
use std::panic::{catch_unwind, AssertUnwindSafe};

use nalgebra::{Point2, Vector2};
use projective_grid::geometry;
use projective_grid::shared::fill::FillParams;
use projective_grid::shared::grow::{GrowParams, GrowResult};
use projective_grid::shared::{grow_params, Given, LocalNumbers};

type Cell = (i32, i32);

enum Pass {
    Grow(GrowParams),
    Fill(FillParams),
    Local(LocalNumbers),
}

fn fail(why: &str) -> ! {
    eprintln!("oracle: {why}");
    std::process::exit(2)
}

fn float(word: &str) -> f32 {
    if word.len() != 8 {
        fail(&format!("no float: {word}"));
    }
    let value = u32::from_str_radix(word, 16).map(f32::from_bits);
    match value {
        Ok(v) if v.is_finite() => v,
        _ => fail(&format!("no finite float: {word}")),
    }
}

fn whole<T: std::str::FromStr>(word: &str) -> T {
    word.parse().unwrap_or_else(|_| fail(&format!("no whole number: {word}")))
}

fn within(value: f32, least: f32, most: f32) -> f32 {
    if value < least || value > most {
        fail(&format!("out of range: {value}"));
    }
    value
}

/// The labels behind a patch line, in their own cells, and that line's number.
struct Second {
    line: usize,
    labels: Vec<(usize, Cell)>,
}

/// 02, 3/14: puts the second set on the first one's sheet, moved by what its
/// first shared corner asks for; or gives the refusal's number.
fn join(sheet: &mut GrowResult, second: &[(usize, Cell)]) -> Result<(), u32> {
    let known = &sheet.by_corner;
    let Some((first, from)) = second.iter().find(|(corner, _)| known.contains_key(corner)) else {
        return Err(8);
    };
    let to = known[first];
    let moved = |cell: &Cell| (cell.0 + to.0 - from.0, cell.1 + to.1 - from.1);
    for (corner, cell) in second {
        let elsewhere = known.get(corner).is_some_and(|&own| own != moved(cell));
        let held = sheet.labelled.get(&moved(cell)).is_some_and(|other| other != corner);
        if elsewhere || held {
            return Err(9);
        }
    }
    let on_sheet = |c: i32| (-64..=63).contains(&c);
    if second.iter().map(|(_, cell)| moved(cell)).any(|(i, j)| !on_sheet(i) || !on_sheet(j)) {
        return Err(4);
    }
    for (corner, cell) in second {
        sheet.labelled.insert(moved(cell), *corner);
        sheet.by_corner.insert(*corner, moved(cell));
    }
    Ok(())
}

/// 02, 6/14: how much the passes want of who runs them. A role is the most that
/// it may: the dealer what is bare, the depot all but local.
const BARE: u32 = 0;
const FULL: u32 = 1;
const LOCAL: u32 = 2;

fn role(word: &str) -> u32 {
    match word {
        "dealer" => BARE,
        "depot" => FULL,
        "plant" => LOCAL,
        _ => fail(&format!("no role: {word}")),
    }
}

fn wanted(words: &[&str]) -> u32 {
    match words[0] {
        "local" => LOCAL,
        _ if words.len() > 1 => FULL,
        _ => BARE,
    }
}

/// 02, 7/14: the sums of each role, by the most that it may.
type Sums = [[usize; 4]; 3];

/// "for plant, depot, dealer", behind the last pass line.
fn role_lines(sums: &Sums) -> String {
    let line = |name: &str, most: u32| {
        let [attached, none, ambiguous, edge] = sums[most as usize];
        format!("(role {name} {attached} {none} {ambiguous} {edge})\n")
    };
    line("plant", LOCAL) + &line("depot", FULL) + &line("dealer", BARE)
}

fn add(sums: &mut Sums, by: u32, counts: [usize; 4]) {
    for (sum, count) in sums[by as usize].iter_mut().zip(counts) {
        *sum += count;
    }
}

/// A pass, and the most that who runs it may.
struct Run {
    pass: Pass,
    by: u32,
}

/// What a frame is read into: its corners, the first set's sheet, the second set,
/// the passes.
type Frame = (Given, GrowResult, Option<Second>, Vec<Run>);

/// What a refused frame is answered by: number and line.
type Refusal = (u32, usize);

/// A frame, read line by line; the brackets only part the words. The sheet is
/// that of the first set of labels. It is refused only for its as lines.
fn read_frame(text: &str) -> Result<Frame, Refusal> {
    let mut given =
        Given { positions: vec![], pitch: vec![], shades: vec![], cell: 0.0, band: 0.0 };
    let mut sheet = GrowResult::default();
    let mut passes = Vec::new();
    let mut second: Option<Second> = None;
    let mut seen: (HashSet<usize>, HashSet<Cell>) = Default::default();
    let mut may = LOCAL;
    let mut as_line = None;
    if !text.ends_with('\n') {
        fail("the last line has no end");
    }
    for (k, line) in text.lines().enumerate() {
        let words: Vec<&str> =
            line.split(['(', ')', ' ']).filter(|w| !w.is_empty()).collect();
        let expected = ["frame", "cell", "axes", "band"];
        if words.is_empty() || (k < 4 && words[0] != expected[k]) {
            fail(&format!("line {}: {line}", k + 1));
        }
        let runs = ["grow", "fill", "local"].contains(&words[0]);
        if as_line == Some(k) && !runs {
            return Err((1, k + 1));
        }
        match (words[0], words.len()) {
            ("frame", 2) if line == "(frame 1)" => {}
            ("cell", 2) => given.cell = within(float(words[1]), 1.0 / 1024.0, 16384.0),
            ("axes", 5) => {
                let part = |k: usize| within(float(words[k]), -4.0, 4.0);
                sheet.axis_i = Vector2::new(part(1), part(2));
                sheet.axis_j = Vector2::new(part(3), part(4));
            }
            ("band", 2) => given.band = within(float(words[1]), 0.0, 4.0),
            ("corner", 4) => {
                let part = |k: usize| within(float(words[k]), -16384.0, 16384.0);
                given.positions.push(Point2::new(part(1), part(2)));
                given.pitch.push(within(float(words[3]), 0.0, 16384.0));
                given.shades.push(None);
            }
            ("label", 4) => {
                let corner: usize = whole(words[1]);
                let cell: Cell = (whole(words[2]), whole(words[3]));
                let on_sheet = |c: i32| (-64..=63).contains(&c);
                if !on_sheet(cell.0) || !on_sheet(cell.1) || corner >= given.positions.len() {
                    fail(&format!("line {}: {line}", k + 1));
                }
                let (new_corner, new_cell) = (seen.0.insert(corner), seen.1.insert(cell));
                if !new_corner || !new_cell {
                    fail(&format!("line {}: {line}", k + 1));
                }
                match &mut second {
                    Some(second) => second.labels.push((corner, cell)),
                    None => {
                        sheet.labelled.insert(cell, corner);
                        sheet.by_corner.insert(corner, cell);
                    }
                }
            }
            ("patch", 1) if second.is_none() => {
                second = Some(Second { line: k + 1, labels: vec![] });
                seen = Default::default();
            }
            ("shade", 3) => {
                let (corner, kind): (usize, u8) = (whole(words[1]), whole(words[2]));
                let known = given.shades.get_mut(corner);
                match known {
                    Some(shade @ None) if kind <= 1 => *shade = Some(kind),
                    _ => fail(&format!("line {}: {line}", k + 1)),
                }
            }
            ("as", 2) => {
                may = role(words[1]);
                as_line = Some(k + 1);
            }
            _ => {
                passes.push(Run { pass: read_pass(&words), by: may });
                if wanted(&words) > may {
                    return Err((10, k + 1));
                }
            }
        }
    }
    let count = text.lines().count();
    if as_line == Some(count) {
        return Err((1, count + 1));
    }
    if count < 4 || given.positions.len() > 1024 || passes.len() > 16 {
        fail("not an accepted frame");
    }
    Ok((given, sheet, second, passes))
}

fn read_pass(words: &[&str]) -> Pass {
    let multiple = |k: usize| within(float(words[k]), 0.0, 16.0);
    let factor = |k: usize| within(float(words[k]), 0.0, 1000.0);
    let count = |k: usize, most: u32| match whole::<u32>(words[k]) {
        n if n <= most => n,
        n => fail(&format!("out of range: {n}")),
    };
    match (words[0], words.len()) {
        // Bare passes take the Rust's own defaults, grow with its boundary set to 1.25 (02, 2/14).
        ("grow", 1) => {
            let own = GrowParams::default();
            Pass::Grow(grow_params(own.attach_search_rel, own.attach_ambiguity_factor, 1.25))
        }
        ("fill", 1) => Pass::Fill(FillParams::default()),
        ("grow", 4) => Pass::Grow(grow_params(multiple(1), factor(2), multiple(3))),
        ("fill", 4) => {
            Pass::Fill(FillParams::new(multiple(1), factor(2), count(3, 64) as usize))
        }
        ("local", 6) => Pass::Local(LocalNumbers {
            search: multiple(1),
            factor: factor(2),
            rounds: count(3, 64),
            residual: multiple(4),
            depth: count(5, 4),
        }),
        _ => fail(&format!("no line of a frame: {words:?}")),
    }
}

/// 01, Sheet: a cell labelled at the pass's end lies in the outermost rings.
/// The Rust has no sheet, so its cells past the rings count as well.
fn rim(sheet: &GrowResult, rings: i32) -> &'static str {
    let near = |c: i32| c < -64 + rings || c > 63 - rings;
    if sheet.labelled.keys().any(|&(i, j)| near(i) || near(j)) {
        "yes"
    } else {
        "no"
    }
}

/// What one pass says: its line, local's with the unmatched line behind it if any
/// shade stands, its attached list, and what it adds to the sums of its role.
struct Said {
    line: String,
    attached: Vec<(Cell, usize)>,
    counts: [usize; 4],
}

/// Runs one pass.
fn run(given: &Given, sheet: &mut GrowResult, pass: &Pass) -> Said {
    let list = |cells: Vec<Cell>, corners: Vec<usize>| {
        assert_eq!(cells.len(), corners.len());
        cells.into_iter().zip(corners).collect()
    };
    match pass {
        Pass::Grow(params) => {
            let s = given.grow(sheet, params);
            let line = format!(
                "(grow {} {} {} {} {})",
                s.attached,
                s.rejected_no_candidate,
                s.rejected_ambiguous,
                s.rejected_edge,
                rim(sheet, 1)
            );
            let counts = [s.attached, s.rejected_no_candidate, s.rejected_ambiguous, s.rejected_edge];
            Said { line, attached: list(s.attached_cells, s.attached_indices), counts }
        }
        Pass::Fill(params) => {
            let s = given.fill(sheet, params);
            let line = format!("(fill {} {} {})", s.added, s.iterations, rim(sheet, 1));
            Said { line, attached: list(s.attached_cells, s.attached_indices), counts: [s.added, 0, 0, 0] }
        }
        Pass::Local(numbers) => {
            let s = given.local(sheet, numbers);
            assert_eq!(s.rejected_policy, 0);
            assert!(given.shaded() || s.rejected_label == 0);
            let residual = match s.h_residual_max_px {
                Some(r) => format!("{:08x}", r.to_bits()),
                None => "none".to_string(),
            };
            let mut line = format!(
                "(local {} {} {} {} {} {} {})",
                s.attached,
                s.rejected_no_candidate,
                s.rejected_ambiguous,
                s.rejected_edge,
                s.iterations,
                residual,
                rim(sheet, numbers.depth.max(1) as i32)
            );
            if given.shaded() {
                line.push_str(&format!("\n(unmatched {})", s.rejected_label));
            }
            let counts = [s.attached, s.rejected_no_candidate, s.rejected_ambiguous, s.rejected_edge];
            Said { line, attached: list(s.attached_cells, s.attached_indices), counts }
        }
    }
}

fn sorted<'a>(cells: impl Iterator<Item = &'a Cell>) -> Vec<Cell> {
    let mut cells: Vec<Cell> = cells.copied().collect();
    cells.sort_unstable();
    cells
}

fn print_sheet(sheet: &GrowResult, out: &mut String) {
    for (i, j) in sorted(sheet.labelled.keys()) {
        out.push_str(&format!("cell {i} {j} {}\n", sheet.labelled[&(i, j)]));
    }
    for (i, j) in sorted(sheet.holes.iter()) {
        out.push_str(&format!("hole {i} {j}\n"));
    }
    for (i, j) in sorted(sheet.ambiguous.iter()) {
        out.push_str(&format!("ambiguous {i} {j}\n"));
    }
}

/// 01's result text, with 02's role lines.
fn result_text(lines: &[String], sums: &Sums, sheet: &GrowResult) -> String {
    let mut out = String::from("(result 1)\n");
    for line in lines {
        out.push_str(line);
        out.push('\n');
    }
    out.push_str(&role_lines(sums));
    for (i, j) in sorted(sheet.labelled.keys()) {
        out.push_str(&format!("(cell ({i} {j}) {})\n", sheet.labelled[&(i, j)]));
    }
    for (i, j) in sorted(sheet.holes.iter()) {
        out.push_str(&format!("(hole ({i} {j}))\n"));
    }
    for (i, j) in sorted(sheet.ambiguous.iter()) {
        out.push_str(&format!("(ambiguous ({i} {j}))\n"));
    }
    out
}

/// The other side's sheet after one pass.
#[derive(Default)]
struct Theirs {
    excluded: bool,
    lines: Vec<String>,
}

fn read_sheets(path: &str) -> HashMap<usize, Theirs> {
    let text = std::fs::read_to_string(path).unwrap_or_else(|e| fail(&format!("{path}: {e}")));
    let mut sheets: HashMap<usize, Theirs> = HashMap::new();
    let mut pass = 0;
    for line in text.lines() {
        if let Some(rest) = line.strip_prefix("pass ") {
            pass = whole(rest.split(' ').next().unwrap_or(""));
        }
        let theirs = sheets.entry(pass).or_default();
        theirs.excluded |= line == "excluded";
        theirs.lines.push(line.to_string());
    }
    sheets
}

fn set_sheet(sheet: &mut GrowResult, theirs: &Theirs) {
    sheet.labelled.clear();
    sheet.by_corner.clear();
    sheet.holes.clear();
    sheet.ambiguous.clear();
    for line in &theirs.lines {
        let words: Vec<&str> = line.split(' ').collect();
        let cell = || -> Cell { (whole(words[1]), whole(words[2])) };
        match words[0] {
            "cell" => {
                let corner: usize = whole(words[3]);
                sheet.labelled.insert(cell(), corner);
                sheet.by_corner.insert(corner, cell());
            }
            "hole" => {
                sheet.holes.insert(cell());
            }
            "ambiguous" => {
                sheet.ambiguous.insert(cell());
            }
            _ => {}
        }
    }
}

fn main() {
    let mut sheets = HashMap::new();
    let (mut order, mut edge) = ("rising".to_string(), "at-most".to_string());
    let mut print = "passes".to_string();
    let mut args = std::env::args().skip(1);
    while let Some(arg) = args.next() {
        let value = args.next().unwrap_or_else(|| fail(&format!("{arg} wants a value")));
        match arg.as_str() {
            "--sheets" => sheets = read_sheets(&value),
            "--order" => order = value,
            "--edge" => edge = value,
            "--fit" => match value.as_str() {
                "plain" => geometry::want_finite_residuals(false),
                "finite-residuals" => geometry::want_finite_residuals(true),
                _ => fail(&format!("unknown: {value}")),
            },
            "--print" if ["passes", "roles", "result"].contains(&value.as_str()) => print = value,
            _ => fail(&format!("unknown: {arg}")),
        }
    }
    kiddo::set_habits(&order, &edge);

    let mut text = String::new();
    if let Err(e) = std::io::stdin().read_to_string(&mut text) {
        fail(&format!("standard input: {e}"));
    }
    let read = read_frame(&text).and_then(|(given, mut sheet, second, passes)| {
        if let Some(second) = second {
            join(&mut sheet, &second.labels).map_err(|number| (number, second.line))?;
        }
        Ok((given, sheet, passes))
    });
    let (given, mut sheet, passes) = match read {
        Ok(read) => read,
        Err((number, line)) => {
            println!("(refused {number} {line})");
            return;
        }
    };
    std::panic::set_hook(Box::new(|_| {}));

    let mut sums = Sums::default();
    if print == "result" {
        let mut lines = Vec::new();
        for Run { pass, by } in &passes {
            let said = run(&given, &mut sheet, pass);
            add(&mut sums, *by, said.counts);
            lines.push(said.line);
        }
        print!("{}", result_text(&lines, &sums, &sheet));
        return;
    }
    let mut out = String::new();
    for (k, Run { pass, by }) in passes.iter().enumerate() {
        let kind = match pass {
            Pass::Grow(_) => "grow",
            Pass::Fill(_) => "fill",
            Pass::Local(_) => "local",
        };
        out.push_str(&format!("pass {} {kind}\n", k + 1));
        let theirs = sheets.get(&(k + 1));
        let panicked = match catch_unwind(AssertUnwindSafe(|| run(&given, &mut sheet, pass))) {
            Ok(said) => {
                add(&mut sums, *by, said.counts);
                out.push_str(&said.line);
                out.push('\n');
                for ((i, j), corner) in said.attached {
                    out.push_str(&format!("attached {i} {j} {corner}\n"));
                }
                print_sheet(&sheet, &mut out);
                false
            }
            Err(why) => {
                let why = why.downcast_ref::<&str>().map(|s| s.to_string())
                    .or_else(|| why.downcast_ref::<String>().cloned())
                    .unwrap_or_default();
                out.push_str(&format!("panic {}\n", why.replace('\n', " ")));
                true
            }
        };
        match theirs {
            Some(theirs) if panicked || theirs.excluded => set_sheet(&mut sheet, theirs),
            None if panicked => break,
            _ => {}
        }
    }
    if print == "roles" {
        out.push_str(&role_lines(&sums));
    }
    print!("{out}");
}
