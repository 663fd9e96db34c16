//! Below the types: every wrong label box, handed to each pass, with any sheet, number of corners and places; the places
//! that the reader is lent for passes, every one of them; and the words of outcomes, with what is written of their roles.
use super::{lent, pass, read_lent, write_piece, Corners, Done, LINES, OUTCOME_WORDS, ROLE_WORD};
use crate::sheet::PLACES;
use crate::{Corner, FillParams, GrowParams, LocalParams, Pass, Refusal, RefusedFrame, Settings, MAX_CORNERS};

const SETTINGS: Settings = Settings { cell_size: 10.0, axis_i: [1.0, 0.0], axis_j: [0.0, 1.0], edge_length_tol: 0.25 };
const LOCAL: LocalParams =
    LocalParams { search_rel: 0.35, ambiguity_factor: 1.5, max_iters: 1, max_residual_rel: 0.5, extend_depth: 1 };
const CORNERS: usize = 4;
const MARKS: u16 = 0xc000;
const UNTOUCHED: [i32; 3] = [77; 3];

/// A row of corners.
fn corners(count: usize) -> Corners {
    let corner = |k| Corner { x: 10.0 * k as f32, y: 0.0, pitch: 0.0, shade: None };
    Corners::new(&(0..count).map(corner).collect::<Vec<_>>())
}

fn passes() -> [Pass; 3] {
    [Pass::Grow(GrowParams::default()), Pass::Fill(FillParams::default()), Pass::Local(LOCAL)]
}

/// A sheet with marks at two places and these words at those.
fn sheet(words: &[(usize, u16)]) -> Vec<u16> {
    let mut places = vec![0; PLACES];
    for &(place, word) in [(5, MARKS), (PLACES - 5, MARKS)].iter().chain(words) {
        places[place] = word;
    }
    places
}

/// Corners 0 and 2 at (0, 0) and (2, 0).
fn labelled() -> Vec<u16> {
    sheet(&[(64 * 128 + 64, 1), (66 * 128 + 64, MARKS | 3)])
}

/// With a corner that there is not, and with a corner on two places.
fn faulty() -> [(Vec<u16>, u32); 2] {
    let stranger = sheet(&[(64 * 128 + 64, 1), (3, CORNERS as u16 + 1)]);
    let doubled = sheet(&[(64 * 128 + 64, 1), (100 * 128 + 70, 1)]);
    [(stranger, 5), (doubled, 6)]
}

/// The box that a search of the sheet finds, as the library takes it.
fn searched(places: &[u16]) -> [i32; 5] {
    let cells = places.iter().enumerate().filter(|(_, &word)| word & !MARKS != 0);
    let cells: Vec<(i32, i32)> = cells.map(|(p, _)| ((p / 128) as i32 - 64, (p % 128) as i32 - 64)).collect();
    let ends = |lines: Vec<i32>| Some([*lines.iter().min()?, *lines.iter().max()?]);
    let all = |line: fn(&(i32, i32)) -> i32| ends(cells.iter().map(line).collect());
    match (all(|c| c.0), all(|c| c.1)) {
        (Some([low_i, high_i]), Some([low_j, high_j])) => [0, low_i, high_i, low_j, high_j],
        _ => [1, 0, 0, 0, 0],
    }
}

/// Every wrong box where that is right: each number off by one and at either end, the other mark, with these numbers and with
/// zeros, and marks that are none.
fn wrong(right: [i32; 5]) -> Vec<[i32; 5]> {
    let with = |place: usize, number: i32| {
        let mut around = right;
        around[place] = number;
        around
    };
    let mut all: Vec<_> = [1 - right[0], 2, -1, i32::MIN].map(|mark| with(0, mark)).into();
    if right[0] == 0 {
        all.push([1, 0, 0, 0, 0]);
        all.extend((1..5).flat_map(|k| [right[k] - 1, right[k] + 1, i32::MIN, i32::MAX].map(|number| with(k, number))));
    }
    all
}

/// A pass of so many corners that is lent these places: its answer, and all that it was lent.
fn answer(count: usize, p: &Pass, places: &[u16], around: &[i32]) -> (u32, Vec<u16>, Vec<i32>, Done) {
    let c = corners(count);
    let (mut places, mut around, mut b) = (places.to_vec(), around.to_vec(), lent(&c, p));
    let answer = pass(&c, &SETTINGS, p, &mut places, &mut around, &mut b);
    (answer, places, around, b)
}

/// The number of the refusal of a pass; all that it is lent has to be as it was.
fn refusal(count: usize, p: &Pass, places: &[u16], around: &[i32]) -> u32 {
    let (answer, places_left, around_left, b) = answer(count, p, places, around);
    assert!(places_left == places, "{p:?}, {around:?}: the sheet was changed");
    assert_eq!(around_left, around, "{p:?}");
    assert_eq!(b, lent(&corners(count), p), "{p:?}, {around:?}");
    answer
}

/// That box, and three places more.
fn longer(around: [i32; 5]) -> Vec<i32> {
    [&around[..], &UNTOUCHED].concat()
}

#[test]
fn every_wrong_box() {
    let faulty = faulty().map(|(places, _)| places);
    for places in [labelled(), sheet(&[])].iter().chain(&faulty) {
        for p in &passes() {
            for around in wrong(searched(places)) {
                assert_eq!(refusal(CORNERS, p, places, &longer(around)), 3, "{p:?}, {around:?}");
                assert_eq!(refusal(MAX_CORNERS + 1, p, places, &around), 2, "{p:?}, {around:?}");
            }
        }
    }
}

#[test]
fn fewer_than_five_places() {
    for places in [labelled(), sheet(&[])] {
        let right = searched(&places);
        for p in &passes() {
            for around in [&[right][..], &wrong(right)].concat() {
                for count in 0..5 {
                    assert_eq!(refusal(CORNERS, p, &places, &around[..count]), 7, "{p:?}, {around:?}");
                    assert_eq!(refusal(MAX_CORNERS + 1, p, &places, &around[..count]), 7, "{p:?}, {around:?}");
                }
            }
        }
    }
}

#[test]
fn labels_are_tried_behind_the_box() {
    for (places, number) in faulty() {
        for p in &passes() {
            assert_eq!(refusal(CORNERS, p, &places, &longer(searched(&places))), number, "{p:?}");
        }
    }
}

#[test]
fn right_boxes() {
    let numbers = [[0; 4], [1, 2, 3, 4], [i32::MIN, i32::MAX, i32::MAX, i32::MIN], [63, -64, 63, -64]];
    let empty = numbers.map(|[a, b, c, d]| (sheet(&[]), [1, a, b, c, d]));
    for (places, around) in [&empty[..], &[(labelled(), [0, 0, 2, 0, 0])]].concat() {
        for p in &passes() {
            let (answer, places, around_left, _) = answer(CORNERS, p, &places, &longer(around));
            assert_eq!(answer, 0, "{p:?}, {around:?}");
            assert_eq!(around_left, longer(searched(&places)), "{p:?}, {around:?}");
        }
    }
    // Grow attaches corners 1 and 3 there.
    assert_eq!(answer(CORNERS, &passes()[0], &labelled(), &[0, 0, 2, 0, 0]).2, [0, 0, 3, 0, 0]);
}

/// The front of a frame; its fifth line is a pass or an as line.
const HEAD: &str = "(frame 1)\n(cell 41200000)\n(axes (3f800000 00000000) (00000000 3f800000))\n(band 3e800000)\n";
/// More places than any frame needs.
const MANY: [u32; 115] = [77; 115];

/// The words of a bare grow, a bare fill and a local pass that this role runs.
fn words(role: u32) -> [[u32; 7]; 3] {
    [
        [0, 0x3eb3_3333, 0x3fc0_0000, 0x3fa0_0000, 0, 0, role],
        [1, 0x3eb3_3333, 0x3fc0_0000, 0, 1, 0, role],
        [2, 0x3f00_0000, 0x4000_0000, 0x3e80_0000, 7, 2, role],
    ]
}

#[test]
fn seven_words_for_each_pass() {
    let [grow, fill, local] = ["(grow)\n", "(fill)\n", "(local 3f000000 40000000 7 3e800000 2)\n"];
    let full = "(as dealer)\n(fill)\n(as plant)\n(fill)\n".repeat(8);
    let [plant, depot, dealer] = [0, 1, 2].map(words);
    let frames = [
        (String::new(), vec![]),
        ([grow, fill, local].concat(), plant.to_vec()),
        ([grow, "(as dealer)\n", grow, fill].concat(), vec![plant[0], dealer[0], dealer[1]]),
        (
            ["(as depot)\n", fill, grow, "(as plant)\n", local, "(as dealer)\n", fill].concat(),
            vec![depot[1], depot[0], plant[2], dealer[1]],
        ),
        (full, [dealer[1], plant[1]].repeat(8)),
    ];
    for (lines, expected) in frames {
        let (text, expected) = (format!("{HEAD}{lines}"), expected.concat());
        for count in [112, 115] {
            let mut places = MANY;
            let read = read_lent(text.as_bytes(), &mut places[..count]).expect("accepted");
            assert_eq!(read.passes, expected, "{lines}");
            let (written, left) = places.split_at(expected.len());
            assert_eq!(written, expected, "{lines}");
            assert!(left.iter().all(|&place| place == 77), "{lines}: {left:?}");
        }
        for count in [0, 1, 7, 96, 111] {
            let mut places = MANY;
            let refused = read_lent(text.as_bytes(), &mut places[..count]).err();
            assert_eq!(refused, Some(RefusedFrame { refusal: Refusal::BufferTooShort, line: 0 }), "{lines}");
            assert_eq!(places, MANY, "{lines}");
        }
    }
}

#[test]
fn a_refused_frame_has_no_words() {
    let (bare, written_out) = ("(as dealer)\n(grow)\n", "(grow 3eb33333 3fc00000 3fa00000)\n");
    let not_yours = format!("{bare}{written_out}");
    for (lines, number, line) in [("(as dealer)\n", 1, 6), (&not_yours, 10, 7), ("(as depot)\n(local)\n", 1, 6)] {
        let mut places = MANY;
        let refused = read_lent(format!("{HEAD}{lines}").as_bytes(), &mut places).err().expect("refused");
        assert_eq!((refused.refusal.number(), refused.line), (number, line), "{lines}");
        assert_eq!(places, MANY, "{lines}");
    }
}

#[test]
fn a_pass_writes_the_plant() {
    for p in &passes() {
        let c = corners(CORNERS);
        let (mut places, mut around, mut b) = (labelled(), [0, 0, 2, 0, 0], lent(&c, p));
        b.words = [77; OUTCOME_WORDS];
        assert_eq!(pass(&c, &SETTINGS, p, &mut places, &mut around, &mut b), 0, "{p:?}");
        assert_eq!(b.words[ROLE_WORD], 0, "{p:?}");
        assert!(!b.words.contains(&77), "{p:?}: {:?}", b.words);
    }
}

/// The words of a grow, a fill and a local pass, run by these. No fill has the three behind its first count, which are let
/// through and count for nothing.
fn outcomes(roles: [u32; 3]) -> Vec<u32> {
    let [a, b, c] = roles;
    let grow = [0, 1, 8, 2, 3, 0, 0, 0, 0, 0, 0, a];
    let fill = [1, 30, 50, 60, 70, 2, 0, 0, 1, 0, 0, b];
    let local = [2, 200, 300, 400, 500, 1, 0, 0, 0, 1, 6, c];
    [grow, fill, local].concat()
}

/// What each adds to its role: attached, no candidate, ambiguous and edge.
const ADDED: [[u32; 4]; 3] = [[1, 8, 2, 3], [30, 0, 0, 0], [200, 300, 400, 500]];
/// The lines of their result: the first one, those of the passes, and, behind those of the roles, those of `labelled()`.
const ABOVE: [&str; 4] =
    ["(result 1)\n", "(grow 1 8 2 3 no)\n", "(fill 30 2 yes)\n", "(local 200 300 400 500 1 none no)\n(unmatched 6)\n"];
const BELOW: &str = "(cell (0 0) 0)\n(cell (2 0) 2)\n(hole (-64 -59))\n(hole (2 0))\n(hole (63 59))\n\
                     (ambiguous (-64 -59))\n(ambiguous (2 0))\n(ambiguous (63 59))\n";

/// The role lines of outcomes that these ran.
fn role_lines(roles: [u32; 3]) -> [String; 3] {
    let sum = |role, k: usize| -> u32 { (0..3).filter(|&m| roles[m] == role).map(|m| ADDED[m][k]).sum() };
    [(0, "plant"), (1, "depot"), (2, "dealer")].map(|(role, name)| {
        format!("(role {name} {} {} {} {})\n", sum(role, 0), sum(role, 1), sum(role, 2), sum(role, 3))
    })
}

/// The piece from this line on: its text, and the line behind it.
fn piece(passes: usize, words: &[u32], line: usize, room: usize) -> Result<(String, usize), Refusal> {
    let mut bytes = vec![b'?'; room];
    let written = write_piece(CORNERS, passes, words, &labelled(), line, &mut bytes);
    let (text, left) = bytes.split_at(written.as_ref().map_or(0, |written| written.0));
    assert!(left.iter().all(|&byte| byte == b'?'), "line {line}: a byte behind the piece was changed");
    written.map(|(_, next)| (String::from_utf8(text.to_vec()).expect("text"), next))
}

fn all_roles() -> impl Iterator<Item = [u32; 3]> {
    (0..27).map(|k| [k % 3, k / 3 % 3, k / 9])
}

#[test]
fn each_outcome_under_each_role() {
    for roles in all_roles() {
        let words = outcomes(roles);
        for room in [128, 300, 1 << 16] {
            let (mut text, mut line) = (String::new(), 0);
            while line < 3 + LINES {
                let (part, next) = piece(3, &words, line, room).expect("written");
                assert!(next > line, "{roles:?}: from line {line} on {next}");
                text += &part;
                line = next;
            }
            assert_eq!(line, 3 + LINES);
            assert_eq!(text, ABOVE.concat() + &role_lines(roles).concat() + BELOW, "{roles:?}");
        }
    }
}

#[test]
fn each_role_has_a_line() {
    for roles in all_roles() {
        let words = outcomes(roles);
        let lines: Vec<String> = ABOVE.map(String::from).into_iter().chain(role_lines(roles)).collect();
        for (line, text) in lines.iter().enumerate() {
            assert_eq!(piece(3, &words, line, 128), Ok((text.clone(), line + 1)));
            // The next line stands behind it where 128 bytes are left.
            let (next, room) = (lines.get(line + 1), 128 + text.len());
            assert_eq!(piece(3, &words, line, room - 1), Ok((text.clone(), line + 1)));
            if let Some(next) = next {
                assert_eq!(piece(3, &words, line, room), Ok((format!("{text}{next}"), line + 2)));
            }
        }
        let behind = piece(3, &words, 7, 1 << 16);
        assert_eq!(behind, Ok((BELOW.to_string(), 3 + LINES)));
    }
    // Without a pass they stand behind the first line.
    let none = "(result 1)\n(role plant 0 0 0 0)\n(role depot 0 0 0 0)\n(role dealer 0 0 0 0)\n";
    assert_eq!(piece(0, &[], 0, 1 << 16), Ok((none.to_string() + BELOW, LINES)));
    assert_eq!(piece(0, &[], 2, 128), Ok(("(role depot 0 0 0 0)\n".to_string(), 3)));
}

#[test]
fn the_largest_sums() {
    let grow = [0, 1 << 20, 1 << 20, 1 << 20, 1 << 20, 0, 0, 0, 0, 0, 0, 2];
    let (text, next) = piece(16, &grow.repeat(16), 17, 1 << 16).expect("written");
    let sums = "(role plant 0 0 0 0)\n(role depot 0 0 0 0)\n(role dealer 16777216 16777216 16777216 16777216)\n";
    assert_eq!((text, next), (sums.to_string() + BELOW, 16 + LINES));
}

#[test]
fn words_and_lines_that_are_refused() {
    for (k, role) in (0..3).flat_map(|k| [3, 4, 255, u32::MAX].map(|role| (k, role))) {
        let mut words = outcomes([0, 1, 2]);
        words[OUTCOME_WORDS * k + ROLE_WORD] = role;
        assert_eq!(piece(3, &words, 0, 128), Err(Refusal::OutOfRange));
        assert_eq!(piece(3, &words, 0, 127), Err(Refusal::BufferTooShort));
        assert_eq!(piece(3, &words[..35], 0, 128), Err(Refusal::BufferTooShort));
        assert_eq!(piece(17, &words.repeat(6), 0, 128), Err(Refusal::OverLimit));
        // That of a pass behind the last is not looked at.
        assert!(piece(k, &words, 0, 128).is_ok());
    }
    let words = outcomes([0, 1, 2]);
    assert_eq!(piece(3, &words[..35], 0, 128), Err(Refusal::BufferTooShort));
    assert_eq!(piece(3, &words, 3 + LINES, 128), Ok((String::new(), 3 + LINES)));
    assert_eq!(piece(3, &words, 3 + LINES + 1, 128), Err(Refusal::OutOfRange));
    assert_eq!(LINES, 49_156);
}
