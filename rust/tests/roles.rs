//! Who runs which pass of a frame, what is refused for that, and what is counted for whom.
use projective_grid_verified::{Frame, GrowParams, LocalParams, Pass, Recovery, Refusal, RefusedFrame, Role};

const HEAD: &str = "(frame 1)
(cell 41200000)
(axes (3f800000 00000000) (00000000 3f800000))
(band 3e800000)
(corner (41200000 41200000) 00000000)
(corner (41a00000 41200000) 00000000)
(corner (41f00000 41200000) 00000000)
(label 0 (0 0))
(label 1 (1 0))
";
const ROLES: [Role; 3] = [Role::Plant, Role::Depot, Role::Dealer];
const LOCAL: &str = "(local 3eb33333 3fc00000 1 3e800000 1)";
/// The forms of a pass, the numbers of the bare ones written out among them, the last role that may run each, and the
/// numbers of its role line: grow and fill attach corner 2, and local does nothing with two labels.
const FORMS: [(&str, Role, &str); 7] = [
    ("(grow)", Role::Dealer, "1 8 0 0"),
    ("(fill)", Role::Dealer, "1 0 0 0"),
    ("(grow 3eb33333 3fc00000 3fa00000)", Role::Depot, "1 8 0 0"),
    ("(fill 3eb33333 3fc00000 1)", Role::Depot, "1 0 0 0"),
    ("(grow 3f000000 40000000 40400000)", Role::Depot, "1 8 0 0"),
    ("(fill 3f000000 40000000 64)", Role::Depot, "1 0 0 0"),
    (LOCAL, Role::Plant, "0 0 0 0"),
];

fn parse(lines: &str) -> Result<Frame, RefusedFrame> {
    Frame::parse(format!("{HEAD}{lines}").as_bytes())
}

fn refused(lines: &str, refusal: Refusal, line: u32) {
    assert_eq!(parse(lines).map(|_| ()), Err(RefusedFrame { refusal, line }), "{lines}");
}

fn as_line(role: Role) -> String {
    format!("(as {role})\n")
}

/// The text of the result, and its role lines in another place.
fn result(lines: &str) -> (String, Vec<String>) {
    let text = String::from_utf8(parse(lines).expect("accepted").recover().text()).expect("text");
    let (roles, others): (Vec<&str>, Vec<&str>) = text.lines().partition(|line| line.starts_with("(role "));
    (others.join("\n"), roles.into_iter().map(String::from).collect())
}

#[test]
fn each_role_with_each_form() {
    for role in ROLES {
        for (form, last, counts) in FORMS {
            let lines = format!("{}{form}\n", as_line(role));
            if role.number() > last.number() {
                refused(&lines, Refusal::NotPermitted, 11);
                continue;
            }
            let (frame, plain) = (parse(&lines).expect("accepted"), parse(&format!("{form}\n")).expect("accepted"));
            assert_eq!((frame.passes(), frame.roles()), (plain.passes(), &[role][..]), "{lines}");
            let (said, of) = (result(&lines), result(&format!("{form}\n")));
            assert_eq!(said.0, of.0, "{lines}");
            let counted = |by| ROLES.map(|of| format!("(role {of} {})", if of == by { counts } else { "0 0 0 0" }));
            assert_eq!((said.1, of.1), (counted(role).to_vec(), counted(Role::Plant).to_vec()), "{lines}");
        }
    }
}

#[test]
fn roles_from_pass_to_pass() {
    let [plant, depot, dealer] = ROLES;
    assert_eq!(parse("").expect("accepted").roles(), []);
    assert_eq!(parse(&format!("(grow)\n{LOCAL}\n")).expect("accepted").roles(), [plant, plant]);
    let lines = format!("{LOCAL}\n(as dealer)\n(fill)\n(grow)\n(as depot)\n(fill 3f000000 40000000 64)\n(as depot)\n(grow)\n(as plant)\n{LOCAL}\n");
    let frame = parse(&lines).expect("accepted");
    assert_eq!(frame.roles(), [plant, dealer, dealer, depot, depot, plant]);
    assert_eq!(frame.passes().len(), 6);
    // As lines are no passes: sixteen, each with its own, are not too many.
    let frame = parse(&"(as dealer)\n(grow)\n".repeat(16)).expect("accepted");
    assert_eq!(frame.roles(), [dealer; 16]);
}

#[test]
fn another_who_may_do_more_in_its_place() {
    let lines =
        |a, b| format!("{}(grow)\n(fill)\n{}(fill 3f000000 40000000 2)\n(as plant)\n{LOCAL}\n", as_line(a), as_line(b));
    let [plant, depot, dealer] = ROLES;
    for a in ROLES {
        for b in [plant, depot] {
            let (text, roles) = result(&lines(a, b));
            assert_eq!(text, result(&lines(dealer, depot)).0, "{a}, {b}");
            // Grow alone has something to attach.
            let line = |of| format!("(role {of} {})", if of == a { "1 8 0 0" } else { "0 0 0 0" });
            assert_eq!(roles, ROLES.map(line), "{a}, {b}");
        }
        refused(&lines(a, dealer), Refusal::NotPermitted, 14);
    }
}

#[test]
fn order_of_the_checks() {
    let local = |depth| format!("(local 3eb33333 3fc00000 1 3e800000 {depth})\n");
    refused("(as dealer)\n(local)\n", Refusal::Malformed, 11);
    refused(&format!("{}(as dealer)\n{}", "(grow)\n".repeat(16), local(5)), Refusal::OverLimit, 27);
    refused(&format!("(as dealer)\n{}", local(5)), Refusal::OutOfRange, 11);
    refused(&format!("(as dealer)\n{}", local(4)), Refusal::NotPermitted, 11);
    refused(&format!("(as depot)\n(grow)\n(fill)\n{}", local(4)), Refusal::NotPermitted, 13);
    // After a pass that is refused nothing is looked at, and two sets are joined only where no line is refused.
    refused(&format!("(as dealer)\n{}(as dealer)\n", local(4)), Refusal::NotPermitted, 11);
    refused(&format!("(patch)\n(label 2 (0 0))\n(as dealer)\n{}", local(4)), Refusal::NotPermitted, 13);
    refused("(patch)\n(label 2 (0 0))\n(as dealer)\n(fill)\n", Refusal::NoSharedCorner, 10);
    let text = parse(&format!("(as dealer)\n{}", local(4))).expect_err("refused");
    assert_eq!(text.text(), b"(refused 10 11)\n");
    assert_eq!(text.to_string(), "line 11: a pass may not be run by its role");
}

#[test]
fn only_a_pass_behind_an_as_line() {
    for role in ROLES.map(as_line) {
        for other in
            ["", "(as plant)\n(grow)\n", "(label 2 (2 0))\n", "(patch)\n", "(shade 0 0)\n", "(grow)", "(dig)\n"]
        {
            refused(&format!("{role}{other}"), Refusal::Malformed, 11);
        }
        refused(&format!("{role}(grow)\n(shade 0 0)\n"), Refusal::Malformed, 12);
        refused(&format!("{}{role}", "(grow)\n".repeat(16)), Refusal::Malformed, 27);
    }
    for bent in ["(as)", "(as Plant)", "(as plants)", "(as  plant)", "(as 0)", "(as plant) ", "as plant"] {
        refused(&format!("{bent}\n(grow)\n"), Refusal::Malformed, 10);
    }
}

#[test]
fn calls_refuse_no_role() {
    let frame = parse("(as dealer)\n(grow)\n").expect("accepted");
    let mut recovery: Recovery = frame.recover().into_recovery();
    let local =
        LocalParams { search_rel: 0.35, ambiguity_factor: 1.5, max_iters: 1, max_residual_rel: 0.25, extend_depth: 1 };
    assert!(recovery.local(local).is_ok());
    for role in ROLES {
        assert!(recovery.run_as(role, Pass::Local(local)).is_ok());
    }
    assert_eq!(
        recovery.roles().collect::<Vec<_>>(),
        [Role::Dealer, Role::Plant, Role::Plant, Role::Depot, Role::Dealer]
    );
    // A pass that is refused counts for nobody.
    let (text, wild) = (recovery.text(), GrowParams { attach_search_rel: f32::NAN, ..GrowParams::default() });
    assert_eq!(recovery.run_as(Role::Depot, Pass::Grow(wild)), Err(Refusal::OutOfRange));
    assert_eq!((recovery.passes_run(), recovery.text()), (5, text));
}

#[test]
fn numbers_and_names() {
    assert_eq!(ROLES.map(Role::number), [0, 1, 2]);
    assert_eq!(ROLES.map(|role| role.to_string()), ["plant", "depot", "dealer"]);
    assert_eq!(ROLES.map(Role::name), ["plant", "depot", "dealer"]);
}
