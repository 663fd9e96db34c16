//! A frame, and what comes of it.
use crate::calls;
use crate::{FillParams, GrowParams, LocalParams, Pass, PassOutcome, Recovery, RefusedFrame, RoleCounts, Sheet};
use std::fmt;

/// Who runs a pass.
#[derive(Clone, Copy, Debug, PartialEq, Eq, Hash)]
pub enum Role {
    /// The plant, who may run all.
    Plant = 0,
    /// A depot, who may run any grow and any fill.
    Depot = 1,
    /// A dealer, who may run a bare grow and a bare fill.
    Dealer = 2,
}

impl Role {
    /// The three roles, in the order of a result's role lines.
    pub const ALL: [Role; 3] = [Role::Plant, Role::Depot, Role::Dealer];

    /// The role of a number, 0 to 2.
    pub(crate) fn numbered(number: u32) -> Role {
        Role::ALL[number as usize]
    }

    /// Its number, 0 to 2.
    pub fn number(self) -> u32 {
        self as u32
    }

    /// Its name, as an as line has it: `plant`, `depot` or `dealer`.
    pub fn name(self) -> &'static str {
        match self {
            Role::Plant => "plant",
            Role::Depot => "depot",
            Role::Dealer => "dealer",
        }
    }
}

impl fmt::Display for Role {
    fn fmt(&self, f: &mut fmt::Formatter<'_>) -> fmt::Result {
        f.write_str(self.name())
    }
}

/// An accepted frame: corners, settings, given labels, passes and who runs each.
#[derive(Clone, Debug)]
pub struct Frame {
    start: Recovery,
    passes: Vec<Pass>,
    roles: Vec<Role>,
}

fn pass(words: &[u32]) -> Pass {
    let float = |k: usize| f32::from_bits(words[k]);
    match words[0] {
        0 => Pass::Grow(GrowParams {
            attach_search_rel: float(1),
            attach_ambiguity_factor: float(2),
            boundary_search_factor: float(3),
        }),
        1 => Pass::Fill(FillParams {
            attach_search_rel: float(1),
            attach_ambiguity_factor: float(2),
            max_iters: words[4],
        }),
        _ => Pass::Local(LocalParams {
            search_rel: float(1),
            ambiguity_factor: float(2),
            max_iters: words[4],
            max_residual_rel: float(3),
            extend_depth: words[5],
        }),
    }
}

fn role(words: &[u32]) -> Role {
    Role::numbered(words[6])
}

impl Frame {
    /// Reads a frame.
    pub fn parse(text: &[u8]) -> Result<Frame, RefusedFrame> {
        let read = calls::read_frame(text)?;
        let passes = read.passes.chunks_exact(calls::PASS_WORDS);
        Ok(Frame {
            start: Recovery::of_parts(read.settings, read.corners, read.sheet),
            passes: passes.clone().map(pass).collect(),
            roles: passes.map(role).collect(),
        })
    }

    /// Its corners, settings and the sheet of its given labels, two sets of them joined; no pass has run.
    pub fn start(&self) -> &Recovery {
        &self.start
    }

    /// Its passes, in order.
    pub fn passes(&self) -> &[Pass] {
        &self.passes
    }

    /// Who runs each of its passes, in order. A frame is refused by [`Refusal::NotPermitted`](crate::Refusal::NotPermitted)
    /// if a pass is not open to its role. What a pass does is the same whoever runs it: of the text of the result, only the
    /// role lines depend on it.
    pub fn roles(&self) -> &[Role] {
        &self.roles
    }

    /// Runs its passes, each counted for the role that runs it.
    pub fn recover(self) -> Outcome {
        let mut recovery = self.start;
        let passes = self.passes.into_iter().zip(&self.roles).map(|(pass, &role)| {
            let done = recovery.run_as(role, pass);
            done.expect("an accepted frame is in range")
        });
        Outcome { passes: passes.collect(), roles: self.roles, recovery }
    }
}

/// What came of a frame.
#[derive(Clone, Debug)]
pub struct Outcome {
    recovery: Recovery,
    passes: Vec<PassOutcome>,
    roles: Vec<Role>,
}

impl Outcome {
    /// What each pass did, in order.
    pub fn passes(&self) -> &[PassOutcome] {
        &self.passes
    }

    /// Who ran each of them, in order: so each new cell of a pass is its role's.
    pub fn roles(&self) -> &[Role] {
        &self.roles
    }

    /// What the passes of a role did together, as its role line says it.
    pub fn counts(&self, role: Role) -> RoleCounts {
        self.recovery.counts(role)
    }

    /// The sheet as the last pass left it.
    pub fn sheet(&self) -> &Sheet {
        self.recovery.sheet()
    }

    /// The recovery, on which more passes may be run.
    pub fn into_recovery(self) -> Recovery {
        self.recovery
    }

    /// The text of the result: what the program `recover` prints for the frame.
    pub fn text(&self) -> Vec<u8> {
        let text = self.recovery.text();
        text.expect("a frame has at most 16 passes")
    }
}
