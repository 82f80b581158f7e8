//! One replay by the engine that is asked for, with all that it tells.

use crate::Fault;
use desk::engine::{self, FullOutcome, Outcome, ReplaySet, ReplaySplit};
use desk::second;
use desk::second::replay::Chosen;

/// The numbers that a replay is given.
#[derive(Clone, Copy)]
pub struct Given {
    pub start: u64,
    pub codes: u64,
    pub budget: u64,
    /// Bytes at the front that are the program's and only read, if any (#110).
    pub program: Option<usize>,
    /// The first address and the end of the code window, if one is set (#113).
    pub window: Option<(u64, u64)>,
}

impl Given {
    /// The settings as numbers: document 01's, but for the window.
    fn chosen(&self) -> Chosen {
        let (first, end) = self.window.unwrap_or((0, 0));
        Chosen {
            windowed: u64::from(self.window.is_some()),
            first,
            end,
            ..Chosen::default()
        }
    }
}

/// What a replay tells.
#[derive(PartialEq, Eq)]
pub struct Told {
    pub outcome: Outcome,
    /// The reason of a failed fetch and the address of the byte at fault, by
    /// their numbers (#107), where the engine tells them.
    pub fault: Option<(u64, u64)>,
    /// The cycles charged behind stores into the window (#113).
    pub patch: u64,
}

/// Why a replay tells nothing.
pub enum Untold {
    /// It is refused, by this number.
    Refused(u64),
    /// The engine that this program is built with cannot do it.
    Missing(&'static str),
}

impl Untold {
    /// The fault to report, with the words of a refusal.
    pub fn fault(self, words: impl FnOnce(u64) -> String) -> Fault {
        match self {
            Untold::Refused(number) => {
                let why = words(number);
                Fault::new(Fault::REFUSED, format!("refused ({number}): {why}"))
            }
            Untold::Missing(function) => Fault::new(
                Fault::USAGE,
                format!("the engine was built without {function}; --second can do this"),
            ),
        }
    }
}

/// A replay by the engine, or for a second opinion by the second program. The
/// final registers and memory are left in the lent bytes.
pub fn replay(
    second: bool,
    memory: &mut [u8],
    registers: &mut [u8],
    given: &Given,
) -> Result<Told, Untold> {
    let (start, codes, budget) = (given.start, given.codes, given.budget);
    let chosen = given.chosen();
    if let Some(seam) = given.program {
        let replay = splitting(second).ok_or(Untold::Missing("y86_replay_split"))?;
        let (program, writable) = memory.split_at_mut(seam);
        let told = engine::full_outcome(|result| {
            replay(
                program, writable, registers, result, start, codes, budget, chosen,
            )
        });
        return told.map(Told::all).map_err(Untold::Refused);
    }
    let Some(replay) = telling(second) else {
        if given.window.is_some() {
            return Err(Untold::Missing("y86_replay_set"));
        }
        let replay = engine::replay;
        let outcome = engine::outcome(replay, memory, registers, start, codes, budget);
        return outcome.map(Told::short).map_err(Untold::Refused);
    };
    let told = engine::full_outcome(|result| {
        replay(memory, registers, result, start, codes, budget, chosen)
    });
    told.map(Told::all).map_err(Untold::Refused)
}

impl Told {
    fn all(full: FullOutcome) -> Told {
        Told {
            outcome: full.outcome,
            fault: Some((full.reason, full.fault_address)),
            patch: full.kinds[3],
        }
    }

    fn short(outcome: Outcome) -> Told {
        Told {
            outcome,
            fault: None,
            patch: 0,
        }
    }
}

/// The replay that gives the full block, where the engine has one.
fn telling(second: bool) -> Option<ReplaySet> {
    match second {
        true => Some(second::replay_set),
        false => engine::REPLAY_SET,
    }
}

/// The replay over two memories, where the engine has one.
fn splitting(second: bool) -> Option<ReplaySplit> {
    match second {
        true => Some(second::replay_split),
        false => engine::REPLAY_SPLIT,
    }
}
