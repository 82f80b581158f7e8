//! Demand 3's account, computed from the plain engine's history alone.
//!
//! Nothing here looks at the pipelined engine: what each instruction is
//! charged, and in which cycle it is due, follows from the order in which the
//! plain engine performs them.

use super::fetch::{fetch, own_bytes, Parts};
use super::machine::{Status, NONE, RSP};
use super::memory::Memory;
use super::pipeline::Settings;
use super::plain::Plain;
use super::table::{row_of, CALL, CMOV, IADDQ, JXX, MRMOVQ, OPQ, POPQ, PUSHQ, RET, RMMOVQ};
use super::window::Window;
use std::ops::Range;

/// Why an instruction is charged.
#[derive(Clone, Copy, Debug, PartialEq, Eq)]
pub enum Kind {
    LoadUse,
    Mispredict,
    Return,
    Patch,
}

impl Kind {
    /// The cycles of one charge of this kind.
    pub fn cycles(self) -> u64 {
        match self {
            Kind::LoadUse => 1,
            Kind::Mispredict => 2,
            Kind::Return | Kind::Patch => 3,
        }
    }
}

/// One performed instruction.
#[derive(Clone, Debug, PartialEq, Eq)]
pub struct Performed {
    pub address: u64,
    /// What was fetched, if its status was AOK.
    pub parts: Option<Parts>,
    /// What the instruction is charged for, by its predecessor.
    pub charge: Option<Kind>,
    /// The cycle in which it is due to retire: k + 4 and the charges of 1 to k.
    pub due: u64,
    /// The bytes it lies in, cut at the end of its part of memory.
    pub own_bytes: Range<u64>,
    /// The bytes it wrote; a stopping instruction writes none.
    pub written: Range<u64>,
    /// The status that it left.
    pub status: Status,
    /// What it charges its follower for, as far as that is its own doing.
    leaves: Leaves,
}

/// What an instruction leaves to its follower's charge.
#[derive(Clone, Copy, Debug, PartialEq, Eq)]
enum Leaves {
    Nothing,
    Loaded(u8),
    WronglyGuessed,
    Returned,
    Patched,
}

/// The account of a plain history.
#[derive(Clone, Debug, PartialEq, Eq)]
pub struct Account {
    /// The instructions performed, in order.
    pub performed: Vec<Performed>,
    /// Whether the last of them is the stopping one.
    pub stopped: bool,
    settings: Settings,
}

impl Account {
    /// The account of at most so many instructions from a record, for a
    /// pipeline with settings that are not refused, of which the record has the
    /// window; memory and record are left as the last of them left them.
    pub fn of<'a>(
        machine: &mut Plain,
        memory: impl Into<Memory<'a>>,
        most: usize,
        settings: Settings,
    ) -> Account {
        let mut memory = memory.into();
        let mut account = Account {
            performed: Vec::new(),
            stopped: machine.status != Status::Aok,
            settings,
        };
        while !account.stopped && account.performed.len() < most {
            let performed = account.perform(machine, &mut memory);
            account.performed.push(performed);
            account.stopped = machine.status != Status::Aok;
        }
        account
    }

    fn perform(&self, machine: &mut Plain, memory: &mut Memory) -> Performed {
        let before = *machine;
        let own_bytes = own_bytes(memory, before.window, before.address);
        let parts = fetch(memory, before.window, before.address).ok();
        machine.perform(memory);
        let good = parts.filter(|_| machine.status == Status::Aok);
        let previous = self.performed.last();
        let charge = previous.and_then(|previous| self.charge(previous.leaves, parts.as_ref()));
        let earlier = previous.map_or(4, |previous| previous.due);
        Performed {
            address: before.address,
            parts,
            charge,
            due: earlier + 1 + charge.map_or(0, Kind::cycles),
            own_bytes,
            written: good.map_or(0..0, |parts| written(&before, &parts)),
            status: machine.status,
            leaves: good.map_or(Leaves::Nothing, |parts| self.leaves(&before, &parts)),
        }
    }

    /// The charge of an instruction; one with a bad fetch status has no sources.
    fn charge(&self, left: Leaves, parts: Option<&Parts>) -> Option<Kind> {
        match left {
            Leaves::Nothing => None,
            Leaves::Loaded(register) => {
                let waits = |parts| waited_for(parts, self.settings.late).contains(&register);
                parts.is_some_and(waits).then_some(Kind::LoadUse)
            }
            Leaves::WronglyGuessed => Some(Kind::Mispredict),
            Leaves::Returned => Some(Kind::Return),
            Leaves::Patched => Some(Kind::Patch),
        }
    }

    /// What a performed instruction leaves, by the record as it stood before it.
    fn leaves(&self, before: &Plain, parts: &Parts) -> Leaves {
        match parts.code {
            MRMOVQ | POPQ => Leaves::Loaded(parts.ra),
            JXX if parts.function != 0 => {
                let taken = before.codes.condition(parts.function);
                match taken == self.guess(before.address, parts) {
                    true => Leaves::Nothing,
                    false => Leaves::WronglyGuessed,
                }
            }
            RET => Leaves::Returned,
            RMMOVQ | PUSHQ | CALL if self.patches(before, parts) => Leaves::Patched,
            _ => Leaves::Nothing,
        }
    }

    /// Whether a store that was performed wrote any byte of the window.
    fn patches(&self, before: &Plain, store: &Parts) -> bool {
        let written = written(before, store);
        let within = |window: Window, byte| window.first <= byte && byte < window.end;
        let touches = |window| written.clone().any(|byte| within(window, byte));
        self.settings.window.is_some_and(touches)
    }

    /// Whether the rule guesses a conditional jump taken.
    fn guess(&self, address: u64, jump: &Parts) -> bool {
        let next = address.wrapping_add(u64::from(row_of(JXX).length));
        let guesses = [true, false, jump.constant < next];
        guesses[usize::from(self.settings.rule)]
    }

    /// How many of the instructions are due by the end of a cycle.
    pub fn due_by(&self, cycle: u64) -> usize {
        self.performed
            .partition_point(|performed| performed.due <= cycle)
    }

    /// The cycles charged for one kind to the first instructions.
    pub fn charged(&self, kind: Kind, first: usize) -> u64 {
        let of_kind = |performed: &&Performed| performed.charge == Some(kind);
        let count = self.performed[..first].iter().filter(of_kind).count();
        count as u64 * kind.cycles()
    }

    /// How far the premise reaches: the largest number K such that no store
    /// among the first K instructions writes a byte of any of the next three
    /// performed. Where the history was cut short, the last three of it cannot
    /// be judged. With a window there is no premise (#113).
    pub fn premise_reach(&self) -> usize {
        let known = match self.stopped {
            true => self.performed.len(),
            false => self.performed.len().saturating_sub(3),
        };
        if self.settings.window.is_some() {
            return known;
        }
        (0..known)
            .find(|place| self.writes_ahead(*place))
            .unwrap_or(known)
    }

    fn writes_ahead(&self, place: usize) -> bool {
        let written = &self.performed[place].written;
        let next_three = self.performed[place + 1..].iter().take(3);
        next_three
            .filter(|next| !next.own_bytes.is_empty() && !written.is_empty())
            .any(|next| written.start < next.own_bytes.end && next.own_bytes.start < written.end)
    }
}

/// The sources that an instruction waits for: all that document 01 lists, but
/// with late store data (#106) of rmmovq and pushq the address source alone.
fn waited_for(parts: &Parts, late: bool) -> [u8; 2] {
    match parts.code {
        RMMOVQ if late => [parts.rb, NONE],
        PUSHQ if late => [RSP, NONE],
        CMOV => [parts.ra, NONE],
        RMMOVQ | OPQ => [parts.ra, parts.rb],
        MRMOVQ | IADDQ => [parts.rb, NONE],
        PUSHQ => [parts.ra, RSP],
        POPQ | CALL | RET => [RSP, NONE],
        _ => [NONE, NONE],
    }
}

/// The bytes a performed instruction wrote, all inside memory; writing a byte
/// with the value it had counts.
fn written(before: &Plain, parts: &Parts) -> Range<u64> {
    let at = match parts.code {
        RMMOVQ => before.registers.get(parts.rb).wrapping_add(parts.constant),
        PUSHQ | CALL => before.registers.get(RSP).wrapping_sub(8),
        _ => return 0..0,
    };
    at..at + 8
}
