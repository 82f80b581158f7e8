//! The pipelined engine by the letter: its record and its runs.

use super::refusals::{lowest, of_budget, of_logs, of_size, of_start, of_window};
use super::Instruction;
use crate::second::arithmetic::Codes;
use crate::second::fault::Fault;
use crate::second::machine::{Refusal, Registers, Status, CYCLE_LIMIT};
use crate::second::memory::Memory;
use crate::second::pipeline::{Kinds, Logs, Settings};

/// What E holds: an instruction with the values of its sources.
#[derive(Clone, Copy, Debug, PartialEq, Eq)]
pub struct Decoded {
    pub instruction: Instruction,
    pub a: u64,
    pub b: u64,
}

/// What M holds: with its result, and whether its condition holds.
#[derive(Clone, Copy, Debug, PartialEq, Eq)]
pub struct Executed {
    pub instruction: Instruction,
    pub a: u64,
    pub result: u64,
    pub holds: bool,
}

/// What W holds: with the word loaded, and the status after the access.
#[derive(Clone, Copy, Debug, PartialEq, Eq)]
pub struct Accessed {
    pub instruction: Instruction,
    pub result: u64,
    pub holds: bool,
    pub word: u64,
    pub status: Status,
    /// Whether it wrote into the window (#113).
    pub patched: bool,
}

/// What is kept of the last instruction retired with AOK.
#[derive(Clone, Copy, Debug, PartialEq, Eq)]
pub struct Retired {
    pub instruction: Instruction,
    pub holds: bool,
    pub patched: bool,
}

/// The pipelined machine's record; its memory is lent at each call.
#[derive(Clone, Copy, Debug, PartialEq, Eq)]
pub struct Pipeline {
    /// F holds only the predicted address.
    pub predicted: u64,
    /// D, E, M and W each hold an instruction, or a bubble.
    pub d: Option<Instruction>,
    pub e: Option<Decoded>,
    pub m: Option<Executed>,
    pub w: Option<Accessed>,
    pub registers: Registers,
    pub codes: Codes,
    pub status: Status,
    pub last: u64,
    pub retired: u64,
    pub cycles: u64,
    pub kinds: Kinds,
    pub kept: Option<Retired>,
    pub settings: Settings,
    pub fault: Fault,
}

impl Pipeline {
    /// A fresh start in a memory of this size: F holds the start address and
    /// the rest are bubbles.
    pub fn fresh(
        size: u64,
        registers: Registers,
        codes: Codes,
        start: u64,
        settings: Settings,
    ) -> Result<Pipeline, Refusal> {
        lowest(&Pipeline::start_reasons(size, start, settings))?;
        Ok(Pipeline {
            predicted: start,
            d: None,
            e: None,
            m: None,
            w: None,
            registers,
            codes,
            status: Status::Aok,
            last: start,
            retired: 0,
            cycles: 0,
            kinds: Kinds::default(),
            kept: None,
            settings,
            fault: Fault::default(),
        })
    }

    /// Every refusal that applies to a fresh start.
    pub fn start_reasons(size: u64, start: u64, settings: Settings) -> Vec<Refusal> {
        let all = [
            of_size(size),
            of_settings(settings, size),
            of_start(size, start),
        ];
        all.into_iter().flatten().collect()
    }

    /// The instructions in D, E, M and W and the kept one, in this order.
    pub fn instructions(&self) -> [Option<Instruction>; 5] {
        [
            self.d,
            self.e.map(|e| e.instruction),
            self.m.map(|m| m.instruction),
            self.w.map(|w| w.instruction),
            self.kept.map(|kept| kept.instruction),
        ]
    }

    /// Every refusal that applies to a run; logs is empty for one without.
    pub fn reasons(&self, size: u64, budget: u64, logs: &[&[u64]]) -> Vec<Refusal> {
        let all = [
            of_size(size),
            of_budget(self.cycles, budget, CYCLE_LIMIT),
            of_logs(logs, budget),
            self.refusal_of_record(size),
        ];
        all.into_iter().flatten().collect()
    }

    /// Refusal 5, of the record: its instructions, its counts and its settings.
    fn refusal_of_record(&self, size: u64) -> Option<Refusal> {
        let Kinds {
            load_use,
            mispredict,
            returns,
            patch,
        } = self.kinds;
        let counts = [self.retired, load_use, mispredict, returns, patch];
        let instructions = self.instructions();
        let allowed = instructions.iter().flatten().all(Instruction::is_allowed)
            && counts.iter().all(|count| *count <= self.cycles)
            && of_settings(self.settings, size).is_none();
        (!allowed).then_some(Refusal::Record)
    }

    /// A clock is a run of 1 without logs.
    pub fn clock<'a>(&mut self, memory: impl Into<Memory<'a>>) -> Result<(), Refusal> {
        self.run_unlogged(memory, 1)
    }

    /// A run without logs.
    pub fn run_unlogged<'a>(
        &mut self,
        memory: impl Into<Memory<'a>>,
        budget: u64,
    ) -> Result<(), Refusal> {
        let mut memory = memory.into();
        lowest(&self.reasons(memory.extent().size, budget, &[]))?;
        for _ in 0..budget {
            self.advance(&mut memory);
        }
        Ok(())
    }

    /// A run with both logs: place k - 1 takes the k-th retirement.
    pub fn run<'a>(
        &mut self,
        memory: impl Into<Memory<'a>>,
        budget: u64,
        logs: Logs,
    ) -> Result<(), Refusal> {
        let mut memory = memory.into();
        let size = memory.extent().size;
        lowest(&self.reasons(size, budget, &[logs.addresses, logs.cycles]))?;
        let mut place = 0;
        for _ in 0..budget {
            let before = self.retired;
            self.advance(&mut memory);
            if self.retired > before {
                logs.addresses[place] = self.last;
                logs.cycles[place] = self.cycles;
                place += 1;
            }
        }
        Ok(())
    }
}

/// Refusal 5, of a rule number other than the three (#105), or of the window.
fn of_settings(settings: Settings, size: u64) -> Option<Refusal> {
    let of_rule = (![0, 1, 2].contains(&settings.rule)).then_some(Refusal::Record);
    of_rule.or(of_window(settings.window, size))
}
