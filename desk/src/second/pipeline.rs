//! The pipelined engine: five stages, one clock at a time.

use super::arithmetic::Codes;
use super::fault::Fault;
use super::flow::Flow;
use super::machine::{
    check_budget, check_log, check_memory, check_start, Refusal, Registers, Status, CYCLE_LIMIT,
};
use super::memory::Memory;
use super::stages::{Accessing, Decoding, Executing, Instruction, Writing};
use super::window::{self, Window};

/// The cycle counts kept by kind.
#[derive(Clone, Copy, Debug, Default, PartialEq, Eq)]
pub struct Kinds {
    pub load_use: u64,
    pub mispredict: u64,
    pub returns: u64,
    /// Behind stores into the window (#113).
    pub patch: u64,
}

/// The settings that a start record carries; the default is document 01's.
#[derive(Clone, Copy, Debug, Default, PartialEq, Eq)]
pub struct Settings {
    /// How jumps are predicted (#105): 0 taken; 1 conditional jumps never taken;
    /// 2 taken exactly when C is below the next address, without sign.
    pub rule: u8,
    /// Late store data (#106): rmmovq and pushq wait for a load of their address
    /// source alone, as a word loaded in M goes straight to a store in E.
    pub late: bool,
    /// Where instructions are fetched from, if not from all of memory (#113); a
    /// store into it cancels what is younger.
    pub window: Option<Window>,
}

impl Settings {
    /// The last of the three rules.
    pub const LAST_RULE: u8 = 2;

    /// Refusal 5, of the settings: a rule number other than the three, or a
    /// window that does not lie in a memory of this size.
    pub fn check(self, size: u64) -> Result<(), Refusal> {
        if self.rule > Settings::LAST_RULE {
            return Err(Refusal::Record);
        }
        window::check(self.window, size)
    }
}

/// The pipelined machine's record; its memory is lent at each call.
#[derive(Clone, Copy, Debug, PartialEq, Eq)]
pub struct Pipeline {
    /// F holds only the predicted address.
    pub predicted: u64,
    /// D, E, M and W each hold an instruction, or a bubble.
    pub d: Option<Decoding>,
    pub e: Option<Executing>,
    pub m: Option<Accessing>,
    pub w: Option<Writing>,
    pub registers: Registers,
    pub codes: Codes,
    pub status: Status,
    /// The address of the last instruction retired, or the start address.
    pub last: u64,
    pub retired: u64,
    pub cycles: u64,
    pub kinds: Kinds,
    /// The last instruction retired with AOK, for the charges.
    pub kept: Option<Instruction>,
    pub settings: Settings,
    /// Why the fetch that stopped it failed (#107).
    pub fault: Fault,
}

/// The two logs a caller lends: retirement addresses and their cycles.
pub struct Logs<'a> {
    pub addresses: &'a mut [u64],
    pub cycles: &'a mut [u64],
}

impl Pipeline {
    /// A fresh start in a memory of this size: F holds the start address and
    /// the rest are bubbles. It can meet refusals 1, 5 and 6.
    pub fn fresh(
        size: u64,
        registers: Registers,
        codes: Codes,
        start: u64,
        settings: Settings,
    ) -> Result<Pipeline, Refusal> {
        check_memory(size)?;
        settings.check(size)?;
        check_start(size, start)?;
        Ok(Pipeline {
            predicted: start,
            d: None,
            e: None,
            m: None,
            w: None,
            registers,
            codes,
            status: Status::Aok,
            last: start,
            retired: 0,
            cycles: 0,
            kinds: Kinds::default(),
            kept: None,
            settings,
            fault: Fault::default(),
        })
    }

    /// One clock: a run of 1 without logs.
    pub fn clock<'a>(&mut self, memory: impl Into<Memory<'a>>) -> Result<(), Refusal> {
        self.run(memory, 1, None)
    }

    /// Runs to a stop or to the end of the cycle budget. Place k - 1 of the
    /// logs takes the k-th retirement of this call.
    pub fn run<'a>(
        &mut self,
        memory: impl Into<Memory<'a>>,
        budget: u64,
        logs: Option<Logs>,
    ) -> Result<(), Refusal> {
        let memory = memory.into();
        check_memory(memory.extent().size)?;
        check_budget(self.cycles, budget, CYCLE_LIMIT)?;
        if let Some(logs) = &logs {
            check_log(logs.addresses, budget)?;
            check_log(logs.cycles, budget)?;
        }
        self.check_record(memory.extent().size)?;
        match logs {
            Some(logs) => self.run_logged(memory, budget, logs),
            None => self.run_unlogged(memory, budget),
        }
        Ok(())
    }

    /// The loop of a run, on a working copy of the record.
    #[inline(always)]
    fn run_loop(
        &mut self,
        (mut memory, window): (Memory, Option<Window>),
        budget: u64,
        mut retired: impl FnMut(u64, u64),
    ) {
        let mut flow = Flow::of(self);
        let (mut registers, mut fault) = (self.registers, self.fault);
        let mut left = budget;
        let running = self.status == Status::Aok;
        while left > 0 && flow.status == Status::Aok {
            if flow.advance(&mut registers, &mut memory, window) {
                retired(flow.last, flow.cycles);
            }
            left -= 1;
        }
        if running && flow.status != Status::Aok {
            fault = flow.fault(memory.extent(), window);
        }
        *self = flow.record(registers, window, fault);
    }

    fn run_unlogged(&mut self, memory: Memory, budget: u64) {
        let window = self.settings.window;
        match memory.program.is_empty() && window.is_none() {
            true => self.run_one(memory.writable, budget),
            false => self.run_loop((memory, window), budget, |_, _| {}),
        }
    }

    /// One memory without a window has a loop of its own, in which neither seam
    /// nor window is looked for.
    #[inline(never)]
    fn run_one(&mut self, memory: &mut [u8], budget: u64) {
        self.run_loop((Memory::from(memory), None), budget, |_, _| {});
    }

    fn run_logged(&mut self, memory: Memory, budget: u64, logs: Logs) {
        let mut place = 0;
        let lent = (memory, self.settings.window);
        self.run_loop(lent, budget, |address, cycle| {
            logs.addresses[place] = address;
            logs.cycles[place] = cycle;
            place += 1;
        });
    }

    /// Refusal 5, on stopped machines too.
    pub fn check_record(&self, size: u64) -> Result<(), Refusal> {
        let held = [
            self.d.map(|stage| stage.instruction),
            self.e.map(|stage| stage.instruction),
            self.m.map(|stage| stage.instruction),
            self.w.map(|stage| stage.instruction),
            self.kept,
        ];
        let kinds = self.kinds;
        let highest = self
            .retired
            .max(kinds.load_use)
            .max(kinds.mispredict)
            .max(kinds.returns)
            .max(kinds.patch);
        let instructions_known = held.iter().flatten().all(Instruction::is_known);
        if !instructions_known || highest > self.cycles {
            return Err(Refusal::Record);
        }
        self.settings.check(size)
    }
}
