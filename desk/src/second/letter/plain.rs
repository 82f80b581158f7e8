//! The plain engine by the letter.

use super::refusals::{lowest, of_budget, of_logs, of_size, of_start, of_window};
use super::work::{codes_after, holds, result, Access};
use super::{fault_of, fetch, Instruction};
use crate::second::arithmetic::Codes;
use crate::second::fault::Fault;
use crate::second::machine::{Refusal, Registers, Status, PLAIN_LIMIT};
use crate::second::memory::Memory;
use crate::second::table::{CALL, JXX, RET};
use crate::second::window::Window;

/// The machine record; its memory is lent at each call.
#[derive(Clone, Copy, Debug, PartialEq, Eq)]
pub struct Machine {
    pub registers: Registers,
    pub codes: Codes,
    pub address: u64,
    pub status: Status,
    pub last: u64,
    pub count: u64,
    pub fault: Fault,
    pub window: Option<Window>,
}

impl Machine {
    /// A fresh start in a memory of this size.
    pub fn fresh(
        size: u64,
        registers: Registers,
        codes: Codes,
        start: u64,
        window: Option<Window>,
    ) -> Result<Machine, Refusal> {
        lowest(&Machine::start_reasons(size, start, window))?;
        Ok(Machine {
            registers,
            codes,
            address: start,
            status: Status::Aok,
            last: start,
            count: 0,
            fault: Fault::default(),
            window,
        })
    }

    /// Every refusal that applies to a fresh start.
    pub fn start_reasons(size: u64, start: u64, window: Option<Window>) -> Vec<Refusal> {
        let all = [
            of_size(size),
            of_window(window, size),
            of_start(size, start),
        ];
        all.into_iter().flatten().collect()
    }

    /// Every refusal that applies to a run; logs is empty for one without.
    pub fn reasons(&self, size: u64, budget: u64, logs: &[&[u64]]) -> Vec<Refusal> {
        let all = [
            of_size(size),
            of_budget(self.count, budget, PLAIN_LIMIT),
            of_logs(logs, budget),
            of_window(self.window, size),
        ];
        all.into_iter().flatten().collect()
    }

    /// A step is a run of 1 without a log.
    pub fn step<'a>(&mut self, memory: impl Into<Memory<'a>>) -> Result<(), Refusal> {
        let mut memory = memory.into();
        lowest(&self.reasons(memory.extent().size, 1, &[]))?;
        self.perform(&mut memory);
        Ok(())
    }

    /// A run with a log.
    pub fn run<'a>(
        &mut self,
        memory: impl Into<Memory<'a>>,
        budget: u64,
        log: &mut [u64],
    ) -> Result<(), Refusal> {
        let mut memory = memory.into();
        lowest(&self.reasons(memory.extent().size, budget, &[log]))?;
        // A stop comes last, so that the k-th performed is that of turn k - 1.
        for place in log.iter_mut().take(budget as usize) {
            if let Some(address) = self.perform(&mut memory) {
                *place = address;
            }
        }
        Ok(())
    }

    /// Performs one instruction and gives its address; none on a stopped
    /// machine, which does not change.
    fn perform(&mut self, memory: &mut Memory) -> Option<u64> {
        if self.status != Status::Aok {
            return None;
        }
        let instruction = fetch(memory, self.window, self.address);
        self.count += 1;
        self.last = self.address;
        self.status = instruction.status;
        match self.status {
            Status::Aok => self.carry_out(&instruction, memory),
            _ => self.fault = fault_of(&instruction, memory.extent(), self.window),
        }
        Some(self.last)
    }

    /// Decode, execute, memory, write back, program address. An access outside
    /// stops the machine before anything has changed.
    fn carry_out(&mut self, instruction: &Instruction, memory: &mut Memory) {
        let [a, b] = instruction
            .sources()
            .map(|source| self.registers.get(source));
        let result = result(instruction, a, b);
        let holds = holds(instruction, self.codes);
        let access = Access::of(instruction, a, result);
        if access.is_outside(memory.extent()) {
            self.status = Status::Adr;
            self.fault = Fault::default();
            return;
        }
        let loaded = access.loaded(memory);
        access.store(memory);
        self.codes = codes_after(instruction, a, b, self.codes);
        self.registers.set(instruction.result_target(holds), result);
        self.registers.set(instruction.loaded_target(), loaded);
        self.address = match instruction.code {
            JXX if holds => instruction.constant,
            CALL => instruction.constant,
            RET => loaded,
            _ => instruction.next,
        };
    }
}
