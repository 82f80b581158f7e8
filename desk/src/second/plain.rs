//! The plain engine: one instruction after the other.

use super::arithmetic::{operate, Codes, ADD};
use super::fault::{Fault, Stop};
use super::fetch::{fetch, Parts};
use super::machine::{
    check_budget, check_log, check_memory, check_start, Refusal, Registers, Status, PLAIN_LIMIT,
    RSP,
};
use super::memory::Memory;
use super::table::{row_of, CALL, CMOV, IADDQ, IRMOVQ, JXX, MRMOVQ, OPQ, POPQ, PUSHQ, RET, RMMOVQ};
use super::window::{self, Window};

/// The plain machine's record; its memory is lent at each call.
#[derive(Clone, Copy, Debug, PartialEq, Eq)]
pub struct Plain {
    pub registers: Registers,
    pub codes: Codes,
    /// The program address.
    pub address: u64,
    pub status: Status,
    /// The address of the last instruction performed, or the start address.
    pub last: u64,
    /// Instructions performed so far.
    pub count: u64,
    /// Why the fetch that stopped it failed (#107).
    pub fault: Fault,
    /// Where instructions are fetched from, if not from all of memory (#113).
    pub window: Option<Window>,
}

impl Plain {
    /// A fresh start in a memory of this size.
    pub fn fresh(
        size: u64,
        registers: Registers,
        codes: Codes,
        start: u64,
        window: Option<Window>,
    ) -> Result<Plain, Refusal> {
        check_memory(size)?;
        window::check(window, size)?;
        check_start(size, start)?;
        Ok(Plain {
            registers,
            codes,
            address: start,
            status: Status::Aok,
            last: start,
            count: 0,
            fault: Fault::default(),
            window,
        })
    }

    /// One step: a run of 1 without a log.
    pub fn step<'a>(&mut self, memory: impl Into<Memory<'a>>) -> Result<(), Refusal> {
        self.run(memory, 1, None)
    }

    /// Runs to a stop or to the end of the budget. The log takes the address
    /// of the k-th instruction of this call at place k - 1.
    pub fn run<'a>(
        &mut self,
        memory: impl Into<Memory<'a>>,
        budget: u64,
        mut log: Option<&mut [u64]>,
    ) -> Result<(), Refusal> {
        let mut memory = memory.into();
        check_memory(memory.extent().size)?;
        check_budget(self.count, budget, PLAIN_LIMIT)?;
        if let Some(log) = &log {
            check_log(log, budget)?;
        }
        window::check(self.window, memory.extent().size)?;
        for place in 0..budget as usize {
            if self.status != Status::Aok {
                break;
            }
            self.perform(&mut memory);
            if let Some(log) = &mut log {
                log[place] = self.last;
            }
        }
        Ok(())
    }

    /// Performs one instruction on a running machine. A stopping one changes
    /// no register, byte or code, and leaves the program address.
    pub fn perform(&mut self, memory: &mut Memory) {
        let fetched = fetch(memory, self.window, self.address);
        let outcome = fetched.and_then(|parts| self.carry_out(memory, &parts));
        self.count += 1;
        self.last = self.address;
        match outcome {
            Ok(next) => self.address = next,
            Err(stop) => {
                let end = memory.extent().code_end(self.address, self.window);
                self.status = stop.status;
                self.fault = Fault {
                    reason: stop.reason,
                    address: stop.reason.address(self.address, end),
                };
            }
        }
    }

    /// Carries out an instruction fetched with AOK and gives the next program
    /// address. Each arm makes its access first, so that a failing one leaves
    /// everything as it was.
    fn carry_out(&mut self, memory: &mut Memory, parts: &Parts) -> Result<u64, Stop> {
        let (ra, rb, constant) = (parts.ra, parts.rb, parts.constant);
        let (a, b) = (self.registers.get(ra), self.registers.get(rb));
        let next = self
            .address
            .wrapping_add(u64::from(row_of(parts.code).length));
        match parts.code {
            CMOV if self.codes.condition(parts.function) => self.registers.set(rb, a),
            IRMOVQ => self.registers.set(rb, constant),
            RMMOVQ => store(memory, b.wrapping_add(constant), a)?,
            MRMOVQ => {
                let loaded = load(memory, b.wrapping_add(constant))?;
                self.registers.set(ra, loaded);
            }
            OPQ => self.compute(rb, operate(parts.function, a, b)),
            IADDQ => self.compute(rb, operate(ADD, constant, b)),
            JXX if self.codes.condition(parts.function) => return Ok(constant),
            CALL => {
                self.push(memory, next)?;
                return Ok(constant);
            }
            RET => return self.pop(memory),
            PUSHQ => self.push(memory, a)?,
            POPQ => {
                let loaded = self.pop(memory)?;
                self.registers.set(ra, loaded);
            }
            _ => {}
        }
        Ok(next)
    }

    /// Takes a result and the codes that it sets.
    fn compute(&mut self, target: u8, (result, codes): (u64, Codes)) {
        self.registers.set(target, result);
        self.codes = codes;
    }

    /// Stores a word below the top of the stack, then lowers rsp.
    fn push(&mut self, memory: &mut Memory, value: u64) -> Result<(), Stop> {
        let below = self.registers.get(RSP).wrapping_sub(8);
        store(memory, below, value)?;
        self.registers.set(RSP, below);
        Ok(())
    }

    /// Loads the word at the top of the stack, then raises rsp.
    fn pop(&mut self, memory: &Memory) -> Result<u64, Stop> {
        let top = self.registers.get(RSP);
        let loaded = load(memory, top)?;
        self.registers.set(RSP, top.wrapping_add(8));
        Ok(loaded)
    }
}

fn load(memory: &Memory, address: u64) -> Result<u64, Stop> {
    memory.load(address).ok_or(Stop::ACCESS)
}

fn store(memory: &mut Memory, address: u64, value: u64) -> Result<(), Stop> {
    memory.store(address, value).ok_or(Stop::ACCESS)
}
