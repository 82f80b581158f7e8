//! What both engines speak of: registers, status, refusals and limits.

/// Number of registers a machine record holds.
pub const REGISTER_COUNT: usize = 15;
/// The stack pointer's register number.
pub const RSP: u8 = 4;
/// The register number that means none.
pub const NONE: u8 = 15;

/// The names of the registers, by number.
pub const REGISTER_NAMES: [&str; REGISTER_COUNT] = [
    "rax", "rcx", "rdx", "rbx", "rsp", "rbp", "rsi", "rdi", "r8", "r9", "r10", "r11", "r12", "r13",
    "r14",
];

/// The largest memory, in bytes (#109).
pub const MEMORY_LIMIT: usize = 65_536;
/// The most bytes that the program y86run holds.
pub const PROGRAM_LIMIT: usize = 4_096;
/// The most instructions a plain machine performs over all its runs.
pub const PLAIN_LIMIT: u64 = 65_536;
/// The most cycles a pipelined machine takes over all its runs.
pub const CYCLE_LIMIT: u64 = 262_145;

/// The fifteen registers of a machine record.
#[derive(Clone, Copy, Debug, Default, PartialEq, Eq)]
pub struct Registers(pub [u64; REGISTER_COUNT]);

impl Registers {
    /// The value of a register; 15 as a source reads 0.
    #[inline(always)]
    pub fn get(&self, number: u8) -> u64 {
        self.0.get(usize::from(number)).copied().unwrap_or(0)
    }

    /// Writes a register; 15 as a target writes nothing.
    #[inline(always)]
    pub fn set(&mut self, number: u8, value: u64) {
        if let Some(register) = self.0.get_mut(usize::from(number)) {
            *register = value;
        }
    }
}

/// The status of a machine or of an instruction.
#[derive(Clone, Copy, Debug, PartialEq, Eq)]
#[repr(u8)]
pub enum Status {
    Aok = 1,
    Hlt = 2,
    Adr = 3,
    Ins = 4,
}

impl Status {
    /// Document 01's number of the status.
    pub fn number(self) -> u64 {
        self as u64
    }

    /// The name as the program writes it.
    pub fn name(self) -> &'static str {
        match self {
            Status::Aok => "AOK",
            Status::Hlt => "HLT",
            Status::Adr => "ADR",
            Status::Ins => "INS",
        }
    }
}

/// Why a call is refused. A refused call changes nothing.
#[derive(Clone, Copy, Debug, PartialEq, Eq, PartialOrd, Ord)]
#[repr(u8)]
pub enum Refusal {
    /// The memory has no byte, or more than 65,536.
    Memory = 1,
    /// The register block is not 120 bytes.
    Registers = 2,
    /// The budget is 0, or leads beyond the limit.
    Budget = 3,
    /// A log is shorter than the budget, or the result block is not 40 bytes.
    Buffer = 4,
    /// The record, or the codes given at the host edge, say what cannot be.
    Record = 5,
    /// A fresh start's address is not below N (#109).
    Start = 6,
}

impl Refusal {
    /// Document 01's number of the refusal.
    pub fn number(self) -> u64 {
        self as u64
    }
}

/// Refusal 1: the memory's size.
pub fn check_memory(size: u64) -> Result<(), Refusal> {
    if size == 0 || size > MEMORY_LIMIT as u64 {
        return Err(Refusal::Memory);
    }
    Ok(())
}

/// Refusal 6: the address of a fresh start in a memory of this size. It is
/// looked at last, and only here: a run that goes on does not ask again.
pub fn check_start(size: u64, start: u64) -> Result<(), Refusal> {
    if start >= size {
        return Err(Refusal::Start);
    }
    Ok(())
}

/// Refusal 3: the budget, with what was spent before; the sum does not wrap.
pub fn check_budget(spent: u64, budget: u64, limit: u64) -> Result<(), Refusal> {
    match spent.checked_add(budget) {
        Some(end) if budget > 0 && end <= limit => Ok(()),
        _ => Err(Refusal::Budget),
    }
}

/// Refusal 4: a lent log takes one word for each unit of the budget.
pub fn check_log(log: &[u64], budget: u64) -> Result<(), Refusal> {
    if (log.len() as u64) < budget {
        return Err(Refusal::Buffer);
    }
    Ok(())
}
