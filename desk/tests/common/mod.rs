//! What the tests share: short ways to start the second program's two
//! engines, and counts.
#![allow(dead_code)]

pub mod reasons;
pub mod seams;
pub mod settings;
pub mod tally;
pub mod windows;

use desk::second::arithmetic::Codes;
use desk::second::machine::{Registers, RSP};
use desk::second::pipeline::{Logs, Pipeline, Settings};
use desk::second::plain::Plain;

/// The codes given as 4ZF + 2SF + OF.
pub fn codes(number: u64) -> Codes {
    Codes::from_number(number).expect("codes up to 7")
}

/// Registers that are 0 but for some.
pub fn registers(given: &[(u8, u64)]) -> Registers {
    let mut registers = Registers::default();
    for (number, value) in given {
        registers.set(*number, *value);
    }
    registers
}

/// A fresh start of the plain engine, inside its memory.
pub fn plain(memory: &[u8], given: Registers, codes: Codes, start: u64) -> Plain {
    Plain::fresh(memory.len() as u64, given, codes, start, None).expect("a start")
}

/// A fresh start of the pipelined engine, inside its memory, with document 01's
/// settings.
pub fn pipeline(memory: &[u8], given: Registers, codes: Codes, start: u64) -> Pipeline {
    let size = memory.len() as u64;
    Pipeline::fresh(size, given, codes, start, Settings::default()).expect("a start")
}

/// What a whole pipelined run leaves.
pub struct Ran {
    pub machine: Pipeline,
    pub memory: Vec<u8>,
    pub addresses: Vec<u64>,
    pub cycles: Vec<u64>,
}

impl Ran {
    /// The three kinds: load-use, mispredict, return.
    pub fn kinds(&self) -> (u64, u64, u64) {
        let kinds = self.machine.kinds;
        (kinds.load_use, kinds.mispredict, kinds.returns)
    }
}

/// A pipelined run of at most 4,000 cycles from address 0, ZF=1.
pub fn run_pipeline(image: &[u8], given: Registers) -> Ran {
    run_with(image, given, Settings::default())
}

/// The same with any settings.
pub fn run_with(image: &[u8], given: Registers, settings: Settings) -> Ran {
    let mut memory = image.to_vec();
    let mut machine = pipeline(&memory, given, codes(4), 0);
    machine.settings = settings;
    let (mut addresses, mut cycles) = (vec![0; 4_000], vec![0; 4_000]);
    let logs = Logs {
        addresses: &mut addresses,
        cycles: &mut cycles,
    };
    machine.run(&mut memory, 4_000, Some(logs)).expect("a run");
    addresses.truncate(machine.retired as usize);
    cycles.truncate(machine.retired as usize);
    Ran {
        machine,
        memory,
        addresses,
        cycles,
    }
}

/// A plain run of at most 4,000 instructions from address 0, ZF=1.
pub fn run_plain(image: &[u8], given: Registers) -> (Plain, Vec<u8>) {
    let mut memory = image.to_vec();
    let mut machine = plain(&memory, given, codes(4), 0);
    machine.run(&mut memory, 4_000, None).expect("a run");
    (machine, memory)
}

/// The stack pointer of a record's registers.
pub fn rsp(registers: &Registers) -> u64 {
    registers.get(RSP)
}

/// The word at an address inside memory.
pub fn word(memory: &[u8], address: usize) -> u64 {
    let bytes = &memory[address..address + 8];
    u64::from_le_bytes(bytes.try_into().expect("eight bytes"))
}
