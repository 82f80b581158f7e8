//! The host edge's replay, by the second program.

use super::arithmetic::Codes;
use super::machine::{check_budget, check_memory, CYCLE_LIMIT};
use super::machine::{Refusal, Registers, REGISTER_COUNT};
use super::memory::Memory;
use super::pipeline::{Pipeline, Settings};
use super::window::Window;

/// Bytes in the register block: fifteen words.
pub const REGISTER_BYTES: usize = 8 * REGISTER_COUNT;
/// Bytes in the result block: five words.
pub const RESULT_BYTES: usize = 40;
/// Bytes in the full result block: eleven words.
pub const FULL_BYTES: usize = 88;

/// The settings of a replay, as the numbers that an exported function takes.
#[derive(Clone, Copy, Debug, Default, PartialEq, Eq)]
pub struct Chosen {
    /// The prediction rule, 0 to 2 (#105).
    pub rule: u64,
    /// 1 for late store data (#106), else 0.
    pub late: u64,
    /// 1 where a code window is set, else 0; its first address and its end.
    pub windowed: u64,
    pub first: u64,
    pub end: u64,
}

impl Chosen {
    /// The settings that the numbers mean; others are refusal 5. Without a
    /// window its two addresses are not looked at.
    fn settings(self) -> Result<Settings, Refusal> {
        let rule = u8::try_from(self.rule).map_err(|_| Refusal::Record)?;
        if self.late > 1 || self.windowed > 1 {
            return Err(Refusal::Record);
        }
        let window = Window {
            first: self.first,
            end: self.end,
        };
        Ok(Settings {
            rule,
            late: self.late == 1,
            window: (self.windowed == 1).then_some(window),
        })
    }
}

/// One pipelined run without logs from a fresh start. The final registers and
/// memory are left in the lent bytes; the result words are status, last
/// address, codes, retired, cycles. Answers 0 or the number of the refusal.
pub fn replay(
    memory: &mut [u8],
    registers: &mut [u8],
    result: &mut [u8],
    start: u64,
    codes: u64,
    budget: u64,
) -> u64 {
    match replay_to_record(memory, registers, result, start, codes, budget) {
        Ok(_) => 0,
        Err(refusal) => refusal.number(),
    }
}

/// The same, with the final record, which says more than the result words.
pub fn replay_to_record(
    memory: &mut [u8],
    registers: &mut [u8],
    result: &mut [u8],
    start: u64,
    codes: u64,
    budget: u64,
) -> Result<Pipeline, Refusal> {
    let asked = Asked {
        start,
        codes,
        budget,
        chosen: Chosen::default(),
    };
    let machine = asked.run(memory.into(), registers, (result.len(), RESULT_BYTES))?;
    write_words(result, &full_words(&machine));
    Ok(machine)
}

/// The same with settings and the full block of eleven words: those five, then
/// the cycles by kind (load-use, mispredict, return, patch), the reason of a
/// failed fetch and the address of the byte at fault (#107).
pub fn replay_set(
    memory: &mut [u8],
    registers: &mut [u8],
    result: &mut [u8],
    start: u64,
    codes: u64,
    budget: u64,
    chosen: Chosen,
) -> u64 {
    let asked = Asked {
        start,
        codes,
        budget,
        chosen,
    };
    asked.answer(memory.into(), registers, result)
}

/// The same over two memories (#110): program bytes, and writable bytes behind
/// them, which take what the run leaves.
#[allow(clippy::too_many_arguments)]
pub fn replay_split(
    program: &[u8],
    writable: &mut [u8],
    registers: &mut [u8],
    result: &mut [u8],
    start: u64,
    codes: u64,
    budget: u64,
    chosen: Chosen,
) -> u64 {
    let asked = Asked {
        start,
        codes,
        budget,
        chosen,
    };
    asked.answer(Memory { program, writable }, registers, result)
}

/// The numbers that a replay is given.
struct Asked {
    start: u64,
    codes: u64,
    budget: u64,
    chosen: Chosen,
}

impl Asked {
    /// Runs and leaves the full block; answers 0 or the number of the refusal.
    fn answer(&self, memory: Memory, registers: &mut [u8], result: &mut [u8]) -> u64 {
        match self.run(memory, registers, (result.len(), FULL_BYTES)) {
            Ok(machine) => {
                write_words(result, &full_words(&machine));
                0
            }
            Err(refusal) => refusal.number(),
        }
    }

    /// Refuses, or runs and leaves the final registers; the lengths are those
    /// of the result block, as it is and as it has to be.
    fn run(
        &self,
        memory: Memory,
        registers: &mut [u8],
        (length, wanted): (usize, usize),
    ) -> Result<Pipeline, Refusal> {
        let size = memory.extent().size;
        check_memory(size)?;
        check_length(registers.len(), REGISTER_BYTES, Refusal::Registers)?;
        check_budget(0, self.budget, CYCLE_LIMIT)?;
        check_length(length, wanted, Refusal::Buffer)?;
        let codes = Codes::from_number(self.codes).ok_or(Refusal::Record)?;
        let settings = self.chosen.settings()?;
        let given = read_registers(registers);
        let mut machine = Pipeline::fresh(size, given, codes, self.start, settings)?;
        machine.run(memory, self.budget, None)?;
        write_words(registers, &machine.registers.0);
        Ok(machine)
    }
}

/// The words of the full block, of which the short one has the first five.
fn full_words(machine: &Pipeline) -> [u64; 11] {
    let kinds = machine.kinds;
    [
        machine.status.number(),
        machine.last,
        machine.codes.number(),
        machine.retired,
        machine.cycles,
        kinds.load_use,
        kinds.mispredict,
        kinds.returns,
        kinds.patch,
        machine.fault.reason.number(),
        machine.fault.address,
    ]
}

fn check_length(length: usize, wanted: usize, refusal: Refusal) -> Result<(), Refusal> {
    if length == wanted {
        Ok(())
    } else {
        Err(refusal)
    }
}

/// The registers in a block of words, least byte first.
pub fn read_registers(block: &[u8]) -> Registers {
    let mut registers = Registers::default();
    for (register, bytes) in registers.0.iter_mut().zip(block.chunks_exact(8)) {
        *register = bytes
            .iter()
            .rev()
            .fold(0, |word, byte| word << 8 | u64::from(*byte));
    }
    registers
}

/// Lays words over a block, least byte first.
pub fn write_words(block: &mut [u8], words: &[u64]) {
    for (bytes, word) in block.chunks_exact_mut(8).zip(words) {
        bytes.copy_from_slice(&word.to_le_bytes());
    }
}
