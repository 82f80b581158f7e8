//! What an instruction computes, decides and accesses, as the public stage
//! tables have it. Both engines do this work, each in its own time.

use super::memory::{byte, place_of_word, write, Place};
use super::Instruction;
use crate::second::arithmetic::Codes;
use crate::second::memory::{Extent, Memory};
use crate::second::table::{CALL, CMOV, IADDQ, IRMOVQ, JXX, MRMOVQ, OPQ, POPQ, PUSHQ, RET, RMMOVQ};

/// The condition of a move or a jump under the codes; true for all others.
pub fn holds(instruction: &Instruction, codes: Codes) -> bool {
    let (zero, less) = (codes.zero(), codes.sign() != codes.overflow());
    match (instruction.code, instruction.function) {
        (CMOV | JXX, 1) => less || zero,
        (CMOV | JXX, 2) => less,
        (CMOV | JXX, 3) => zero,
        (CMOV | JXX, 4) => !zero,
        (CMOV | JXX, 5) => !less,
        (CMOV | JXX, 6) => !less && !zero,
        _ => true,
    }
}

/// The result, 0 where nothing is computed.
pub fn result(instruction: &Instruction, a: u64, b: u64) -> u64 {
    match instruction.code {
        CMOV => a,
        IRMOVQ => instruction.constant,
        RMMOVQ | MRMOVQ | IADDQ => b.wrapping_add(instruction.constant),
        OPQ => true_result(instruction.function, a, b) as u64,
        CALL | PUSHQ => b.wrapping_sub(8),
        RET | POPQ => b.wrapping_add(8),
        _ => 0,
    }
}

/// The codes after it: only OPq and iaddq set them, and iaddq as addq does,
/// whatever its function is.
pub fn codes_after(instruction: &Instruction, a: u64, b: u64, before: Codes) -> Codes {
    let truth = match instruction.code {
        OPQ => true_result(instruction.function, a, b),
        IADDQ => true_result(0, instruction.constant, b),
        _ => return before,
    };
    let result = truth as i64;
    Codes::new(result == 0, result < 0, truth != i128::from(result))
}

/// B add, subtract, and, xor A, in numbers wide enough for the true result.
fn true_result(function: u8, a: u64, b: u64) -> i128 {
    let (a, b) = (i128::from(a as i64), i128::from(b as i64));
    match function {
        0 => b + a,
        1 => b - a,
        2 => b & a,
        _ => b ^ a,
    }
}

/// What an instruction does with memory.
pub enum Access {
    None,
    Load { address: u64 },
    Store { address: u64, word: u64 },
}

impl Access {
    /// The access of an instruction with its source A and its result.
    pub fn of(instruction: &Instruction, a: u64, result: u64) -> Access {
        match instruction.code {
            RMMOVQ | PUSHQ => Access::Store {
                address: result,
                word: a,
            },
            CALL => Access::Store {
                address: result,
                word: instruction.next,
            },
            MRMOVQ => Access::Load { address: result },
            POPQ | RET => Access::Load { address: a },
            _ => Access::None,
        }
    }

    /// Whether it is outside: inside is a word with all its bytes in one part,
    /// and for a store in the writable one.
    pub fn is_outside(&self, memory: Extent) -> bool {
        match self {
            Access::None => false,
            Access::Load { address } => place_of_word(memory, *address) == Place::Nowhere,
            Access::Store { address, .. } => place_of_word(memory, *address) != Place::Writable,
        }
    }

    /// The word loaded: 0 outside, and where nothing is loaded.
    pub fn loaded(&self, memory: &Memory) -> u64 {
        match self {
            Access::Load { address } if !self.is_outside(memory.extent()) => {
                let bytes = (0..8).filter_map(|behind| byte(memory, address + behind));
                bytes
                    .rev()
                    .fold(0, |word, byte| word << 8 | u64::from(byte))
            }
            _ => 0,
        }
    }

    /// Stores the word, if it has one: outside nothing is written.
    pub fn store(&self, memory: &mut Memory) {
        let outside = self.is_outside(memory.extent());
        if let (Access::Store { address, word }, false) = (self, outside) {
            for (at, byte) in (*address..).zip(word.to_le_bytes()) {
                write(memory, at, byte);
            }
        }
    }
}
