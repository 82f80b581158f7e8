//! What the pipeline's stages hold.

use super::fault::Reason;
use super::fetch::fetch;
use super::machine::{Status, NONE};
use super::memory::Memory;
use super::table::{roles, row_of, CALL, CMOV, IADDQ, JXX, NOP, OPQ, PUSHQ, RMMOVQ};
use super::window::Window;
use std::fmt;

/// An instruction with its own address, as the stages carry it, or a bubble.
///
/// Its registers are held by the part they play, worked out once from code,
/// rA and rB, and all that is small is packed into one word, which the stages
/// hand on whole. The word is private, so that no record can hold a part that
/// the code does not give, or a false cmov with a target.
#[derive(Clone, Copy, PartialEq, Eq)]
pub struct Instruction {
    address: u64,
    word: u64,
}

/// The places of the packed fields, in bits.
const PRESENT: u32 = 0;
const CONDITION: u32 = 1;
const GUESS: u32 = 2;
/// Whether condition and guess differ, once the condition is decided.
const DIFFER: u32 = 3;
const STATUS: u32 = 4;
const CODE: u32 = 8;
const FUNCTION: u32 = 16;
const REASON: u32 = 24;
/// Whether it wrote into the window.
const PATCHED: u32 = 28;
const SOURCE_A: u32 = 32;
const SOURCE_B: u32 = 40;
const RESULT_TARGET: u32 = 48;
const LOADED_TARGET: u32 = 56;

impl Instruction {
    /// A bubble looks like a nop with AOK, so that every stage can work on it
    /// without asking, but it does not retire.
    pub(super) const BUBBLE: Instruction = Instruction {
        address: 0,
        word: 1 << CONDITION
            | (Status::Aok as u64) << STATUS
            | (NOP as u64) << CODE
            | 0x0f0f_0f0f << SOURCE_A,
    };

    /// An instruction as fetch hands it on, with the status of its fetch; a
    /// jump guessed taken. One with a bad fetch status has no sources, whatever
    /// its code says.
    #[inline(always)]
    pub fn new(
        address: u64,
        (code, function): (u8, u8),
        (ra, rb): (u8, u8),
        status: Status,
    ) -> Instruction {
        let mut roles = u64::from(roles(code, ra, rb));
        if status != Status::Aok {
            roles = roles & !0xffff | u64::from(NONE) << 8 | u64::from(NONE);
        }
        let word = 1 << PRESENT
            | 1 << CONDITION
            | 1 << GUESS
            | status.number() << STATUS
            | u64::from(code) << CODE
            | u64::from(function) << FUNCTION
            | roles << SOURCE_A;
        Instruction { address, word }
    }

    /// The instruction with the reason why its fetch failed (#107).
    #[inline(always)]
    pub fn failed(mut self, reason: Reason) -> Instruction {
        self.word = self.word & !(15 << REASON) | reason.number() << REASON;
        self
    }

    /// The instruction with what a rule (#105) guesses of a jump to C. Without a
    /// condition a jump is guessed taken by every rule.
    #[inline(always)]
    pub fn guessed(mut self, rule: u8, constant: u64) -> Instruction {
        if self.code() == JXX && self.function() != 0 {
            let taken = match rule {
                0 => true,
                1 => false,
                _ => constant < self.next(),
            };
            self.word = self.word & !(1 << GUESS) | u64::from(taken) << GUESS;
        }
        self
    }

    /// The instruction with its condition decided, as M, W and the kept one
    /// hold it; a false cmov has no target.
    #[inline(always)]
    pub fn decided(mut self, condition: bool) -> Instruction {
        let differ = condition != self.guess();
        let decided = u64::from(condition) << CONDITION | u64::from(differ) << DIFFER;
        self.word = self.word & !(1 << CONDITION | 1 << DIFFER) | decided;
        if !condition && self.code() == CMOV {
            self.word |= u64::from(NONE) << RESULT_TARGET;
        }
        self
    }

    /// The instruction with an access outside memory.
    #[inline(always)]
    pub fn outside(mut self) -> Instruction {
        self.word = self.word & !(15 << STATUS) | Status::Adr.number() << STATUS;
        self
    }

    /// The instruction after a store that wrote into the window (#113).
    #[inline(always)]
    pub fn patched(mut self) -> Instruction {
        self.word |= 1 << PATCHED;
        self
    }

    /// Whether it has written into the window.
    #[inline(always)]
    pub fn has_patched(&self) -> bool {
        self.word & 1 << PATCHED != 0
    }

    /// Whether this is an instruction and not a bubble.
    #[inline(always)]
    pub(super) fn is_present(&self) -> bool {
        self.word & 1 << PRESENT != 0
    }

    #[inline(always)]
    fn byte(&self, place: u32) -> u8 {
        (self.word >> place) as u8
    }

    #[inline(always)]
    pub fn address(&self) -> u64 {
        self.address
    }

    /// The address after this instruction.
    #[inline(always)]
    pub fn next(&self) -> u64 {
        let length = row_of(self.code()).length;
        self.address.wrapping_add(u64::from(length))
    }

    #[inline(always)]
    pub fn code(&self) -> u8 {
        self.byte(CODE)
    }

    #[inline(always)]
    pub fn function(&self) -> u8 {
        self.byte(FUNCTION)
    }

    #[inline(always)]
    pub fn status(&self) -> Status {
        match self.byte(STATUS) & 15 {
            1 => Status::Aok,
            2 => Status::Hlt,
            3 => Status::Adr,
            _ => Status::Ins,
        }
    }

    /// Why its fetch failed, if it did.
    pub fn reason(&self) -> Reason {
        Reason::ALL[usize::from(self.byte(REASON) & 15)]
    }

    #[inline(always)]
    pub fn is_bad(&self) -> bool {
        u64::from(self.byte(STATUS) & 15) != Status::Aok.number()
    }

    #[inline(always)]
    pub fn condition(&self) -> bool {
        self.word & 1 << CONDITION != 0
    }

    /// The register whose value decode takes as A.
    #[inline(always)]
    pub fn source_a(&self) -> u8 {
        self.byte(SOURCE_A)
    }

    /// The register whose value decode takes as B.
    #[inline(always)]
    pub fn source_b(&self) -> u8 {
        self.byte(SOURCE_B)
    }

    /// The register that takes the result of execute.
    #[inline(always)]
    pub fn result_target(&self) -> u8 {
        self.byte(RESULT_TARGET)
    }

    /// The register that takes the word loaded from memory.
    #[inline(always)]
    pub fn loaded_target(&self) -> u8 {
        self.byte(LOADED_TARGET)
    }

    /// Whether a jump was guessed taken.
    #[inline(always)]
    fn guess(&self) -> bool {
        self.word & 1 << GUESS != 0
    }

    /// A jump whose outcome differs from the guess.
    #[inline(always)]
    pub fn is_guessed_wrongly(&self) -> bool {
        const DECIDES: u64 = 0xff << CODE | 1 << DIFFER;
        self.word & DECIDES == (JXX as u64) << CODE | 1 << DIFFER
    }

    /// Whether a loaded register is waited for: as a source, but with late store
    /// data (#106) not as the one that a store stores. 15 matches nothing.
    #[inline(always)]
    pub fn waits_for(&self, loaded: u8, late: bool) -> bool {
        let for_a = loaded == self.source_a() && !(late && self.is_store());
        loaded != NONE && (for_a || loaded == self.source_b())
    }

    /// Whether this stores a register's value, and that of this one; 15 matches
    /// nothing.
    #[inline(always)]
    pub(super) fn stores(&self, register: u8) -> bool {
        register != NONE && register == self.source_a() && self.is_store()
    }

    /// A store whose word is source A and whose address is made of source B.
    #[inline(always)]
    fn is_store(&self) -> bool {
        matches!(self.code(), RMMOVQ | PUSHQ)
    }

    /// Whether this writes a word into memory, if the word is inside, and goes on.
    #[inline(always)]
    pub(super) fn writes(&self) -> bool {
        matches!(self.code(), RMMOVQ | PUSHQ | CALL) && !self.is_bad()
    }

    /// Whether a record may hold this: registers up to 15, a code that has
    /// functions in the table; the function is looked at for moves, jumps and
    /// OPq alone.
    pub fn is_known(&self) -> bool {
        let registers = [
            self.source_a(),
            self.source_b(),
            self.result_target(),
            self.loaded_target(),
        ];
        let function_fits = match self.code() {
            CMOV | JXX | OPQ => self.function() < row_of(self.code()).functions,
            _ => true,
        };
        self.code() <= IADDQ && function_fits && registers.iter().all(|number| *number <= NONE)
    }
}

impl fmt::Debug for Instruction {
    fn fmt(&self, formatter: &mut fmt::Formatter) -> fmt::Result {
        formatter
            .debug_struct("Instruction")
            .field("address", &self.address)
            .field("code", &self.code())
            .field("function", &self.function())
            .field("sources", &(self.source_a(), self.source_b()))
            .field("result_target", &self.result_target())
            .field("loaded_target", &self.loaded_target())
            .field("status", &self.status())
            .field("reason", &self.reason())
            .field("condition", &self.condition())
            .field("guess", &self.guess())
            .field("patched", &self.has_patched())
            .finish()
    }
}

/// What D holds: an instruction with its constant.
#[derive(Clone, Copy, Debug, PartialEq, Eq)]
pub struct Decoding {
    pub instruction: Instruction,
    pub constant: u64,
}

/// What E holds: the values decode took, and the constant.
#[derive(Clone, Copy, Debug, PartialEq, Eq)]
pub struct Executing {
    pub instruction: Instruction,
    pub constant: u64,
    pub a: u64,
    pub b: u64,
}

/// What M holds: what execute made of the instruction. `a` is the word that a
/// store writes, or the address that popq and ret read from, or the C of a call;
/// a jump hands on its C as the result, which it has no target for.
#[derive(Clone, Copy, Debug, PartialEq, Eq)]
pub struct Accessing {
    pub instruction: Instruction,
    pub result: u64,
    pub a: u64,
}

/// What W holds, with the word loaded (0 where none was).
#[derive(Clone, Copy, Debug, PartialEq, Eq)]
pub struct Writing {
    pub instruction: Instruction,
    pub result: u64,
    pub loaded: u64,
}

impl Decoding {
    pub(super) const BUBBLE: Decoding = Decoding::new(Instruction::BUBBLE, 0);

    #[inline(always)]
    pub const fn new(instruction: Instruction, constant: u64) -> Decoding {
        Decoding {
            instruction,
            constant,
        }
    }
}

impl Executing {
    pub(super) const BUBBLE: Executing = Executing {
        instruction: Instruction::BUBBLE,
        constant: 0,
        a: 0,
        b: 0,
    };
}

impl Accessing {
    pub(super) const BUBBLE: Accessing = Accessing {
        instruction: Instruction::BUBBLE,
        result: 0,
        a: 0,
    };

    /// Where a jump goes: to C, or to its next address.
    #[inline(always)]
    pub(super) fn goes_to(&self) -> u64 {
        match self.instruction.condition() {
            true => self.result,
            false => self.instruction.next(),
        }
    }
}

impl Writing {
    pub(super) const BUBBLE: Writing = Writing {
        instruction: Instruction::BUBBLE,
        result: 0,
        loaded: 0,
    };
}

/// Fetches what goes into D, and predicts the address after it: call and a jump
/// that the rule guesses taken go to C, others to the next address. One fetched
/// with a bad status travels as a nop with that status, and predicts its own
/// address.
#[inline(always)]
pub(super) fn fetch_stage(
    memory: &Memory,
    window: Option<Window>,
    address: u64,
    rule: u8,
) -> (Decoding, u64) {
    match fetch(memory, window, address) {
        Ok(parts) => {
            let (code, constant) = (parts.code, parts.constant);
            let named = (parts.ra, parts.rb);
            let mut instruction =
                Instruction::new(address, (code, parts.function), named, Status::Aok);
            if code == JXX {
                instruction = instruction.guessed(rule, constant);
            }
            let predicted = match code {
                CALL => constant,
                JXX if instruction.guess() => constant,
                _ => instruction.next(),
            };
            (Decoding::new(instruction, constant), predicted)
        }
        Err(stop) => {
            let nop =
                Instruction::new(address, (NOP, 0), (NONE, NONE), stop.status).failed(stop.reason);
            (Decoding::new(nop, 0), address)
        }
    }
}
