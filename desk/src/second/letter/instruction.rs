//! An instruction, and what its code says of it.

use crate::second::fault::Reason;
use crate::second::machine::{Status, NONE, RSP};
use crate::second::table::{CALL, CMOV, IADDQ, IRMOVQ, JXX, MRMOVQ, OPQ, POPQ, PUSHQ, RET, RMMOVQ};

/// An instruction as it was fetched; in a hand-made record, with any values.
#[derive(Clone, Copy, Debug, PartialEq, Eq)]
pub struct Instruction {
    pub address: u64,
    /// The status of its fetch.
    pub status: Status,
    pub code: u8,
    pub function: u8,
    pub ra: u8,
    pub rb: u8,
    pub constant: u64,
    /// The address after it. A record's own, whatever its code's length is.
    pub next: u64,
    /// Why its fetch failed (#107).
    pub reason: Reason,
}

impl Instruction {
    /// The sources A and B. One with a bad fetch status has none.
    pub fn sources(&self) -> [u8; 2] {
        if self.status != Status::Aok {
            return [NONE, NONE];
        }
        match self.code {
            CMOV => [self.ra, NONE],
            RMMOVQ | OPQ => [self.ra, self.rb],
            MRMOVQ | IADDQ => [NONE, self.rb],
            PUSHQ => [self.ra, RSP],
            POPQ | RET => [RSP, RSP],
            CALL => [NONE, RSP],
            _ => [NONE, NONE],
        }
    }

    /// Whether it waits for a loaded register: for any of its sources, but with
    /// late store data (#106) rmmovq and pushq only for their address source. 15
    /// matches nothing.
    pub fn waits_for(&self, loaded: u8, late: bool) -> bool {
        let [a, b] = self.sources();
        let waited = match self.code {
            RMMOVQ | PUSHQ if late => [b, b],
            _ => [a, b],
        };
        loaded != NONE && waited.contains(&loaded)
    }

    /// The register that it stores, by rmmovq or pushq.
    pub fn stored(&self) -> u8 {
        match self.code {
            RMMOVQ | PUSHQ => self.sources()[0],
            _ => NONE,
        }
    }

    /// The register that takes the result. Only a false cmov loses its own.
    pub fn result_target(&self, holds: bool) -> u8 {
        match self.code {
            CMOV if !holds => NONE,
            CMOV | IRMOVQ | OPQ | IADDQ => self.rb,
            CALL | RET | PUSHQ | POPQ => RSP,
            _ => NONE,
        }
    }

    /// The register that takes the word loaded.
    pub fn loaded_target(&self) -> u8 {
        match self.code {
            MRMOVQ | POPQ => self.ra,
            _ => NONE,
        }
    }

    pub fn is_jump(&self) -> bool {
        self.code == JXX
    }

    /// Whether a jump is guessed taken by a rule (#105): the unconditional one
    /// always; others always, never, or when C is below the next address.
    pub fn is_guessed_taken(&self, rule: u8) -> bool {
        match (self.function, rule) {
            (0, _) | (_, 0) => true,
            (_, 1) => false,
            _ => self.constant < self.next,
        }
    }

    /// Whether it is a jump whose outcome differs from the guess.
    pub fn is_guessed_wrongly(&self, rule: u8, holds: bool) -> bool {
        self.is_jump() && holds != self.is_guessed_taken(rule)
    }

    pub fn is_return(&self) -> bool {
        self.code == RET
    }

    /// Whether a record may hold it: refusal 5 looks at both register numbers
    /// and the code of any, and at the function of a move, a jump or an OPq.
    pub fn is_allowed(&self) -> bool {
        let function_allowed = match self.code {
            CMOV | JXX => self.function <= 6,
            OPQ => self.function <= 3,
            _ => true,
        };
        self.ra <= NONE && self.rb <= NONE && self.code <= IADDQ && function_allowed
    }
}
