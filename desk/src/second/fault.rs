//! Why a fetch failed, and which byte is at fault (#107).

use super::machine::Status;

/// Why a fetch failed, in the order of its checks.
#[derive(Clone, Copy, Debug, Default, PartialEq, Eq)]
#[repr(u8)]
pub enum Reason {
    /// It did not: the instruction is good, or a halt, or it failed later.
    #[default]
    None = 0,
    /// The first byte is missing.
    FirstMissing = 1,
    /// The code has no function in the table.
    Code = 2,
    /// The code has functions in the table, and this is none of them.
    Function = 3,
    /// A later byte is missing.
    LaterMissing = 4,
    /// A named register is 15.
    Register = 5,
}

impl Reason {
    /// Every reason, each at the place of its number.
    pub const ALL: [Reason; 6] = [
        Reason::None,
        Reason::FirstMissing,
        Reason::Code,
        Reason::Function,
        Reason::LaterMissing,
        Reason::Register,
    ];

    /// The number of the reason.
    pub fn number(self) -> u64 {
        self as u64
    }

    /// The reason with a number, if there is one.
    pub fn from_number(number: u64) -> Option<Reason> {
        Reason::ALL.get(usize::try_from(number).ok()?).copied()
    }

    /// The byte at fault of an instruction at this address, which the bytes up
    /// to `end` may belong to: the lowest missing one, or the first, or the
    /// register byte. 0 where nothing failed.
    pub fn address(self, instruction: u64, end: u64) -> u64 {
        match self {
            Reason::None => 0,
            Reason::FirstMissing | Reason::Code | Reason::Function => instruction,
            Reason::LaterMissing => end,
            Reason::Register => instruction.wrapping_add(1),
        }
    }
}

/// What a record says of the fetch that stopped it: none and 0 while it runs,
/// and where an access or a halt stopped it.
#[derive(Clone, Copy, Debug, Default, PartialEq, Eq)]
pub struct Fault {
    pub reason: Reason,
    /// The address of the byte at fault.
    pub address: u64,
}

/// Why an instruction stops the machine: its status and, where its fetch
/// failed, the reason.
#[derive(Clone, Copy, Debug, PartialEq, Eq)]
pub struct Stop {
    pub status: Status,
    pub reason: Reason,
}

impl Stop {
    /// A halt.
    pub const HALT: Stop = Stop {
        status: Status::Hlt,
        reason: Reason::None,
    };
    /// An access outside memory.
    pub const ACCESS: Stop = Stop {
        status: Status::Adr,
        reason: Reason::None,
    };

    /// A byte that is missing, for this reason.
    pub const fn missing(reason: Reason) -> Stop {
        Stop {
            status: Status::Adr,
            reason,
        }
    }

    /// Bytes that are no instruction, for this reason.
    pub const fn unknown(reason: Reason) -> Stop {
        Stop {
            status: Status::Ins,
            reason,
        }
    }
}
