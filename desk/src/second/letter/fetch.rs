//! Fetching, check after check.

use super::memory::{byte, code_place, Place};
use super::refusals::{lowest, of_size};
use super::Instruction;
use crate::second::fault::{Fault, Reason};
use crate::second::machine::{Refusal, Status, NONE};
use crate::second::memory::{Extent, Memory};
use crate::second::table::NOP;
use crate::second::window::Window;

/// Length, number of functions, whether rA and whether rB is named, by code.
const TABLE: [(u64, u8, bool, bool); 16] = [
    (1, 1, false, false),
    (1, 1, false, false),
    (2, 7, true, true),
    (10, 1, false, true),
    (10, 1, true, true),
    (10, 1, true, true),
    (2, 4, true, true),
    (9, 7, false, false),
    (9, 1, false, false),
    (1, 1, false, false),
    (2, 1, true, false),
    (2, 1, true, false),
    (10, 1, false, true),
    (1, 0, false, false),
    (1, 0, false, false),
    (1, 0, false, false),
];

/// What fetching as an operation of its own answers: refusal 1, the
/// instruction, and the address of the byte at fault, 0 for none (#107).
pub type Fetched = (Result<(), Refusal>, Instruction, u64);

/// Fetching as an operation of its own, which knows no window. Refused, it
/// gives what a fetch outside memory gives.
pub fn fetch_open<'a>(memory: impl Into<Memory<'a>>, address: u64) -> Fetched {
    let memory = &memory.into();
    let reasons: Vec<Refusal> = of_size(memory.extent().size).into_iter().collect();
    let refused = lowest(&reasons);
    let parsed = match refused {
        Ok(()) => parse(memory, None, address),
        Err(_) => Err(Bad::missing(Reason::FirstMissing, address)),
    };
    match parsed {
        Ok(instruction) => (refused, instruction, 0),
        Err(bad) => (refused, stopping(address, &bad), bad.fault.address),
    }
}

/// The instruction at an address.
pub(super) fn fetch(memory: &Memory, window: Option<Window>, address: u64) -> Instruction {
    parse(memory, window, address).unwrap_or_else(|bad| stopping(address, &bad))
}

/// What a stopping instruction says of its fetch, when it has stopped the
/// machine. Its own reason counts, and a hand-made one may have any.
pub(super) fn fault_of(instruction: &Instruction, memory: Extent, window: Option<Window>) -> Fault {
    let address = match instruction.reason {
        Reason::None => 0,
        Reason::FirstMissing | Reason::Code | Reason::Function => instruction.address,
        Reason::LaterMissing => end_of_code(memory, window, instruction.address),
        Reason::Register => instruction.address.wrapping_add(1),
    };
    Fault {
        reason: instruction.reason,
        address,
    }
}

/// The lowest address that an instruction misses which starts here and is too
/// long: the seam for one before it, else N; or the window's end, if that comes
/// first. One before the window misses its own.
fn end_of_code(memory: Extent, window: Option<Window>, address: u64) -> u64 {
    let of_part = match address < memory.seam {
        true => memory.seam,
        false => memory.size,
    };
    match window {
        Some(window) if address < window.first => address,
        Some(window) => of_part.min(window.end),
        None => of_part,
    }
}

/// A bad status of a fetch, with the reason and the byte at fault.
struct Bad {
    status: Status,
    fault: Fault,
}

impl Bad {
    /// The byte at this address is missing.
    fn missing(reason: Reason, address: u64) -> Bad {
        let (status, fault) = (Status::Adr, Fault { reason, address });
        Bad { status, fault }
    }

    /// The byte at this address is not as the table wants it.
    fn unknown(reason: Reason, address: u64) -> Bad {
        let (status, fault) = (Status::Ins, Fault { reason, address });
        Bad { status, fault }
    }

    /// A halt is at no fault.
    fn halt() -> Bad {
        let (status, fault) = (Status::Hlt, Fault::default());
        Bad { status, fault }
    }
}

/// An instruction fetched with a bad status travels as a nop with that status,
/// and its next address is its own.
fn stopping(address: u64, bad: &Bad) -> Instruction {
    Instruction {
        address,
        status: bad.status,
        code: NOP,
        function: 0,
        ra: NONE,
        rb: NONE,
        constant: 0,
        next: address,
        reason: bad.fault.reason,
    }
}

fn parse(memory: &Memory, window: Option<Window>, address: u64) -> Result<Instruction, Bad> {
    let first = code_byte(memory, window, address, address)
        .ok_or(Bad::missing(Reason::FirstMissing, address))?;
    let (code, function) = (first >> 4, first & 15);
    let (length, functions, names_a, names_b) = TABLE[usize::from(code)];
    if functions == 0 {
        return Err(Bad::unknown(Reason::Code, address));
    }
    if function >= functions {
        return Err(Bad::unknown(Reason::Function, address));
    }
    let later = later_bytes(memory, window, address, length)?;
    // Only a named register is looked at, and only it may not be 15.
    let named = |names: bool, half: fn(u8) -> u8| match names {
        true if half(later[0]) == NONE => Err(Bad::unknown(Reason::Register, address + 1)),
        true => Ok(half(later[0])),
        false => Ok(NONE),
    };
    let ra = named(names_a, |byte| byte >> 4)?;
    let rb = named(names_b, |byte| byte & 15)?;
    if first == 0 {
        return Err(Bad::halt());
    }
    Ok(Instruction {
        address,
        status: Status::Aok,
        code,
        function,
        ra,
        rb,
        constant: constant(&later),
        next: address.wrapping_add(length),
        reason: Reason::None,
    })
}

/// The constant of an instruction with these bytes behind the first: the last
/// eight, if it is long enough to have one.
fn constant(later: &[u8]) -> u64 {
    let bytes = match later.len() {
        8.. => &later[later.len() - 8..],
        _ => &[],
    };
    bytes
        .iter()
        .rev()
        .fold(0, |sum, byte| sum << 8 | u64::from(*byte))
}

/// The byte at `at` of an instruction that starts at an address. One in another
/// part than the first is missing: no instruction crosses the seam.
fn code_byte(memory: &Memory, window: Option<Window>, address: u64, at: u64) -> Option<u8> {
    let place_of = |at| code_place(memory.extent(), window, at);
    match place_of(at) {
        Place::Nowhere => None,
        place if place == place_of(address) => byte(memory, at),
        _ => None,
    }
}

/// The bytes after the first, or the lowest address of those missing.
fn later_bytes(
    memory: &Memory,
    window: Option<Window>,
    address: u64,
    length: u64,
) -> Result<Vec<u8>, Bad> {
    let found = |at| code_byte(memory, window, address, at);
    (address + 1..address + length)
        .map(|at| found(at).ok_or(Bad::missing(Reason::LaterMissing, at)))
        .collect()
}
