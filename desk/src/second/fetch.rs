//! Fetching an instruction, with the checks in document 01's order.

use super::fault::{Reason, Stop};
use super::machine::NONE;
use super::memory::Memory;
use super::table::{row_of, RegisterByte, Row, HALT};
use super::window::Window;
use super::word;
use std::ops::Range;

/// The bytes of an instruction taken apart; a constant it lacks is 0, and
/// registers it lacks are 15.
#[derive(Clone, Copy, Debug, PartialEq, Eq)]
pub struct Parts {
    pub code: u8,
    pub function: u8,
    pub ra: u8,
    pub rb: u8,
    pub constant: u64,
}

/// The instruction at an address, or what the first check that fails says.
#[inline(always)]
pub fn fetch(memory: &Memory, window: Option<Window>, address: u64) -> Result<Parts, Stop> {
    let bytes = memory.code(address, window);
    let Some(first) = bytes.first() else {
        return Err(Stop::missing(Reason::FirstMissing));
    };
    let (code, function) = (first >> 4, first & 15);
    let row = row_of(code);
    if function >= row.functions {
        return Err(Stop::unknown(no_function(row)));
    }
    if bytes.len() < usize::from(row.length) {
        return Err(Stop::missing(Reason::LaterMissing));
    }
    let (ra, rb) = registers(bytes, row.register_byte)?;
    if code == HALT {
        return Err(Stop::HALT);
    }
    Ok(Parts {
        code,
        function,
        ra,
        rb,
        constant: constant(bytes, row.length),
    })
}

/// Why a function is not in a row: the row has none, or has others.
fn no_function(row: Row) -> Reason {
    match row.functions {
        0 => Reason::Code,
        _ => Reason::Function,
    }
}

/// The register numbers, or INS where a named one is 15. A half that is not
/// named is not looked at (#102).
#[inline(always)]
fn registers(bytes: &[u8], rule: RegisterByte) -> Result<(u8, u8), Stop> {
    let byte = bytes.get(1).copied().unwrap_or(0);
    let (ra, rb) = (byte >> 4, byte & 15);
    match rule {
        RegisterByte::Absent => Ok((NONE, NONE)),
        RegisterByte::Both if ra != NONE && rb != NONE => Ok((ra, rb)),
        RegisterByte::OnlyB if rb != NONE => Ok((NONE, rb)),
        RegisterByte::OnlyA if ra != NONE => Ok((ra, NONE)),
        _ => Err(Stop::unknown(Reason::Register)),
    }
}

/// The last eight bytes of an instruction long enough to have a constant.
#[inline(always)]
fn constant(bytes: &[u8], length: u8) -> u64 {
    if length < 9 {
        return 0;
    }
    word::load(bytes, u64::from(length) - 8).unwrap_or(0)
}

/// An instruction's bytes: its table length from its address, cut at the end of
/// its part of memory and of the window. Whatever fetch looked at, the first
/// byte alone says the length.
pub fn own_bytes(memory: &Memory, window: Option<Window>, address: u64) -> Range<u64> {
    let bytes = memory.code(address, window);
    let Some(first) = bytes.first() else {
        return 0..0;
    };
    let length = u64::from(row_of(first >> 4).length);
    address..address + length.min(bytes.len() as u64)
}

/// The bytes of an instruction that its fetch looks at: none, where the first
/// is missing; the first alone, where code and function decide, or that a later
/// one is missing; two, where the register byte does; else all (#112).
pub fn looked_at(memory: &Memory, window: Option<Window>, address: u64) -> Range<u64> {
    let own = own_bytes(memory, window, address);
    let end = match fetch(memory, window, address) {
        Ok(_) => own.end,
        Err(stop) => match stop.reason {
            Reason::None => own.end,
            Reason::FirstMissing => own.start,
            Reason::Code | Reason::Function | Reason::LaterMissing => own.start + 1,
            Reason::Register => own.start + 2,
        },
    };
    own.start..end
}
