//! The encoder of request #104, from the forms of documents 01 and 02.

use super::table::RegisterByte::{self, Absent, Both, OnlyA, OnlyB};

/// An instruction to encode, as a caller gives it.
#[derive(Clone, Copy, Debug)]
pub struct Asked {
    pub code: u64,
    pub function: u64,
    pub ra: u64,
    pub rb: u64,
    pub constant: u64,
}

/// The register byte of an instruction, and whether it has a constant; nothing
/// for a code or a function that no instruction has.
fn shape(code: u64, function: u64) -> Option<(RegisterByte, bool)> {
    match (code, function) {
        (0x0 | 0x1 | 0x9, 0) => Some((Absent, false)),
        (0x2, 0..=6) | (0x6, 0..=3) => Some((Both, false)),
        (0x3 | 0xc, 0) => Some((OnlyB, true)),
        (0x4 | 0x5, 0) => Some((Both, true)),
        (0x7, 0..=6) | (0x8, 0) => Some((Absent, true)),
        (0xa | 0xb, 0) => Some((OnlyA, false)),
        _ => None,
    }
}

/// The one form of an instruction, F standing for a filler; or nothing for a
/// named register over 14 or a function not in the table.
pub fn encode(asked: Asked) -> Option<Vec<u8>> {
    const FILLER: u8 = 0xf;
    let (registers, has_constant) = shape(asked.code, asked.function)?;
    let named = |register: u64| u8::try_from(register).ok().filter(|number| *number <= 14);
    let mut bytes = vec![(asked.code << 4 | asked.function) as u8];
    match registers {
        Absent => {}
        Both => bytes.push(named(asked.ra)? << 4 | named(asked.rb)?),
        OnlyB => bytes.push(FILLER << 4 | named(asked.rb)?),
        OnlyA => bytes.push(named(asked.ra)? << 4 | FILLER),
    }
    if has_constant {
        bytes.extend(asked.constant.to_le_bytes());
    }
    Some(bytes)
}

/// The same as an exported function has it: the number, with the bytes at the
/// front of what is lent and their length as a word.
pub fn exported(bytes: &mut [u8], length: &mut [u8], asked: Asked) -> u64 {
    if length.len() != 8 {
        return 4;
    }
    let Some(form) = encode(asked) else {
        return 5;
    };
    length.copy_from_slice(&(form.len() as u64).to_le_bytes());
    match bytes.get_mut(..form.len()) {
        Some(front) => front.copy_from_slice(&form),
        None => return 8,
    }
    0
}
