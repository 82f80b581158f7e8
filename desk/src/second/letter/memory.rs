//! What an address reaches, byte for byte.

use crate::second::memory::{Extent, Memory};
use crate::second::window::Window;

/// Where a byte lies.
#[derive(Clone, Copy, Debug, PartialEq, Eq)]
pub enum Place {
    Program,
    Writable,
    /// In neither part.
    Nowhere,
}

/// Where the byte at an address lies. Addresses are wide, so that the sum of
/// one and a length does not wrap.
pub fn place(memory: Extent, address: u128) -> Place {
    match address {
        _ if address < u128::from(memory.seam) => Place::Program,
        _ if address < u128::from(memory.size) => Place::Writable,
        _ => Place::Nowhere,
    }
}

/// Where all the bytes of a word lie; nowhere, if one lies elsewhere than
/// another, for a word that crosses the seam is in neither part.
pub fn place_of_word(memory: Extent, address: u64) -> Place {
    let first = place(memory, u128::from(address));
    let mut others = (1..8).map(|behind| place(memory, u128::from(address) + behind));
    match others.all(|other| other == first) {
        true => first,
        false => Place::Nowhere,
    }
}

/// Where the byte of an instruction lies: one that is not in the window is as
/// if outside memory (#113).
pub fn code_place(memory: Extent, window: Option<Window>, address: u64) -> Place {
    let within = |window: Window| (window.first..window.end).contains(&address);
    match window.is_none_or(within) {
        true => place(memory, u128::from(address)),
        false => Place::Nowhere,
    }
}

/// The byte at an address, if there is one.
pub fn byte(memory: &Memory, address: u64) -> Option<u8> {
    let at = |parts: &[u8], first: u64| parts[(address - first) as usize];
    let extent = memory.extent();
    match place(extent, u128::from(address)) {
        Place::Program => Some(at(memory.program, 0)),
        Place::Writable => Some(at(memory.writable, extent.seam)),
        Place::Nowhere => None,
    }
}

/// Writes a byte of the writable part.
pub fn write(memory: &mut Memory, address: u64, byte: u8) {
    let seam = memory.extent().seam;
    memory.writable[(address - seam) as usize] = byte;
}
