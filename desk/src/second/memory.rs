//! What is lent as memory: program bytes from address 0, which are only read,
//! and writable bytes from the first address after them (#110). One memory is
//! the case of no program bytes.

use super::window::Window;
use super::word;

/// The two parts, lent for the length of a call.
pub struct Memory<'a> {
    pub program: &'a [u8],
    pub writable: &'a mut [u8],
}

/// How far the two parts reach.
#[derive(Clone, Copy, Debug, PartialEq, Eq)]
pub struct Extent {
    /// The first writable address.
    pub seam: u64,
    /// The sum of both, N.
    pub size: u64,
}

impl<'a> Memory<'a> {
    /// Bytes of which the first ones, up to the seam, are the program's.
    pub fn split(bytes: &'a mut [u8], seam: usize) -> Memory<'a> {
        let (program, writable) = bytes.split_at_mut(seam);
        Memory { program, writable }
    }

    /// The same, lent on for a shorter time.
    #[inline(always)]
    pub fn again(&mut self) -> Memory<'_> {
        Memory {
            program: self.program,
            writable: self.writable,
        }
    }

    pub fn extent(&self) -> Extent {
        let seam = self.program.len() as u64;
        Extent {
            seam,
            size: seam + self.writable.len() as u64,
        }
    }

    /// The bytes from an address to the end of the part that holds it, or an
    /// empty part if neither does.
    #[inline(always)]
    pub fn part(&self, address: u64) -> &[u8] {
        let seam = self.program.len() as u64;
        if address < seam {
            return &self.program[address as usize..];
        }
        let behind = address - seam;
        if behind >= self.writable.len() as u64 {
            return &[];
        }
        &self.writable[behind as usize..]
    }

    /// The bytes that an instruction at an address may have: those of its part,
    /// as far as they are in the window (#113).
    #[inline(always)]
    pub fn code(&self, address: u64, window: Option<Window>) -> &[u8] {
        let bytes = self.part(address);
        match window {
            None => bytes,
            Some(window) => {
                let length = window.length_from(address).min(bytes.len() as u64);
                &bytes[..length as usize]
            }
        }
    }

    /// The word at an address, or none when it is not inside one of the parts.
    #[inline(always)]
    pub fn load(&self, address: u64) -> Option<u64> {
        let seam = self.program.len() as u64;
        match address.checked_sub(seam) {
            None => word::load(self.program, address),
            Some(behind) => word::load(self.writable, behind),
        }
    }

    /// Stores a word; none, and nothing written, when it is not inside the
    /// writable part.
    #[inline(always)]
    pub fn store(&mut self, address: u64, word: u64) -> Option<()> {
        let behind = address.checked_sub(self.program.len() as u64)?;
        word::store(self.writable, behind, word)
    }
}

impl Extent {
    /// Where the bytes end that an instruction at this address may have: at the
    /// seam before it, and at N behind it, and not behind the window's end.
    /// Before the window it has none.
    pub fn code_end(self, address: u64, window: Option<Window>) -> u64 {
        let end = match address < self.seam {
            true => self.seam,
            false => self.size,
        };
        match window {
            None => end,
            Some(window) if address < window.first => address,
            Some(window) => end.min(window.end),
        }
    }
}

impl<'a> From<&'a mut [u8]> for Memory<'a> {
    #[inline(always)]
    fn from(writable: &'a mut [u8]) -> Memory<'a> {
        Memory {
            program: &[],
            writable,
        }
    }
}

impl<'a> From<&'a mut Vec<u8>> for Memory<'a> {
    #[inline(always)]
    fn from(writable: &'a mut Vec<u8>) -> Memory<'a> {
        Memory::from(writable.as_mut_slice())
    }
}

impl<'a, const N: usize> From<&'a mut [u8; N]> for Memory<'a> {
    #[inline(always)]
    fn from(writable: &'a mut [u8; N]) -> Memory<'a> {
        Memory::from(writable.as_mut_slice())
    }
}
