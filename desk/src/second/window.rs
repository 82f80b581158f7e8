//! The code window that a start record may take (#113).

use super::machine::Refusal;

/// The addresses that instructions are fetched from: from the first up to the
/// end, which is not among them.
#[derive(Clone, Copy, Debug, PartialEq, Eq)]
pub struct Window {
    pub first: u64,
    pub end: u64,
}

impl Window {
    /// Refusal 5: both are at most N, and the end is not below the first.
    pub fn check(self, size: u64) -> Result<(), Refusal> {
        if self.first > size || self.end > size || self.end < self.first {
            return Err(Refusal::Record);
        }
        Ok(())
    }

    /// How many of the bytes from an address on are in the window, up to the
    /// first that is not.
    #[inline(always)]
    pub fn length_from(self, address: u64) -> u64 {
        match address < self.first {
            true => 0,
            false => self.end.saturating_sub(address),
        }
    }

    /// Whether a word stored at an address inside memory writes any byte of the
    /// window, which may be empty.
    #[inline(always)]
    pub fn is_written_at(self, address: u64) -> bool {
        self.first.max(address) < self.end.min(address + 8)
    }
}

/// Refusal 5 of a window, if there is one.
pub fn check(window: Option<Window>, size: u64) -> Result<(), Refusal> {
    window.map_or(Ok(()), |window| window.check(size))
}
