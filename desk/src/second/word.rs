//! Words of eight bytes, least first, in lent memory.

/// The word at an address, or none when it is not inside memory.
#[inline(always)]
pub fn load(memory: &[u8], address: u64) -> Option<u64> {
    let at = usize::try_from(address).ok()?;
    let bytes = memory.get(at..)?.first_chunk()?;
    Some(u64::from_le_bytes(*bytes))
}

/// Stores a word; none, and nothing written, when it is not inside memory.
#[inline(always)]
pub fn store(memory: &mut [u8], address: u64, word: u64) -> Option<()> {
    let at = usize::try_from(address).ok()?;
    let bytes = memory.get_mut(at..)?.first_chunk_mut()?;
    *bytes = word.to_le_bytes();
    Some(())
}
