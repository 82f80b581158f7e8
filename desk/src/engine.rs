//! The product, called through its host edge.

use crate::second::encoding::Asked;
use crate::second::replay::{Chosen, FULL_BYTES, RESULT_BYTES};

// Nothing checks these declarations against the Rattle source: they are written
// after the functions of crates/edge_c/src/ by hand, and the two change together.
// A slice passes as its pointer and then its length.
extern "C" {
    fn y86_replay(
        memory: *mut u8,
        memory_length: usize,
        registers: *mut u8,
        registers_length: usize,
        result: *mut u8,
        result_length: usize,
        start: u64,
        codes: u64,
        budget: u64,
    ) -> u64;

    // Where the archive has it, which the build looks for (build.rs).
    #[cfg(edge_set)]
    fn y86_replay_set(
        memory: *mut u8,
        memory_length: usize,
        registers: *mut u8,
        registers_length: usize,
        result: *mut u8,
        result_length: usize,
        start: u64,
        codes: u64,
        budget: u64,
        rule: u64,
        late: u64,
        windowed: u64,
        first: u64,
        end: u64,
    ) -> u64;

    #[cfg(edge_split)]
    fn y86_replay_split(
        program: *const u8,
        program_length: usize,
        writable: *mut u8,
        writable_length: usize,
        registers: *mut u8,
        registers_length: usize,
        result: *mut u8,
        result_length: usize,
        start: u64,
        codes: u64,
        budget: u64,
        rule: u64,
        late: u64,
        windowed: u64,
        first: u64,
        end: u64,
    ) -> u64;

    fn y86_read_listing(
        text: *const u8,
        text_length: usize,
        memory: *mut u8,
        memory_length: usize,
        fault: *mut u8,
        fault_length: usize,
    ) -> u64;

    fn y86_peaks(
        memory: *const u8,
        memory_length: usize,
        result: *mut u8,
        result_length: usize,
        table: u64,
        length: u64,
        filed: u64,
    ) -> u64;

    fn y86_encode(
        bytes: *mut u8,
        bytes_length: usize,
        length: *mut u8,
        length_length: usize,
        code: u64,
        function: u64,
        ra: u64,
        rb: u64,
        constant: u64,
    ) -> u64;

    fn y86_write_listing(
        memory: *const u8,
        memory_length: usize,
        text: *mut u8,
        text_length: usize,
        length: *mut u8,
        length_length: usize,
        start: u64,
        end: u64,
    ) -> u64;
}

/// One pipelined run without logs from a fresh start, as document 01's host
/// edge has it. Answers 0 or the number of the refusal.
///
/// Any lengths and numbers may be given. They are passed on untested, for the
/// edge refuses by number what it does not take, and then changes nothing.
pub fn replay(
    memory: &mut [u8],
    registers: &mut [u8],
    result: &mut [u8],
    start: u64,
    codes: u64,
    budget: u64,
) -> u64 {
    // SAFETY: each pointer and length come from one slice that is borrowed for
    // the length of the call, and no two of them overlap. The edge is proved
    // to stay inside them, and asks nothing else of a caller.
    unsafe {
        y86_replay(
            memory.as_mut_ptr(),
            memory.len(),
            registers.as_mut_ptr(),
            registers.len(),
            result.as_mut_ptr(),
            result.len(),
            start,
            codes,
            budget,
        )
    }
}

/// The same with settings and the full result block of 88 bytes.
#[cfg(edge_set)]
pub fn replay_set(
    memory: &mut [u8],
    registers: &mut [u8],
    result: &mut [u8],
    start: u64,
    codes: u64,
    budget: u64,
    chosen: Chosen,
) -> u64 {
    // SAFETY: as above.
    unsafe {
        y86_replay_set(
            memory.as_mut_ptr(),
            memory.len(),
            registers.as_mut_ptr(),
            registers.len(),
            result.as_mut_ptr(),
            result.len(),
            start,
            codes,
            budget,
            chosen.rule,
            chosen.late,
            chosen.windowed,
            chosen.first,
            chosen.end,
        )
    }
}

/// The product's replay with settings, where the archive has it.
#[cfg(edge_set)]
pub const REPLAY_SET: Option<ReplaySet> = Some(replay_set);
#[cfg(not(edge_set))]
pub const REPLAY_SET: Option<ReplaySet> = None;

/// The same over two memories (#110): program bytes, and writable bytes behind
/// them.
#[cfg(edge_split)]
#[allow(clippy::too_many_arguments)]
pub fn replay_split(
    program: &[u8],
    writable: &mut [u8],
    registers: &mut [u8],
    result: &mut [u8],
    start: u64,
    codes: u64,
    budget: u64,
    chosen: Chosen,
) -> u64 {
    // SAFETY: as above; the program's bytes are only read.
    unsafe {
        y86_replay_split(
            program.as_ptr(),
            program.len(),
            writable.as_mut_ptr(),
            writable.len(),
            registers.as_mut_ptr(),
            registers.len(),
            result.as_mut_ptr(),
            result.len(),
            start,
            codes,
            budget,
            chosen.rule,
            chosen.late,
            chosen.windowed,
            chosen.first,
            chosen.end,
        )
    }
}

/// The product's replay over two memories, where the archive has it.
#[cfg(edge_split)]
pub const REPLAY_SPLIT: Option<ReplaySplit> = Some(replay_split);
#[cfg(not(edge_split))]
pub const REPLAY_SPLIT: Option<ReplaySplit> = None;

/// Memory becomes the image of a listing, and the answer is 0; or a refusal by
/// its number, where 9 is a faulty line, whose number and kind are left in the
/// block of 16 bytes. Any lengths may be given.
pub fn read_listing(text: &[u8], memory: &mut [u8], fault: &mut [u8]) -> u64 {
    // SAFETY: as above; the text is only read.
    unsafe {
        y86_read_listing(
            text.as_ptr(),
            text.len(),
            memory.as_mut_ptr(),
            memory.len(),
            fault.as_mut_ptr(),
            fault.len(),
        )
    }
}

/// A day's table of words against the filed peak, both by their addresses in a
/// final memory (#114). Seven result words; answers 0 or the number of the
/// refusal, which changes nothing.
pub fn peaks(memory: &[u8], result: &mut [u8], table: u64, length: u64, filed: u64) -> u64 {
    // SAFETY: as above; memory is only read.
    unsafe {
        y86_peaks(
            memory.as_ptr(),
            memory.len(),
            result.as_mut_ptr(),
            result.len(),
            table,
            length,
            filed,
        )
    }
}

/// The bytes of an instruction at the front of those lent, and their length as
/// a word (#104); or a refusal by its number. 8 leaves the length needed.
pub fn encode(bytes: &mut [u8], length: &mut [u8], asked: Asked) -> u64 {
    // SAFETY: as above.
    unsafe {
        y86_encode(
            bytes.as_mut_ptr(),
            bytes.len(),
            length.as_mut_ptr(),
            length.len(),
            asked.code,
            asked.function,
            asked.ra,
            asked.rb,
            asked.constant,
        )
    }
}

/// The listing of memory from a start up to an end at the front of the lent
/// text, and its length as a word (#104); or a refusal by its number. 8 leaves
/// the length needed, and the text as it was.
pub fn write_listing(
    memory: &[u8],
    text: &mut [u8],
    length: &mut [u8],
    start: u64,
    end: u64,
) -> u64 {
    // SAFETY: as above; memory is only read.
    unsafe {
        y86_write_listing(
            memory.as_ptr(),
            memory.len(),
            text.as_mut_ptr(),
            text.len(),
            length.as_mut_ptr(),
            length.len(),
            start,
            end,
        )
    }
}

/// A reader of listings through the edge, or one that takes and leaves the same.
pub type ReadListing = fn(&[u8], &mut [u8], &mut [u8]) -> u64;

/// A writer of listings through the edge, or one that takes and leaves the same.
pub type WriteListing = fn(&[u8], &mut [u8], &mut [u8], u64, u64) -> u64;

/// A listing in a text of its own: asked first how long it is.
pub fn listing(write: WriteListing, memory: &[u8], start: u64, end: u64) -> Result<Vec<u8>, u64> {
    let mut length = [0; 8];
    match write(memory, &mut [], &mut length, start, end) {
        0 | 8 => {}
        refusal => return Err(refusal),
    }
    let [needed] = words(&length);
    let mut text = vec![0; needed as usize];
    match write(memory, &mut text, &mut length, start, end) {
        0 => Ok(text),
        refusal => Err(refusal),
    }
}

/// A replay through the edge, or one that takes and leaves the same.
pub type Replay = fn(&mut [u8], &mut [u8], &mut [u8], u64, u64, u64) -> u64;

/// A replay with settings through the edge, or one that takes and leaves the
/// same.
pub type ReplaySet = fn(&mut [u8], &mut [u8], &mut [u8], u64, u64, u64, Chosen) -> u64;

/// A replay over two memories through the edge, or one that takes and leaves
/// the same.
pub type ReplaySplit = fn(&[u8], &mut [u8], &mut [u8], &mut [u8], u64, u64, u64, Chosen) -> u64;

/// What a replay answers: the five result words, or the number of the refusal.
pub type Answer = Result<Outcome, u64>;

/// The five result words.
#[derive(Clone, Copy, Debug, PartialEq, Eq)]
pub struct Outcome {
    /// AOK 1 (the budget was spent), HLT 2, ADR 3, INS 4.
    pub status: u64,
    /// The address of the last instruction retired, or the start address.
    pub last: u64,
    /// 4ZF + 2SF + OF.
    pub codes: u64,
    pub retired: u64,
    pub cycles: u64,
}

/// A replay with a result block of its own. The final registers and memory are
/// left in the lent bytes.
pub fn outcome(
    replay: Replay,
    memory: &mut [u8],
    registers: &mut [u8],
    start: u64,
    codes: u64,
    budget: u64,
) -> Answer {
    let mut result = [0; RESULT_BYTES];
    match replay(memory, registers, &mut result, start, codes, budget) {
        0 => Ok(Outcome::read(&result)),
        refusal => Err(refusal),
    }
}

/// The eleven words of the full result block.
#[derive(Clone, Copy, Debug, PartialEq, Eq)]
pub struct FullOutcome {
    pub outcome: Outcome,
    /// The cycles by kind: load-use, mispredict, return, patch.
    pub kinds: [u64; 4],
    /// Why a fetch failed (#107): 0 none, 1 first byte missing, 2 code, 3
    /// function, 4 later byte missing, 5 register.
    pub reason: u64,
    /// The address of the byte at fault, 0 where there is none.
    pub fault_address: u64,
}

/// What a replay tells in a full result block that it is lent here; a refusal by
/// its number.
pub fn full_outcome(replay: impl FnOnce(&mut [u8]) -> u64) -> Result<FullOutcome, u64> {
    let mut result = [0; FULL_BYTES];
    match replay(&mut result) {
        0 => Ok(FullOutcome::read(&result)),
        refusal => Err(refusal),
    }
}

impl FullOutcome {
    /// The words of a full result block.
    pub fn read(block: &[u8; FULL_BYTES]) -> FullOutcome {
        let [.., load_use, mispredict, returns, patch, reason, fault_address]: [u64; 11] =
            words(block);
        let short = block.first_chunk().expect("the first five words");
        FullOutcome {
            outcome: Outcome::read(short),
            kinds: [load_use, mispredict, returns, patch],
            reason,
            fault_address,
        }
    }
}

impl Outcome {
    /// The words of a result block.
    pub fn read(block: &[u8; RESULT_BYTES]) -> Outcome {
        let [status, last, codes, retired, cycles] = words(block);
        Outcome {
            status,
            last,
            codes,
            retired,
            cycles,
        }
    }
}

/// The words of a block, least byte first.
pub fn words<const N: usize>(block: &[u8]) -> [u64; N] {
    let mut words = [0; N];
    for (word, bytes) in words.iter_mut().zip(block.chunks_exact(8)) {
        *word = bytes.iter().rev().fold(0, |w, b| w << 8 | u64::from(*b));
    }
    words
}
