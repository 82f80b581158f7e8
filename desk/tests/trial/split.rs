//! The entries over two memories (#110), as the product has them. They are
//! compiled where its archive has them, which build.rs looks for.

use crate::blocks::INSTRUCTION;
use crate::entries::{answered, in_block, two, Answer};
use desk::generate::Call;
use desk::second::letter::{Machine, Pipeline};

// Written after crates/trial/src/lib.rt by hand, as those over one memory are.
#[link(name = "trial", kind = "static")]
extern "C" {
    fn trial_split_fetch(
        program: *const u8,
        program_bytes: usize,
        writable: *mut u8,
        writable_bytes: usize,
        address: u64,
        block: *mut u64,
        words: usize,
    ) -> u64;
    fn trial_split_plain_step(
        block: *mut u64,
        words: usize,
        program: *const u8,
        program_bytes: usize,
        writable: *mut u8,
        writable_bytes: usize,
    ) -> u64;
    fn trial_split_plain_run(
        block: *mut u64,
        words: usize,
        program: *const u8,
        program_bytes: usize,
        writable: *mut u8,
        writable_bytes: usize,
        budget: u64,
        log: *mut u64,
        log_length: usize,
    ) -> u64;
    fn trial_split_pipe_clock(
        block: *mut u64,
        words: usize,
        program: *const u8,
        program_bytes: usize,
        writable: *mut u8,
        writable_bytes: usize,
    ) -> u64;
    fn trial_split_pipe_run_unlogged(
        block: *mut u64,
        words: usize,
        program: *const u8,
        program_bytes: usize,
        writable: *mut u8,
        writable_bytes: usize,
        budget: u64,
    ) -> u64;
    fn trial_split_pipe_run(
        block: *mut u64,
        words: usize,
        program: *const u8,
        program_bytes: usize,
        writable: *mut u8,
        writable_bytes: usize,
        budget: u64,
        addresses: *mut u64,
        addresses_length: usize,
        cycles: *mut u64,
        cycles_length: usize,
    ) -> u64;
}

// SAFETY, of all that follow: as in entries.rs; the two parts of memory are
// parts of one vector and do not overlap, and the program's is only read.

pub fn plain_step(call: &mut Call<Machine>) -> u64 {
    let (program, writable) = call.memory.split_at_mut(call.seam);
    in_block(&mut call.record, |block| unsafe {
        trial_split_plain_step(
            block.as_mut_ptr(),
            block.len(),
            program.as_ptr(),
            program.len(),
            writable.as_mut_ptr(),
            writable.len(),
        )
    })
}

pub fn plain_run(call: &mut Call<Machine>) -> u64 {
    let (program, writable) = call.memory.split_at_mut(call.seam);
    let log = &mut call.logs[0];
    in_block(&mut call.record, |block| unsafe {
        trial_split_plain_run(
            block.as_mut_ptr(),
            block.len(),
            program.as_ptr(),
            program.len(),
            writable.as_mut_ptr(),
            writable.len(),
            call.budget,
            log.as_mut_ptr(),
            log.len(),
        )
    })
}

pub fn pipe_clock(call: &mut Call<Pipeline>) -> u64 {
    let (program, writable) = call.memory.split_at_mut(call.seam);
    in_block(&mut call.record, |block| unsafe {
        trial_split_pipe_clock(
            block.as_mut_ptr(),
            block.len(),
            program.as_ptr(),
            program.len(),
            writable.as_mut_ptr(),
            writable.len(),
        )
    })
}

pub fn pipe_run_unlogged(call: &mut Call<Pipeline>) -> u64 {
    let (program, writable) = call.memory.split_at_mut(call.seam);
    in_block(&mut call.record, |block| unsafe {
        trial_split_pipe_run_unlogged(
            block.as_mut_ptr(),
            block.len(),
            program.as_ptr(),
            program.len(),
            writable.as_mut_ptr(),
            writable.len(),
            call.budget,
        )
    })
}

pub fn pipe_run(call: &mut Call<Pipeline>) -> u64 {
    let (program, writable) = call.memory.split_at_mut(call.seam);
    let [addresses, cycles] = two(&mut call.logs);
    in_block(&mut call.record, |block| unsafe {
        trial_split_pipe_run(
            block.as_mut_ptr(),
            block.len(),
            program.as_ptr(),
            program.len(),
            writable.as_mut_ptr(),
            writable.len(),
            call.budget,
            addresses.as_mut_ptr(),
            addresses.len(),
            cycles.as_mut_ptr(),
            cycles.len(),
        )
    })
}

/// What the product answers to a fetch over two memories.
pub fn fetch(memory: &mut [u8], seam: usize, address: u64) -> Answer {
    let (program, writable) = memory.split_at_mut(seam);
    let mut block = [0; INSTRUCTION + 1];
    let number = unsafe {
        trial_split_fetch(
            program.as_ptr(),
            program.len(),
            writable.as_mut_ptr(),
            writable.len(),
            address,
            block.as_mut_ptr(),
            block.len(),
        )
    };
    answered(number, &block)
}
