//! The entries of both engines: each as the product has it, with C linkage,
//! and as the letter has it.

use crate::blocks::{instruction, Block, INSTRUCTION};
#[cfg(trial_split)]
use crate::split;
use desk::generate::{Call, Record, Way};
use desk::second::letter::{Fetched, Instruction, Machine, Pipeline};
use desk::second::machine::Refusal;
use desk::second::memory::Memory;
use desk::second::pipeline::Logs;

// Nothing checks these declarations against the Rattle source: they are
// written after crates/trial/src/lib.rt by hand, and the two change together.
// A slice passes as its pointer and then its length. `rt staticlib trial`
// builds the archive, which desk/check does; only this test links it.
#[link(name = "trial", kind = "static")]
extern "C" {
    fn trial_fetch(
        memory: *mut u8,
        bytes: usize,
        address: u64,
        block: *mut u64,
        words: usize,
    ) -> u64;
    // A start is given the size of memory before its address, and answers by
    // number (#109); `start_by_product` alone calls it.
    fn trial_plain_start(block: *mut u64, words: usize, size: u64, address: u64) -> u64;
    fn trial_plain_step(block: *mut u64, words: usize, memory: *mut u8, bytes: usize) -> u64;
    fn trial_plain_run(
        block: *mut u64,
        words: usize,
        memory: *mut u8,
        bytes: usize,
        budget: u64,
        log: *mut u64,
        log_length: usize,
    ) -> u64;
    fn trial_pipe_start(block: *mut u64, words: usize, size: u64, address: u64) -> u64;
    fn trial_pipe_clock(block: *mut u64, words: usize, memory: *mut u8, bytes: usize) -> u64;
    fn trial_pipe_run_unlogged(
        block: *mut u64,
        words: usize,
        memory: *mut u8,
        bytes: usize,
        budget: u64,
    ) -> u64;
    fn trial_pipe_run(
        block: *mut u64,
        words: usize,
        memory: *mut u8,
        bytes: usize,
        budget: u64,
        addresses: *mut u64,
        addresses_length: usize,
        cycles: *mut u64,
        cycles_length: usize,
    ) -> u64;
}

/// One entry of an engine. The two functions take a call, leave in it what the
/// entry left, and answer 0 or the number of the refusal.
pub struct Entry<R> {
    pub name: &'static str,
    /// The heading under which its refusals are counted.
    pub refused: &'static str,
    pub way: Way,
    pub product: fn(&mut Call<R>) -> u64,
    pub letter: fn(&mut Call<R>) -> u64,
}

pub const PLAIN_RUN: Entry<Machine> = Entry {
    name: "plain::run",
    refused: "plain::run refused for",
    way: Way::Logged,
    product: plain_run,
    letter: |call| {
        let lent = Memory::split(&mut call.memory, call.seam);
        number(call.record.run(lent, call.budget, &mut call.logs[0]))
    },
};

pub const PLAIN_STEP: Entry<Machine> = Entry {
    name: "plain::step",
    refused: "plain::step refused for",
    way: Way::Single,
    product: plain_step,
    letter: |call| {
        let lent = Memory::split(&mut call.memory, call.seam);
        number(call.record.step(lent))
    },
};

pub const PIPE_RUN: Entry<Pipeline> = Entry {
    name: "pipe::run",
    refused: "pipe::run refused for",
    way: Way::Logged,
    product: pipe_run,
    letter: |call| {
        let [addresses, cycles] = two(&mut call.logs);
        let logs = Logs { addresses, cycles };
        let lent = Memory::split(&mut call.memory, call.seam);
        number(call.record.run(lent, call.budget, logs))
    },
};

pub const PIPE_RUN_UNLOGGED: Entry<Pipeline> = Entry {
    name: "pipe::run_unlogged",
    refused: "pipe::run_unlogged refused for",
    way: Way::Unlogged,
    product: pipe_run_unlogged,
    letter: |call| {
        let lent = Memory::split(&mut call.memory, call.seam);
        number(call.record.run_unlogged(lent, call.budget))
    },
};

pub const PIPE_CLOCK: Entry<Pipeline> = Entry {
    name: "pipe::clock",
    refused: "pipe::clock refused for",
    way: Way::Single,
    product: pipe_clock,
    letter: |call| {
        let lent = Memory::split(&mut call.memory, call.seam);
        number(call.record.clock(lent))
    },
};

/// A record of an engine that can be called.
pub trait Engine: Record + Block {
    /// Every refusal that applies to a call, by the letter.
    fn reasons(&self, call: &Call<Self>) -> Vec<Refusal>;

    /// The heading under which refused starts are counted.
    const START_REFUSED: &'static str;

    /// Every refusal that applies to a fresh start with this record's settings,
    /// by the letter.
    fn start_reasons(&self, size: u64, start: u64) -> Vec<Refusal>;

    /// A fresh start with this record's registers, codes and settings in a memory
    /// of this size, by the product: over this record's block, so that a word left
    /// over shows. Answers 0 or the number of the refusal.
    fn start_by_product(&mut self, size: u64, start: u64) -> u64;

    /// The same by the letter. A refused start leaves the record as it was.
    fn start_by_letter(&mut self, size: u64, start: u64) -> u64;
}

impl Engine for Machine {
    fn reasons(&self, call: &Call<Machine>) -> Vec<Refusal> {
        let logs: Vec<&[u64]> = call.logs.iter().map(Vec::as_slice).collect();
        Machine::reasons(self, call.extent().size, call.budget, &logs)
    }

    const START_REFUSED: &'static str = "plain::start refused for";

    fn start_reasons(&self, size: u64, start: u64) -> Vec<Refusal> {
        Machine::start_reasons(size, start, self.window)
    }

    fn start_by_product(&mut self, size: u64, start: u64) -> u64 {
        in_block(self, |block| unsafe {
            trial_plain_start(block.as_mut_ptr(), block.len(), size, start)
        })
    }

    fn start_by_letter(&mut self, size: u64, start: u64) -> u64 {
        let fresh = Machine::fresh(size, self.registers, self.codes, start, self.window);
        number(fresh.map(|fresh| *self = fresh))
    }
}

impl Engine for Pipeline {
    fn reasons(&self, call: &Call<Pipeline>) -> Vec<Refusal> {
        let logs: Vec<&[u64]> = call.logs.iter().map(Vec::as_slice).collect();
        Pipeline::reasons(self, call.extent().size, call.budget, &logs)
    }

    const START_REFUSED: &'static str = "pipe::start refused for";

    fn start_reasons(&self, size: u64, start: u64) -> Vec<Refusal> {
        Pipeline::start_reasons(size, start, self.settings)
    }

    fn start_by_product(&mut self, size: u64, start: u64) -> u64 {
        in_block(self, |block| unsafe {
            trial_pipe_start(block.as_mut_ptr(), block.len(), size, start)
        })
    }

    fn start_by_letter(&mut self, size: u64, start: u64) -> u64 {
        let fresh = Pipeline::fresh(size, self.registers, self.codes, start, self.settings);
        number(fresh.map(|fresh| *self = fresh))
    }
}

/// The two logs of a pipelined call.
pub fn two(logs: &mut [Vec<u64>]) -> &mut [Vec<u64>; 2] {
    logs.try_into().expect("two logs are lent")
}

pub fn number(answer: Result<(), Refusal>) -> u64 {
    answer.map_or_else(Refusal::number, |()| 0)
}

/// Hands a record over as a block, and takes back what the block then holds.
pub fn in_block<R: Block, A>(record: &mut R, call: impl FnOnce(&mut [u64]) -> A) -> A {
    let mut block = record.words();
    let answer = call(&mut block);
    *record = R::from_words(&block);
    answer
}

// SAFETY, of all that follow: each pointer and length come from one vector
// that is borrowed for the length of the call, and no two of them overlap. The
// entries are proved to stay inside them, and ask nothing else of a caller.

/// Whether the entry over two memories is called: where there are two, and for
/// some of one memory, as the case of no program bytes.
fn is_split(size: usize, seam: usize) -> bool {
    cfg!(trial_split) && (seam > 0 || size % 2 == 1)
}

fn plain_step(call: &mut Call<Machine>) -> u64 {
    if is_split(call.memory.len(), call.seam) {
        #[cfg(trial_split)]
        return split::plain_step(call);
    }
    let memory = &mut call.memory;
    in_block(&mut call.record, |block| unsafe {
        trial_plain_step(
            block.as_mut_ptr(),
            block.len(),
            memory.as_mut_ptr(),
            memory.len(),
        )
    })
}

fn plain_run(call: &mut Call<Machine>) -> u64 {
    if is_split(call.memory.len(), call.seam) {
        #[cfg(trial_split)]
        return split::plain_run(call);
    }
    let (memory, log) = (&mut call.memory, &mut call.logs[0]);
    in_block(&mut call.record, |block| unsafe {
        trial_plain_run(
            block.as_mut_ptr(),
            block.len(),
            memory.as_mut_ptr(),
            memory.len(),
            call.budget,
            log.as_mut_ptr(),
            log.len(),
        )
    })
}

fn pipe_clock(call: &mut Call<Pipeline>) -> u64 {
    if is_split(call.memory.len(), call.seam) {
        #[cfg(trial_split)]
        return split::pipe_clock(call);
    }
    let memory = &mut call.memory;
    in_block(&mut call.record, |block| unsafe {
        trial_pipe_clock(
            block.as_mut_ptr(),
            block.len(),
            memory.as_mut_ptr(),
            memory.len(),
        )
    })
}

fn pipe_run_unlogged(call: &mut Call<Pipeline>) -> u64 {
    if is_split(call.memory.len(), call.seam) {
        #[cfg(trial_split)]
        return split::pipe_run_unlogged(call);
    }
    let memory = &mut call.memory;
    in_block(&mut call.record, |block| unsafe {
        trial_pipe_run_unlogged(
            block.as_mut_ptr(),
            block.len(),
            memory.as_mut_ptr(),
            memory.len(),
            call.budget,
        )
    })
}

fn pipe_run(call: &mut Call<Pipeline>) -> u64 {
    if is_split(call.memory.len(), call.seam) {
        #[cfg(trial_split)]
        return split::pipe_run(call);
    }
    let memory = &mut call.memory;
    let [addresses, cycles] = two(&mut call.logs);
    in_block(&mut call.record, |block| unsafe {
        trial_pipe_run(
            block.as_mut_ptr(),
            block.len(),
            memory.as_mut_ptr(),
            memory.len(),
            call.budget,
            addresses.as_mut_ptr(),
            addresses.len(),
            cycles.as_mut_ptr(),
            cycles.len(),
        )
    })
}

/// A fetch's answer: the number, the instruction and the byte at fault.
pub type Answer = (u64, Instruction, u64);

/// What the letter answers to a fetch, with the number.
pub fn numbered((answer, instruction, fault): Fetched) -> Answer {
    (number(answer), instruction, fault)
}

/// The answer with this number and block: the word behind the instruction has
/// the address of the byte at fault.
pub fn answered(number: u64, block: &[u64; INSTRUCTION + 1]) -> Answer {
    let fetched = instruction(block).expect("an instruction");
    (number, fetched, block[INSTRUCTION])
}

/// What the product answers to a fetch.
pub fn fetch(memory: &mut [u8], seam: usize, address: u64) -> Answer {
    if is_split(memory.len(), seam) {
        #[cfg(trial_split)]
        return split::fetch(memory, seam, address);
    }
    let mut block = [0; INSTRUCTION + 1];
    let answer = unsafe {
        trial_fetch(
            memory.as_mut_ptr(),
            memory.len(),
            address,
            block.as_mut_ptr(),
            block.len(),
        )
    };
    answered(answer, &block)
}
