//! Calls of both engines, with records fresh, reached by a run and made by
//! hand, some of them to be refused for any reasons together.

use super::records::{refused_rule, settings, Record};
use super::{outside, refused_memory, refused_window, Case, Generator, Random};
use crate::second::arithmetic::Codes;
use crate::second::machine::{MEMORY_LIMIT, PROGRAM_LIMIT};
use crate::second::memory::{Extent, Memory};
use crate::second::pipeline::Settings;
use crate::second::replay::read_registers;
use crate::second::table::row_of;

/// What is lent and given to one call, and, after it, what it left.
#[derive(Clone, Debug, PartialEq, Eq)]
pub struct Call<R> {
    pub record: R,
    /// All bytes, of which those up to the seam are the program's (#110).
    pub memory: Vec<u8>,
    pub seam: usize,
    pub budget: u64,
    /// The lent logs, none for a run without.
    pub logs: Vec<Vec<u64>>,
}

impl<R> Call<R> {
    /// The memory as it is lent.
    pub fn lent(&mut self) -> Memory<'_> {
        Memory::split(&mut self.memory, self.seam)
    }

    pub fn extent(&self) -> Extent {
        Extent {
            seam: self.seam as u64,
            size: self.memory.len() as u64,
        }
    }
}

/// Where the record of a call comes from.
#[derive(Clone, Copy, Debug, PartialEq, Eq)]
pub enum Origin {
    Fresh,
    Reached,
    HandMade,
}

/// What is called: a run with logs or without, or a single step or clock.
#[derive(Clone, Copy, Debug, PartialEq, Eq)]
pub enum Way {
    Logged,
    Unlogged,
    Single,
}

/// Makes one call after the other.
pub struct Calls {
    random: Random,
    programs: Generator,
    /// Whether memory may be lent in two parts.
    splits: bool,
}

impl Calls {
    pub fn new(seed: u64) -> Calls {
        Calls {
            random: Random::new(seed),
            programs: Generator::new(seed.rotate_left(32)),
            splits: false,
        }
    }

    /// Calls of which half have memory in two parts.
    pub fn splitting(seed: u64) -> Calls {
        Calls {
            splits: true,
            ..Calls::new(seed)
        }
    }

    /// The next call of one engine; one in four is spoilt.
    pub fn call<R: Record>(&mut self, way: Way) -> (Origin, Call<R>) {
        let (origin, mut record, mut memory, seam) = self.record::<R>();
        let random = &mut self.random;
        let spoilt = random.chance(1, 4);
        let mut spoil = || spoilt && random.chance(1, 2);
        let [of_memory, of_budget, of_logs, of_record] = [spoil(), spoil(), spoil(), spoil()];
        if of_memory {
            memory = refused_memory(random);
        }
        let mut budget = match way {
            Way::Single => 1,
            _ => budget(random, R::LIMIT.saturating_sub(record.spent())),
        };
        if of_budget {
            spoil_budget(random, &mut record, way, &mut budget);
        }
        if of_record {
            record.spoil(random, memory.len());
        }
        let logs = match way {
            // For a budget over the limit no long log is lent.
            Way::Logged if of_budget => lent_logs(random, R::LOGS, budget.min(400), of_logs),
            Way::Logged => lent_logs(random, R::LOGS, budget, of_logs),
            _ => Vec::new(),
        };
        let call = Call {
            record,
            seam: seam.min(memory.len()),
            memory,
            budget,
            logs,
        };
        (origin, call)
    }

    /// A record with memory for it, and a seam in it.
    fn record<R: Record>(&mut self) -> (Origin, R, Vec<u8>, usize) {
        let (case, seam) = self.program();
        let (mut memory, start) = (case.image, case.start);
        let registers = read_registers(&case.registers);
        let random = &mut self.random;
        let codes = any_codes(random);
        let mut record = R::fresh(random, registers, codes, start, memory.len());
        let origins = [
            Origin::Fresh,
            Origin::Reached,
            Origin::HandMade,
            Origin::HandMade,
        ];
        let origin = random.pick(&origins);
        match origin {
            // In less memory than it was started for, it starts outside.
            Origin::Fresh if random.chance(1, 8) => {
                let left = 1 + random.below(start.max(1)) as usize;
                memory.truncate(left);
            }
            Origin::Fresh => {}
            Origin::Reached => {
                for _ in 0..1 + random.below(30) {
                    record.advance(Memory::split(&mut memory, seam));
                }
            }
            Origin::HandMade => record = R::made(random, memory.len()),
        }
        (origin, record, memory, seam)
    }

    /// A program, and a seam in its memory, 0 for one memory.
    fn program(&mut self) -> (Case, usize) {
        let kind = self.programs.running_kind();
        let case = self.programs.case_of(kind);
        let seam = match self.splits && self.random.chance(1, 2) {
            true => self.programs.seam(&case),
            false => 0,
        };
        (case, seam)
    }

    /// A memory size and an address for a fresh start, inside and outside of
    /// all limits.
    pub fn start(&mut self) -> (u64, u64) {
        let random = &mut self.random;
        let limit = MEMORY_LIMIT as u64;
        let any = random.below(limit + 1);
        let at_ends = random.pick(&[0, 1, 4_096, 4_097, limit - 1, limit]);
        let over = random.pick(&[limit + 1, limit + 1 + any, 1 << 32, u64::MAX]);
        let size = random.pick(&[at_ends, at_ends, any, over]);
        let start = match random.below(4) {
            0 => size.saturating_sub(1),
            1 => outside(random, size),
            _ => random.below(size.max(1)),
        };
        (size, start)
    }

    /// Settings for a fresh start in a memory of this size, refused ones too.
    pub fn settings(&mut self, size: u64) -> Settings {
        let size = size.min(MEMORY_LIMIT as u64) as usize;
        let allowed = settings(&mut self.random, size);
        let refused = Settings {
            rule: refused_rule(&mut self.random),
            ..allowed
        };
        let outside = Settings {
            window: Some(refused_window(&mut self.random, size)),
            ..allowed
        };
        let choices = [
            allowed, allowed, allowed, allowed, refused, refused, outside,
        ];
        self.random.pick(&choices)
    }

    /// Memory, its seam and an address to fetch from, inside and outside of all
    /// limits.
    pub fn fetch(&mut self) -> (Vec<u8>, usize, u64) {
        let (case, seam) = self.program();
        let (mut memory, start) = (case.image, case.start);
        let random = &mut self.random;
        if random.chance(1, 8) {
            memory = refused_memory(random);
        }
        let size = memory.len() as u64;
        let (few, far) = (random.below(12), random.word());
        let address = match random.below(8) {
            0 => size.wrapping_sub(few),
            1 if random.chance(1, 2) => PROGRAM_LIMIT as u64 + 2 - few,
            1 => random.pick(&[far, u64::MAX - few, size + few, 1 << 32, 1 << 63]),
            2 => start,
            3 if seam > 0 => (seam as u64 + 2).wrapping_sub(few),
            _ => far % (size + 1),
        };
        if random.chance(1, 2) {
            lay_instruction(random, &mut memory, address);
        }
        let seam = seam.min(memory.len());
        (memory, seam, address)
    }
}

/// Puts the first two bytes of an instruction at an address, as far as they
/// are inside: of any code, with a function that is mostly in the table, and
/// with registers or fillers that are often 15.
fn lay_instruction(random: &mut Random, memory: &mut [u8], address: u64) {
    let code = random.below(16) as u8;
    let known = u64::from(row_of(code).functions.max(1));
    let functions = random.pick(&[known, known, known, 16]);
    let function = random.below(functions) as u8;
    let any = random.below(16) as u8;
    let mut half = || random.pick(&[0, 8, 14, 15, 15, any]);
    let bytes = [code << 4 | function, half() << 4 | half()];
    let places = memory.iter_mut().skip(address as usize);
    places.zip(bytes).for_each(|(place, byte)| *place = byte);
}

/// The codes of any number.
pub(super) fn any_codes(random: &mut Random) -> Codes {
    Codes::from_number(random.below(8)).expect("up to 7")
}

/// A budget from 1 on of what is left, small ones more often.
fn budget(random: &mut Random, left: u64) -> u64 {
    let left = left.max(1);
    if random.chance(1, 4_000) {
        return left;
    }
    let most = random.pick(&[1, 4, 12, 12, 60, 300]);
    (1 + random.below(most)).min(left)
}

/// Makes refusal 3 meet the call: by its budget, or by what was spent before.
fn spoil_budget<R: Record>(random: &mut Random, record: &mut R, way: Way, budget: &mut u64) {
    let over = (R::LIMIT + 1).saturating_sub(record.spent());
    let too_much = R::LIMIT + 1 - (*budget).min(R::LIMIT);
    match random.below(4) {
        0 if way != Way::Single => *budget = 0,
        1 if way != Way::Single => *budget = random.pick(&[over, over + 7, u64::MAX]),
        _ => record.spend(random.pick(&[too_much, R::LIMIT, R::LIMIT + 1, u64::MAX])),
    }
}

/// Logs of the length that fits, or longer, filled so that a place written or
/// left shows; with short, one of them or all shorter.
fn lent_logs(random: &mut Random, count: usize, fits: u64, short: bool) -> Vec<Vec<u64>> {
    let first_short = random.below(count as u64) as usize;
    let lent = |number: usize| {
        let shorter = short && fits > 0 && (number == first_short || random.chance(1, 2));
        let (below, beyond) = (random.below(fits.max(1)), random.below(20));
        let length = match shorter {
            true => random.pick(&[0, fits - 1, below]),
            false => fits + random.pick(&[0, 1, beyond]),
        };
        let first = random.word();
        (0..length).map(|place| first.wrapping_add(place)).collect()
    };
    (0..count).map(lent).collect()
}
