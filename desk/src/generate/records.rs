//! Records of both engines made by hand: any value in any field.

use super::calls::any_codes;
use super::{refused_window, Random};
use crate::second::arithmetic::Codes;
use crate::second::fault::{Fault, Reason};
use crate::second::letter::{Accessed, Decoded, Executed, Instruction, Machine, Pipeline, Retired};
use crate::second::machine::{Registers, Status, CYCLE_LIMIT, PLAIN_LIMIT, REGISTER_COUNT, RSP};
use crate::second::memory::Memory;
use crate::second::pipeline::{Kinds, Settings};
use crate::second::table::{row_of, CALL, CMOV, IADDQ, JXX, MRMOVQ, OPQ, POPQ, PUSHQ, RMMOVQ};
use crate::second::window::Window;
use std::fmt::Debug;

/// A record of one of the two engines.
pub trait Record: Clone + Debug + PartialEq {
    /// What all runs of a machine together may spend.
    const LIMIT: u64;
    /// How many logs a run takes.
    const LOGS: usize;

    /// A fresh start in a memory of this size, which the start is inside of,
    /// with any settings that are not refused.
    fn fresh(
        random: &mut Random,
        registers: Registers,
        codes: Codes,
        start: u64,
        size: usize,
    ) -> Self;

    /// One step or clock, by the letter.
    fn advance(&mut self, memory: Memory);

    /// A record made by hand that is not refused for what it holds.
    fn made(random: &mut Random, size: usize) -> Self;

    /// Makes refusal 5 meet the record, if it can.
    fn spoil(&mut self, random: &mut Random, size: usize);

    /// What was spent of the limit so far.
    fn spent(&self) -> u64;

    fn spend(&mut self, spent: u64);

    /// How many instructions were performed or retired so far.
    fn performed(&self) -> u64;

    fn status(&self) -> Status;

    /// What the record says of a failed fetch.
    fn fault(&self) -> Fault;

    /// The program address, or the predicted one.
    fn next_address(&self) -> u64;
}

impl Record for Machine {
    const LIMIT: u64 = PLAIN_LIMIT;
    const LOGS: usize = 1;

    fn fresh(
        random: &mut Random,
        registers: Registers,
        codes: Codes,
        start: u64,
        size: usize,
    ) -> Machine {
        let window = window(random, size);
        Machine::fresh(size as u64, registers, codes, start, window).expect("a start")
    }

    fn advance(&mut self, memory: Memory) {
        self.step(memory).expect("a step");
    }

    fn made(random: &mut Random, size: usize) -> Machine {
        Machine {
            registers: registers(random, size),
            codes: any_codes(random),
            address: value(random, size),
            status: status(random, 7, 8),
            last: value(random, size),
            count: spent(random, PLAIN_LIMIT),
            fault: fault(random, size),
            window: window(random, size),
        }
    }

    /// Of a machine record, refusal 5 asks for its window alone.
    fn spoil(&mut self, random: &mut Random, size: usize) {
        self.window = Some(refused_window(random, size));
    }

    fn spent(&self) -> u64 {
        self.count
    }

    fn spend(&mut self, spent: u64) {
        self.count = spent;
    }

    fn performed(&self) -> u64 {
        self.count
    }

    fn next_address(&self) -> u64 {
        self.address
    }

    fn status(&self) -> Status {
        self.status
    }

    fn fault(&self) -> Fault {
        self.fault
    }
}

impl Record for Pipeline {
    const LIMIT: u64 = CYCLE_LIMIT;
    const LOGS: usize = 2;

    fn fresh(
        random: &mut Random,
        registers: Registers,
        codes: Codes,
        start: u64,
        size: usize,
    ) -> Pipeline {
        let settings = settings(random, size);
        Pipeline::fresh(size as u64, registers, codes, start, settings).expect("a start")
    }

    fn advance(&mut self, memory: Memory) {
        self.clock(memory).expect("a clock");
    }

    fn made(random: &mut Random, size: usize) -> Pipeline {
        let cycles = spent(random, CYCLE_LIMIT);
        let mut record = Pipeline {
            predicted: value(random, size),
            registers: registers(random, size),
            codes: any_codes(random),
            status: status(random, 15, 16),
            last: value(random, size),
            retired: count(random, cycles),
            cycles,
            kinds: Kinds {
                load_use: count(random, cycles),
                mispredict: count(random, cycles),
                returns: count(random, cycles),
                patch: count(random, cycles),
            },
            fault: fault(random, size),
            ..Record::fresh(random, Registers::default(), Codes::default(), 0, size)
        };
        for place in 0..5 {
            if random.chance(4, 5) {
                let instruction = instruction(random, size);
                hold(&mut record, place, instruction, random, size);
            }
        }
        if random.chance(1, 8) {
            hold_load_and_store(&mut record, random, size);
        }
        if random.chance(1, 8) {
            hold_store_at_window(&mut record, random, size);
        }
        record
    }

    fn spoil(&mut self, random: &mut Random, size: usize) {
        for _ in 0..random.pick(&[1, 1, 1, 3]) {
            let more = self.cycles.saturating_add(1 + random.below(3));
            let count = random.pick(&[more, u64::MAX]);
            match random.below(17) {
                0 => self.retired = count,
                1 => self.kinds.load_use = count,
                2 => self.kinds.mispredict = count,
                3 => self.kinds.returns = count,
                4 | 5 => self.settings.rule = refused_rule(random),
                6 => self.kinds.patch = count,
                7 | 8 => self.settings.window = Some(refused_window(random, size)),
                _ => {
                    let instruction = refused_instruction(random, size);
                    let place = random.below(5);
                    hold(self, place, instruction, random, size);
                }
            }
        }
    }

    fn spent(&self) -> u64 {
        self.cycles
    }

    fn spend(&mut self, spent: u64) {
        self.cycles = spent;
    }

    fn performed(&self) -> u64 {
        self.retired
    }

    fn next_address(&self) -> u64 {
        self.predicted
    }

    fn status(&self) -> Status {
        self.status
    }

    fn fault(&self) -> Fault {
        self.fault
    }
}

/// Settings that are not refused.
pub(super) fn settings(random: &mut Random, size: usize) -> Settings {
    Settings {
        rule: random.below(u64::from(Settings::LAST_RULE) + 1) as u8,
        late: random.chance(1, 2),
        window: window(random, size),
    }
}

/// No window, or any that is not refused: all of memory, a part of it, none.
fn window(random: &mut Random, size: usize) -> Option<Window> {
    if random.chance(1, 2) {
        return None;
    }
    let size = size as u64;
    let (one, other) = (random.below(size + 1), random.below(size + 1));
    let (first, end) = random.pick(&[
        (0, size),
        (0, one),
        (0, one),
        (one, one),
        (one.min(other), one.max(other)),
    ]);
    Some(Window { first, end })
}

/// Puts a store or a call into M that writes near an end of the window, and
/// anything that gives way to it into E and D.
fn hold_store_at_window(record: &mut Pipeline, random: &mut Random, size: usize) {
    let store = Instruction {
        code: random.pick(&[RMMOVQ, PUSHQ, CALL]),
        status: status(random, 15, 16),
        ..instruction(random, size)
    };
    hold(record, 2, store, random, size);
    let room = (size as u64).saturating_sub(7).max(1);
    let (at, size) = (random.below(room), size as u64);
    if let Some(m) = &mut record.m {
        m.result = at;
    }
    let moved = random.below(9);
    let (first, end) = random.pick(&[
        (0, at + moved),
        (at + moved, size),
        (at + moved, at + moved),
        (at + 2, at + 5),
    ]);
    let (first, end) = (first.min(size), end.min(size));
    record.settings.window = Some(Window { first, end });
}

/// A rule number that is refused.
pub(super) fn refused_rule(random: &mut Random) -> u8 {
    let over = Settings::LAST_RULE + 1;
    let any = over + random.below(u64::from(u8::MAX - over)) as u8;
    random.pick(&[3, 4, 255, any])
}

/// A value that is often an address inside, and sometimes at an end of the
/// number line.
fn value(random: &mut Random, size: usize) -> u64 {
    let size = size as u64;
    match random.below(8) {
        0 => random.word(),
        1 => random.pick(&[0, 1, 1 << 63, (1 << 63) - 1, u64::MAX, u64::MAX - 7]),
        2 => size.wrapping_add(3).wrapping_sub(random.below(14)),
        _ => random.below(size + 1),
    }
}

fn registers(random: &mut Random, size: usize) -> Registers {
    let mut registers = [0; REGISTER_COUNT];
    for register in &mut registers {
        *register = value(random, size);
    }
    Registers(registers)
}

/// AOK in so many cases of so many, otherwise any of the others.
fn status(random: &mut Random, good: u64, of: u64) -> Status {
    if random.chance(good, of) {
        return Status::Aok;
    }
    random.pick(&[Status::Hlt, Status::Adr, Status::Ins])
}

/// None, or any reason, whatever the status is.
fn reason(random: &mut Random) -> Reason {
    let any = random.pick(&Reason::ALL);
    random.pick(&[Reason::None, any])
}

/// What a record may say of a failed fetch: nothing, or anything.
fn fault(random: &mut Random, size: usize) -> Fault {
    let any = Fault {
        reason: reason(random),
        address: value(random, size),
    };
    random.pick(&[Fault::default(), any])
}

/// What was spent: mostly little, sometimes all but a little.
fn spent(random: &mut Random, limit: u64) -> u64 {
    match random.below(4) {
        0 => limit - 1 - random.below(400),
        1 => random.below(limit),
        _ => random.below(200),
    }
}

/// A count that is at most the cycles.
fn count(random: &mut Random, cycles: u64) -> u64 {
    let any = random.below(cycles + 1);
    random.pick(&[0, cycles, any, any])
}

/// A register number; few of them, so that sources and targets meet.
fn register(random: &mut Random) -> u8 {
    match random.below(4) {
        0 => random.below(16) as u8,
        _ => random.pick(&[0, 4, 4, 14, 15]),
    }
}

/// An instruction that a record may hold. Its next address is often the one
/// behind it, and its constant at times the next address or just below.
fn instruction(random: &mut Random, size: usize) -> Instruction {
    let code = random.below(u64::from(IADDQ) + 1) as u8;
    let [address, own, constant] = [(); 3].map(|()| value(random, size));
    let behind = address.wrapping_add(u64::from(row_of(code).length));
    let next = random.pick(&[own, behind]);
    let below = next.wrapping_sub(1);
    Instruction {
        address,
        status: status(random, 7, 8),
        code,
        function: random.below(functions(code)) as u8,
        ra: register(random),
        rb: register(random),
        constant: random.pick(&[next, below, constant, constant, constant, constant]),
        next,
        reason: reason(random),
    }
}

/// Puts a load and, just behind it, a store or a call into a record; what is
/// loaded is often stored or part of an address.
fn hold_load_and_store(record: &mut Pipeline, random: &mut Random, size: usize) {
    let loaded = random.pick(&[0, RSP, RSP, 14]);
    let load = Instruction {
        code: random.pick(&[MRMOVQ, POPQ]),
        ra: loaded,
        ..instruction(random, size)
    };
    let other = register(random);
    let store = Instruction {
        code: random.pick(&[RMMOVQ, RMMOVQ, PUSHQ, PUSHQ, CALL]),
        ra: random.pick(&[loaded, loaded, other]),
        rb: random.pick(&[loaded, other]),
        ..instruction(random, size)
    };
    // Into D and E, E and M, or W and the place of the kept one.
    let place = random.pick(&[0, 1, 3]);
    hold(record, place, store, random, size);
    hold(record, place + 1, load, random, size);
}

/// How many functions of a code a record may hold, from 0 on.
fn functions(code: u8) -> u64 {
    match code {
        CMOV | JXX => 7,
        OPQ => 4,
        _ => 256,
    }
}

/// An instruction that refusal 5 meets.
fn refused_instruction(random: &mut Random, size: usize) -> Instruction {
    let mut spoilt = instruction(random, size);
    let register = random.pick(&[16, 17, 31, 128, 255]);
    match random.below(4) {
        0 => spoilt.ra = register,
        1 => spoilt.rb = register,
        2 => spoilt.code = random.pick(&[13, 14, 15, 16, 18, 255]),
        _ => {
            spoilt.code = random.pick(&[CMOV, JXX, OPQ]);
            let first = functions(spoilt.code) as u8;
            spoilt.function = random.pick(&[first, first + 1, 16, 128, 255]);
        }
    }
    spoilt
}

/// What M holds of an instruction, with these values.
fn executed(instruction: Instruction, [a, result]: [u64; 2], holds: bool) -> Executed {
    Executed {
        instruction,
        a,
        result,
        holds,
    }
}

/// Puts an instruction into D, E, M or W, or keeps it, by the place's number,
/// with any values for what the place adds.
fn hold(
    record: &mut Pipeline,
    place: u64,
    instruction: Instruction,
    random: &mut Random,
    size: usize,
) {
    let [one, other] = [value(random, size), value(random, size)];
    let [holds, patched] = [random.chance(1, 2), random.chance(1, 4)];
    match place {
        0 => record.d = Some(instruction),
        1 => {
            let (a, b) = (one, other);
            record.e = Some(Decoded { instruction, a, b });
        }
        2 => record.m = Some(executed(instruction, [one, other], holds)),
        3 => {
            record.w = Some(Accessed {
                instruction,
                result: one,
                holds,
                word: other,
                status: status(random, 5, 6),
                patched,
            })
        }
        _ => {
            record.kept = Some(Retired {
                instruction,
                holds,
                patched,
            })
        }
    }
}
