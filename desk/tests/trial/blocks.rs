//! Whole records in blocks of words, as the head of crates/blocks_in/src/lib.rt
//! lays them out.

use desk::generate::Way;
use desk::second::arithmetic::Codes;
use desk::second::fault::{Fault, Reason};
use desk::second::letter::{Accessed, Decoded, Executed, Instruction, Machine, Pipeline, Retired};
use desk::second::machine::{Registers, Status};
use desk::second::pipeline::{Kinds, Settings};
use desk::second::window::Window;

/// Words in an instruction's part, and in a state part.
pub const INSTRUCTION: usize = 10;
const STATE: usize = 22;

/// The places of a pipeline block.
const D: usize = 1;
const E: usize = 11;
const M: usize = 23;
const W: usize = 36;
const PIPELINE_STATE: usize = 51;
const COUNTS: usize = 73;
const KEPT: usize = 79;
const SETTINGS: usize = 91;

/// A record that a block can hold.
pub trait Block: Sized {
    fn words(&self) -> Vec<u64>;

    /// The record in a block. A word that no record can have is a fault.
    fn from_words(words: &[u64]) -> Self;
}

impl Block for Machine {
    fn words(&self) -> Vec<u64> {
        let mut words = state(&self.registers, self.codes, self.status, self.last);
        words.extend(fault_words(self.fault));
        words.extend([self.address, self.count]);
        words.extend(window_words(self.window));
        words
    }

    fn from_words(words: &[u64]) -> Machine {
        Machine {
            registers: registers(words),
            codes: codes(words),
            address: words[STATE],
            status: status(words[18]),
            last: words[19],
            count: words[STATE + 1],
            fault: fault(words),
            window: window(&words[STATE + 2..]),
        }
    }
}

impl Block for Pipeline {
    fn words(&self) -> Vec<u64> {
        let mut words = vec![0; SETTINGS + 5];
        words[0] = self.predicted;
        let mut state = state(&self.registers, self.codes, self.status, self.last);
        state.extend(fault_words(self.fault));
        words[PIPELINE_STATE..][..STATE].copy_from_slice(&state);
        words[COUNTS] = self.retired;
        words[COUNTS + 1] = self.cycles;
        words[COUNTS + 2] = self.kinds.load_use;
        words[COUNTS + 3] = self.kinds.mispredict;
        words[COUNTS + 4] = self.kinds.returns;
        words[COUNTS + 5] = self.kinds.patch;
        let holds = u64::from;
        if let Some(d) = self.d {
            put(&mut words[D..], &d, &[]);
        }
        if let Some(e) = self.e {
            put(&mut words[E..], &e.instruction, &[e.a, e.b]);
        }
        if let Some(m) = self.m {
            put(
                &mut words[M..],
                &m.instruction,
                &[m.a, m.result, holds(m.holds)],
            );
        }
        if let Some(w) = self.w {
            let own = [w.result, holds(w.holds), w.word, w.status.number()];
            let own = [&own[..], &[holds(w.patched)]].concat();
            put(&mut words[W..], &w.instruction, &own);
        }
        if let Some(kept) = self.kept {
            let own = [holds(kept.holds), holds(kept.patched)];
            put(&mut words[KEPT..], &kept.instruction, &own);
        }
        words[SETTINGS] = u64::from(self.settings.rule);
        words[SETTINGS + 1] = u64::from(self.settings.late);
        words[SETTINGS + 2..].copy_from_slice(&window_words(self.settings.window));
        words
    }

    fn from_words(words: &[u64]) -> Pipeline {
        let state = &words[PIPELINE_STATE..];
        Pipeline {
            predicted: words[0],
            d: instruction(&words[D..]),
            e: e_from(&words[E..]),
            m: m_from(&words[M..]),
            w: w_from(&words[W..]),
            registers: registers(state),
            codes: codes(state),
            status: status(state[18]),
            last: state[19],
            retired: words[COUNTS],
            cycles: words[COUNTS + 1],
            kinds: Kinds {
                load_use: words[COUNTS + 2],
                mispredict: words[COUNTS + 3],
                returns: words[COUNTS + 4],
                patch: words[COUNTS + 5],
            },
            kept: kept_from(&words[KEPT..]),
            settings: Settings {
                rule: byte(words[SETTINGS]),
                late: truth(words[SETTINGS + 1]),
                window: window(&words[SETTINGS + 2..]),
            },
            fault: fault(state),
        }
    }
}

/// The first words of a state part; those of the fault follow.
fn state(registers: &Registers, codes: Codes, status: Status, last: u64) -> Vec<u64> {
    let mut words = registers.0.to_vec();
    words.extend([codes.zero(), codes.sign(), codes.overflow()].map(u64::from));
    words.extend([status.number(), last]);
    words
}

/// The last words of a state part.
fn fault_words(fault: Fault) -> [u64; 2] {
    [fault.reason.number(), fault.address]
}

/// Whether there is a window, its first address and its end.
fn window_words(window: Option<Window>) -> [u64; 3] {
    window.map_or([0; 3], |window| [1, window.first, window.end])
}

/// The window of three words; without one the last two are not looked at.
fn window(words: &[u64]) -> Option<Window> {
    truth(words[0]).then(|| Window {
        first: words[1],
        end: words[2],
    })
}

/// An instruction into its part, and what the stage adds behind it.
fn put(part: &mut [u64], instruction: &Instruction, own: &[u64]) {
    let words = [
        1,
        instruction.address,
        instruction.status.number(),
        u64::from(instruction.code),
        u64::from(instruction.function),
        u64::from(instruction.ra),
        u64::from(instruction.rb),
        instruction.constant,
        instruction.next,
        instruction.reason.number(),
    ];
    part[..INSTRUCTION].copy_from_slice(&words);
    part[INSTRUCTION..][..own.len()].copy_from_slice(own);
}

/// The instruction of a part, or none.
pub fn instruction(part: &[u64]) -> Option<Instruction> {
    truth(part[0]).then(|| Instruction {
        address: part[1],
        status: status(part[2]),
        code: byte(part[3]),
        function: byte(part[4]),
        ra: byte(part[5]),
        rb: byte(part[6]),
        constant: part[7],
        next: part[8],
        reason: reason(part[9]),
    })
}

fn e_from(part: &[u64]) -> Option<Decoded> {
    instruction(part).map(|instruction| Decoded {
        instruction,
        a: part[INSTRUCTION],
        b: part[INSTRUCTION + 1],
    })
}

fn m_from(part: &[u64]) -> Option<Executed> {
    instruction(part).map(|instruction| Executed {
        instruction,
        a: part[INSTRUCTION],
        result: part[INSTRUCTION + 1],
        holds: truth(part[INSTRUCTION + 2]),
    })
}

fn w_from(part: &[u64]) -> Option<Accessed> {
    instruction(part).map(|instruction| Accessed {
        instruction,
        result: part[INSTRUCTION],
        holds: truth(part[INSTRUCTION + 1]),
        word: part[INSTRUCTION + 2],
        status: status(part[INSTRUCTION + 3]),
        patched: truth(part[INSTRUCTION + 4]),
    })
}

fn kept_from(part: &[u64]) -> Option<Retired> {
    instruction(part).map(|instruction| Retired {
        instruction,
        holds: truth(part[INSTRUCTION]),
        patched: truth(part[INSTRUCTION + 1]),
    })
}

fn registers(state: &[u64]) -> Registers {
    Registers(state[..15].try_into().expect("fifteen words"))
}

fn codes(state: &[u64]) -> Codes {
    Codes::new(truth(state[15]), truth(state[16]), truth(state[17]))
}

fn fault(state: &[u64]) -> Fault {
    Fault {
        reason: reason(state[20]),
        address: state[21],
    }
}

fn reason(word: u64) -> Reason {
    Reason::from_number(word).unwrap_or_else(|| panic!("{word} is no reason"))
}

fn status(word: u64) -> Status {
    match word {
        1 => Status::Aok,
        2 => Status::Hlt,
        3 => Status::Adr,
        4 => Status::Ins,
        _ => panic!("{word} is no status"),
    }
}

fn byte(word: u64) -> u8 {
    u8::try_from(word).expect("a byte")
}

fn truth(word: u64) -> bool {
    assert!(word < 2, "{word} is neither true nor false");
    word == 1
}

/// A block holds all of a record, each word at a place of its own.
#[test]
fn blocks_hold_whole_records() {
    let mut calls = desk::generate::Calls::new(0xb10c);
    for number in 0..20_000 {
        let machine: Machine = calls.call(Way::Single).1.record;
        let words = machine.words();
        assert_eq!(words.len(), 27);
        assert_eq!(Machine::from_words(&words), machine, "call {number}");
        let pipeline: Pipeline = calls.call(Way::Single).1.record;
        let words = pipeline.words();
        assert_eq!(words.len(), 96);
        assert_eq!(Pipeline::from_words(&words), pipeline, "call {number}");
    }
}
