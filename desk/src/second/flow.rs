//! The clock: what one cycle does to a running pipeline.

use super::arithmetic::{operate, Codes, ADD};
use super::fault::Fault;
use super::machine::{Registers, Status, NONE};
use super::memory::{Extent, Memory};
use super::pipeline::{Kinds, Pipeline, Settings};
use super::stages::{fetch_stage, Accessing, Decoding, Executing, Instruction, Writing};
use super::table::{CALL, CMOV, IADDQ, IRMOVQ, JXX, MRMOVQ, OPQ, POPQ, PUSHQ, RET, RMMOVQ};
use super::window::Window;

/// The working copy of a pipelined record, for the length of a run. A stage
/// without an instruction holds a bubble that looks like a nop; the registers
/// are beside it, so that all the rest can stay out of memory.
pub(super) struct Flow {
    predicted: u64,
    d: Decoding,
    e: Executing,
    m: Accessing,
    w: Writing,
    codes: Codes,
    pub(super) status: Status,
    pub(super) last: u64,
    retired: u64,
    pub(super) cycles: u64,
    kinds: Kinds,
    kept: Instruction,
    rule: u8,
    late: bool,
}

impl Flow {
    /// The working copy of a record.
    pub(super) fn of(record: &Pipeline) -> Flow {
        Flow {
            predicted: record.predicted,
            d: record.d.unwrap_or(Decoding::BUBBLE),
            e: record.e.unwrap_or(Executing::BUBBLE),
            m: record.m.unwrap_or(Accessing::BUBBLE),
            w: record.w.unwrap_or(Writing::BUBBLE),
            codes: record.codes,
            status: record.status,
            last: record.last,
            retired: record.retired,
            cycles: record.cycles,
            kinds: record.kinds,
            kept: record.kept.unwrap_or(Instruction::BUBBLE),
            rule: record.settings.rule,
            late: record.settings.late,
        }
    }

    /// The record of a working copy, with its registers, its window and what it
    /// says of a failed fetch.
    pub(super) fn record(
        self,
        registers: Registers,
        window: Option<Window>,
        fault: Fault,
    ) -> Pipeline {
        Pipeline {
            predicted: self.predicted,
            d: self.d.instruction.is_present().then_some(self.d),
            e: self.e.instruction.is_present().then_some(self.e),
            m: self.m.instruction.is_present().then_some(self.m),
            w: self.w.instruction.is_present().then_some(self.w),
            registers,
            codes: self.codes,
            status: self.status,
            last: self.last,
            retired: self.retired,
            cycles: self.cycles,
            kinds: self.kinds,
            kept: self.kept.is_present().then_some(self.kept),
            settings: Settings {
                rule: self.rule,
                late: self.late,
                window,
            },
            fault,
        }
    }

    /// What the instruction that has stopped the machine says of its fetch; it
    /// still stands in W.
    pub(super) fn fault(&self, memory: Extent, window: Option<Window>) -> Fault {
        let (reason, at) = (self.w.instruction.reason(), self.w.instruction.address());
        Fault {
            reason,
            address: reason.address(at, memory.code_end(at, window)),
        }
    }

    /// One clock of a running machine. Says whether an instruction retired.
    #[inline(always)]
    pub(super) fn advance(
        &mut self,
        registers: &mut Registers,
        memory: &mut Memory,
        window: Option<Window>,
    ) -> bool {
        self.cycles += 1;
        let fetch_address = self.fetch_address();
        let retired = self.retire(registers);
        if self.status != Status::Aok {
            return retired;
        }
        let (mut executed, codes) = execute(&self.e, self.codes);
        let load_use = self.load_use();
        let mispredicted = executed.instruction.is_guessed_wrongly();
        let returning = self.returning();
        let mut into_d = Decoding::BUBBLE;
        if load_use {
            into_d = self.d;
        } else if !returning {
            // Before the access: memory is read before the clock's write.
            (into_d, self.predicted) = fetch_stage(memory, window, fetch_address, self.rule);
        }
        let accessed = access(memory, window, &self.m);
        if window.is_some() && accessed.instruction.has_patched() {
            self.restart(accessed);
            return retired;
        }
        hand_over(self.late, &accessed, &mut executed);
        if load_use || mispredicted {
            self.e = Executing::BUBBLE;
        } else {
            self.e = self.decode(&executed, &accessed, registers);
        }
        self.d = into_d;
        if mispredicted {
            self.d = Decoding::BUBBLE;
        }
        self.w = accessed;
        // A bad status in M, after its access, keeps what is in E from going
        // on and from setting codes.
        self.m = Accessing::BUBBLE;
        if !accessed.instruction.is_bad() {
            self.m = executed;
            self.codes = codes;
        }
        retired
    }

    /// Behind a store in M that wrote into the window: everything younger is
    /// cancelled, and its codes are not set; fetch goes on behind the store, or
    /// at a call's target.
    #[inline(always)]
    fn restart(&mut self, store: Writing) {
        self.predicted = match store.instruction.code() {
            CALL => self.m.a,
            _ => store.instruction.next(),
        };
        self.d = Decoding::BUBBLE;
        self.e = Executing::BUBBLE;
        self.m = Accessing::BUBBLE;
        self.w = store;
    }

    /// Where fetch reads: the way back from a wrong guess, then the word a ret
    /// read, then the predicted address.
    #[inline(always)]
    fn fetch_address(&self) -> u64 {
        if self.m.instruction.is_guessed_wrongly() {
            self.m.goes_to()
        } else if self.w.instruction.code() == RET {
            self.w.loaded
        } else {
            self.predicted
        }
    }

    /// Retires the instruction in W, if any. With a bad status only counts,
    /// status and last address change.
    ///
    /// The registers are written before decode reads them, so the register
    /// file stands for the last two places of the forwarding order as well.
    #[inline(always)]
    fn retire(&mut self, registers: &mut Registers) -> bool {
        let instruction = self.w.instruction;
        if !instruction.is_present() {
            return false;
        }
        self.retired += 1;
        self.last = instruction.address();
        self.charge(&instruction);
        if instruction.is_bad() {
            self.status = instruction.status();
            return true;
        }
        registers.set(instruction.result_target(), self.w.result);
        registers.set(instruction.loaded_target(), self.w.loaded);
        self.kept = instruction;
        true
    }

    /// Charges the retiring instruction by the kept one before it; a bubble
    /// kept, which is none, charges nothing.
    #[inline(always)]
    fn charge(&mut self, retiring: &Instruction) {
        let kept = &self.kept;
        if retiring.waits_for(kept.loaded_target(), self.late) {
            self.kinds.load_use += 1;
        } else if kept.is_guessed_wrongly() && kept.function() != 0 {
            self.kinds.mispredict += 2;
        } else if kept.code() == RET {
            self.kinds.returns += 3;
        } else if kept.has_patched() {
            self.kinds.patch += 3;
        }
    }

    /// A load in E whose register is waited for in D.
    #[inline(always)]
    fn load_use(&self) -> bool {
        let loaded = self.e.instruction.loaded_target();
        self.d.instruction.waits_for(loaded, self.late)
    }

    /// A ret in D, E or M.
    #[inline(always)]
    fn returning(&self) -> bool {
        let in_d = self.d.instruction.code() == RET;
        let in_e = self.e.instruction.code() == RET;
        let in_m = self.m.instruction.code() == RET;
        in_d | in_e | in_m
    }

    /// Decodes what is in D.
    #[inline(always)]
    fn decode(&self, executed: &Accessing, accessed: &Writing, registers: &Registers) -> Executing {
        let instruction = self.d.instruction;
        Executing {
            instruction,
            constant: self.d.constant,
            a: forward(instruction.source_a(), executed, accessed, registers),
            b: forward(instruction.source_b(), executed, accessed, registers),
        }
    }
}

/// The value of a source: result in E, word loaded in M, result in M, and then
/// the registers, which W has written. Register 15 matches nothing and reads 0.
#[inline(always)]
fn forward(source: u8, executed: &Accessing, accessed: &Writing, registers: &Registers) -> u64 {
    if source == NONE {
        0
    } else if source == executed.instruction.result_target() {
        executed.result
    } else if source == accessed.instruction.loaded_target() {
        accessed.loaded
    } else if source == accessed.instruction.result_target() {
        accessed.result
    } else {
        registers.get(source)
    }
}

/// The work of E, with the codes after it. Conditions read the codes as the
/// clock began; only OPq and iaddq set them.
#[inline(always)]
fn execute(stage: &Executing, codes: Codes) -> (Accessing, Codes) {
    let mut instruction = stage.instruction;
    let (mut a, b, constant) = (stage.a, stage.b, stage.constant);
    let mut codes_after = codes;
    let fetched = stage.instruction;
    let decided = || fetched.decided(codes.condition(fetched.function()));
    let mut setting = |(result, set)| {
        codes_after = set;
        result
    };
    let result = match instruction.code() {
        CMOV => {
            instruction = decided();
            a
        }
        JXX => {
            instruction = decided();
            constant
        }
        IRMOVQ => constant,
        RMMOVQ | MRMOVQ => b.wrapping_add(constant),
        OPQ => setting(operate(instruction.function(), a, b)),
        IADDQ => setting(operate(ADD, constant, b)),
        CALL => {
            a = constant;
            b.wrapping_sub(8)
        }
        PUSHQ => b.wrapping_sub(8),
        RET | POPQ => b.wrapping_add(8),
        _ => 0,
    };
    let made = Accessing {
        instruction,
        result,
        a,
    };
    (made, codes_after)
}

/// Late store data (#106): the word loaded in M goes straight to a store in E of
/// the register loaded, in place of what decode took for it.
#[inline(always)]
fn hand_over(late: bool, accessed: &Writing, executed: &mut Accessing) {
    let loaded = accessed.instruction.loaded_target();
    if late && executed.instruction.stores(loaded) {
        executed.a = accessed.loaded;
    }
}

/// The work of M. A load outside memory reads 0, a store outside its writable
/// part writes nothing, and either makes the status ADR. A store that writes
/// into the window is marked.
#[inline(always)]
fn access(memory: &mut Memory, window: Option<Window>, stage: &Accessing) -> Writing {
    let Accessing {
        mut instruction,
        result,
        a,
    } = *stage;
    let done = match instruction.code() {
        RMMOVQ | PUSHQ => memory.store(result, a).map(|()| 0),
        CALL => memory.store(result, instruction.next()).map(|()| 0),
        MRMOVQ => memory.load(result),
        POPQ | RET => memory.load(a),
        _ => Some(0),
    };
    let patches = |window: Window| window.is_written_at(result) && instruction.writes();
    if done.is_none() {
        instruction = instruction.outside();
    } else if window.is_some_and(patches) {
        instruction = instruction.patched();
    }
    Writing {
        instruction,
        result,
        loaded: done.unwrap_or(0),
    }
}
