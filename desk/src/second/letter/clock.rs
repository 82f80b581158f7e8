//! One clock of the pipelined engine by the letter.

use super::pipeline::{Accessed, Decoded, Executed, Pipeline, Retired};
use super::work::{codes_after, holds, result, Access};
use super::{fault_of, fetch, Instruction};
use crate::second::arithmetic::Codes;
use crate::second::machine::{Status, NONE};
use crate::second::memory::{Extent, Memory};
use crate::second::table::{CALL, JXX};
use crate::second::window::Window;

impl Pipeline {
    /// One clock; on a stopped machine it changes nothing.
    pub(super) fn advance(&mut self, memory: &mut Memory) {
        if self.status != Status::Aok {
            return;
        }
        let before = *self;
        self.cycles += 1;
        self.retire(memory.extent());
        if self.status != Status::Aok {
            return;
        }
        // Memory is read before the clock's write: fetch, load, then store.
        let window = self.settings.window;
        let fetched = fetch(memory, window, before.fetch_address());
        self.w = before.m.map(|m| m.accessed(memory, window));
        if let Some(m) = before.m {
            m.access().store(memory);
        }
        self.m = before
            .e
            .map(|e| before.handed(e, &self.w).executed(before.codes));
        self.codes = before
            .e
            .map_or(before.codes, |e| e.codes_after(before.codes));
        self.e = before.d.map(|d| before.decoded(d, &self.m, &self.w));
        self.d = Some(fetched);
        self.predicted = predicted(&fetched, self.settings.rule);
        self.control(&before, memory.extent());
    }

    /// The controls at the end of a clock, over what it does without them.
    fn control(&mut self, before: &Pipeline, memory: Extent) {
        if before.load_use() {
            self.e = None;
        }
        if before.mispredicted() {
            (self.d, self.e) = (None, None);
        }
        if before.returning() {
            (self.predicted, self.d) = (before.predicted, None);
        }
        if before.load_use() {
            (self.predicted, self.d) = (before.predicted, before.d);
        }
        if before.bad_in_m(memory) {
            (self.m, self.codes) = (None, before.codes);
        }
        if let Some(following) = before.patching(memory) {
            (self.d, self.e, self.m) = (None, None, None);
            (self.predicted, self.codes) = (following, before.codes);
        }
    }

    /// Where a store in M that writes into the window goes on: at the
    /// instruction that follows it, for call its target. None, where there is no
    /// such store.
    pub fn patching(&self, memory: Extent) -> Option<u64> {
        let store = self.m.filter(|m| m.patches(memory, self.settings.window))?;
        match store.instruction.code {
            CALL => Some(store.instruction.constant),
            _ => Some(store.instruction.next),
        }
    }

    /// Retires what stands in W, if anything. With a bad status only counts,
    /// status, last address and what is said of its fetch change.
    fn retire(&mut self, memory: Extent) {
        let Some(w) = self.w else { return };
        self.retired += 1;
        self.last = w.instruction.address;
        self.charge(&w.instruction);
        self.status = w.status;
        if w.status != Status::Aok {
            self.fault = fault_of(&w.instruction, memory, self.settings.window);
        } else {
            self.registers
                .set(w.instruction.result_target(w.holds), w.result);
            self.registers.set(w.instruction.loaded_target(), w.word);
            self.kept = Some(Retired {
                instruction: w.instruction,
                holds: w.holds,
                patched: w.patched,
            });
        }
    }

    /// The charge of a retiring instruction, by the kept one before it.
    fn charge(&mut self, retiring: &Instruction) {
        let Some(kept) = self.kept else { return };
        let before = kept.instruction;
        if kept.patched {
            self.kinds.patch += 3;
            return;
        }
        if retiring.waits_for(before.loaded_target(), self.settings.late) {
            self.kinds.load_use += 1;
        }
        // Function 0 is the jump without a condition.
        let wrongly = before.is_guessed_wrongly(self.settings.rule, kept.holds);
        if wrongly && before.function != 0 {
            self.kinds.mispredict += 2;
        }
        if before.is_return() {
            self.kinds.returns += 3;
        }
    }

    /// Where fetch reads: behind a wrong guess, where the jump goes.
    fn fetch_address(&self) -> u64 {
        let rule = self.settings.rule;
        match (&self.m, &self.w) {
            (Some(m), _) if m.instruction.is_guessed_wrongly(rule, m.holds) => match m.holds {
                true => m.instruction.constant,
                false => m.instruction.next,
            },
            (_, Some(w)) if w.instruction.is_return() => w.word,
            _ => self.predicted,
        }
    }

    /// What decode makes of the instruction in D.
    fn decoded(&self, d: Instruction, e: &Option<Executed>, m: &Option<Accessed>) -> Decoded {
        let [a, b] = d.sources().map(|source| self.value(source, e, m));
        Decoded {
            instruction: d,
            a,
            b,
        }
    }

    /// The value of a source: the first match of document 01's list, with what
    /// E, M and W have in this clock.
    fn value(&self, source: u8, e: &Option<Executed>, m: &Option<Accessed>) -> u64 {
        let result = |held: &Accessed| (held.instruction.result_target(held.holds), held.result);
        let loaded = |held: &Accessed| (held.instruction.loaded_target(), held.word);
        let list = [
            e.map(|e| (e.instruction.result_target(e.holds), e.result)),
            m.as_ref().map(loaded),
            m.as_ref().map(result),
            self.w.as_ref().map(loaded),
            self.w.as_ref().map(result),
        ];
        let matching = |(target, _): &(u8, u64)| source != NONE && *target == source;
        match list.into_iter().flatten().find(matching) {
            Some((_, value)) => value,
            None => self.registers.get(source),
        }
    }

    /// With late store data, a store in E is handed the word that M has loaded of
    /// the register it stores.
    fn handed(&self, e: Decoded, m: &Option<Accessed>) -> Decoded {
        let stored = e.instruction.stored();
        let loads_it = |m: &&Accessed| stored != NONE && m.instruction.loaded_target() == stored;
        match m.as_ref().filter(loads_it) {
            Some(m) if self.settings.late => Decoded { a: m.word, ..e },
            _ => e,
        }
    }

    /// A load in E whose register is waited for in D.
    pub fn load_use(&self) -> bool {
        match (&self.d, &self.e) {
            (Some(d), Some(e)) => d.waits_for(e.instruction.loaded_target(), self.settings.late),
            _ => false,
        }
    }

    /// A jump in E whose outcome differs from the guess.
    pub fn mispredicted(&self) -> bool {
        self.e.is_some_and(|e| {
            let outcome = holds(&e.instruction, self.codes);
            e.instruction
                .is_guessed_wrongly(self.settings.rule, outcome)
        })
    }

    /// A ret in D, E or M.
    pub fn returning(&self) -> bool {
        let [d, e, m, ..] = self.instructions();
        [d, e, m].iter().flatten().any(Instruction::is_return)
    }

    /// A bad status in M, after its access.
    pub fn bad_in_m(&self, memory: Extent) -> bool {
        self.m.is_some_and(|m| m.status(memory) != Status::Aok)
    }
}

impl Decoded {
    /// What execute makes of it. Conditions look at the codes as the clock
    /// began.
    fn executed(&self, codes: Codes) -> Executed {
        Executed {
            instruction: self.instruction,
            a: self.a,
            result: result(&self.instruction, self.a, self.b),
            holds: holds(&self.instruction, codes),
        }
    }

    fn codes_after(&self, before: Codes) -> Codes {
        codes_after(&self.instruction, self.a, self.b, before)
    }
}

impl Executed {
    fn access(&self) -> Access {
        Access::of(&self.instruction, self.a, self.result)
    }

    /// The status after the access: outside it is ADR, whatever it was.
    fn status(&self, memory: Extent) -> Status {
        match self.access().is_outside(memory) {
            true => Status::Adr,
            false => self.instruction.status,
        }
    }

    /// Whether it is a store that succeeds and writes any byte of the window.
    fn patches(&self, memory: Extent, window: Option<Window>) -> bool {
        let Access::Store { address, .. } = self.access() else {
            return false;
        };
        let within = |at| window.is_some_and(|window| (window.first..window.end).contains(&at));
        let written = |behind| address.checked_add(behind).is_some_and(within);
        self.status(memory) == Status::Aok && (0..8).any(written)
    }

    /// What it is after its access.
    fn accessed(&self, memory: &Memory, window: Option<Window>) -> Accessed {
        Accessed {
            instruction: self.instruction,
            result: self.result,
            holds: self.holds,
            word: self.access().loaded(memory),
            status: self.status(memory.extent()),
            patched: self.patches(memory.extent(), window),
        }
    }
}

/// The predicted address: call and a jump guessed taken go to C, others to the
/// next address, which for a bad fetch is its own.
fn predicted(fetched: &Instruction, rule: u8) -> u64 {
    match fetched.code {
        CALL => fetched.constant,
        JXX if fetched.is_guessed_taken(rule) => fetched.constant,
        _ => fetched.next,
    }
}
