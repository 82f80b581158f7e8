//! The text that `desk replay` shows for an outcome.

use crate::replaying::{Given, Told};
use desk::engine::Outcome;
use desk::second::machine::REGISTER_NAMES;
use desk::second::replay::read_registers;
use desk::second::table::row_of;
use desk::second::{Reason, Status};

/// What stood before the replay.
pub struct Before<'a> {
    pub memory: &'a [u8],
    pub given: &'a Given,
}

/// The exit status of an outcome: 0 for HLT, and 1 to 3 for AOK, ADR and INS.
pub fn exit_status(outcome: &Outcome) -> u8 {
    match outcome.status {
        1 => 1,
        2 => 0,
        3 => 2,
        _ => 3,
    }
}

/// The outcome with the instruction at its last address, the registers that
/// are not 0, and the words that changed.
pub fn text(
    told: &Told,
    at_last: &str,
    before: &Before,
    memory: &[u8],
    registers: &[u8],
) -> String {
    let outcome = &told.outcome;
    let codes = outcome.codes;
    let (zf, sf, of) = (codes >> 2 & 1, codes >> 1 & 1, codes & 1);
    let mut text = ending(told, before.given, memory);
    text += &format!("last     {}: {at_last}\n", address(outcome.last));
    text += &format!("codes    {codes} (ZF {zf}, SF {sf}, OF {of})\n");
    text += &format!("retired  {}\n", outcome.retired);
    text += &format!("cycles   {}\n", outcome.cycles);
    if before.given.window.is_some() {
        text += &format!("patches  {} of the cycles\n", told.patch);
    }
    text += &register_lines(registers);
    text += &change_lines(before.memory, memory);
    text
}

/// How a replay ended: the status and, where it was told and there is one, the
/// reason.
pub fn ending(told: &Told, given: &Given, memory: &[u8]) -> String {
    let outcome = &told.outcome;
    let mut text = format!("status   {}\n", status(outcome.status, given.budget));
    let reason = told.fault.and_then(|(number, at)| {
        let reason = Reason::from_number(number)?;
        beside_window(reason, at, given)
            .or_else(|| crossing(reason, at, given))
            .or_else(|| why(reason, at, memory))
            .or_else(|| access(outcome, given))
    });
    if let Some(reason) = reason {
        text += &format!("reason   {reason}\n");
    }
    text
}

/// Why a fetch failed, in words, with the address of the byte at fault; none
/// where none failed. Memory is the final one.
fn why(reason: Reason, at: u64, memory: &[u8]) -> Option<String> {
    let found = usize::try_from(at).ok().and_then(|at| memory.get(at));
    let byte = found.copied().unwrap_or(0);
    let (code, function) = (byte >> 4, byte & 15);
    let known = row_of(code).functions;
    // A store may have changed the byte after it was fetched.
    let stands = match reason {
        Reason::Code => known == 0,
        Reason::Function => known > 0 && function >= known,
        _ => true,
    };
    let words = match reason {
        Reason::None => return None,
        Reason::FirstMissing => format!("the byte at {at:#x} is not in memory"),
        Reason::Code if stands => format!("{byte:#04x} at {at:#x} is no instruction code"),
        Reason::Code => format!("the byte at {at:#x} was no instruction code"),
        Reason::Function if stands => {
            format!("{byte:#04x} at {at:#x}: code {code:x} has no function {function:x}")
        }
        Reason::Function => format!("the byte at {at:#x} had a function that its code has not"),
        Reason::LaterMissing => {
            format!("the instruction goes on to the byte at {at:#x}, which is not in memory")
        }
        Reason::Register => format!("the register byte at {at:#x} names register 15"),
    };
    Some(words)
}

/// The words for a byte that is missing because it is not in the window (#113).
fn beside_window(reason: Reason, at: u64, given: &Given) -> Option<String> {
    let (first, end) = given.window?;
    let window = format!("not in the code window from {first:#x} to {end:#x}");
    match reason {
        _ if (first..end).contains(&at) => None,
        Reason::FirstMissing => Some(format!("the byte at {at:#x} is {window}")),
        Reason::LaterMissing if at == end => Some(format!(
            "the instruction goes on to the byte at {at:#x}, which is {window}"
        )),
        _ => None,
    }
}

/// The words for an instruction that crosses the seam (#110).
fn crossing(reason: Reason, at: u64, given: &Given) -> Option<String> {
    let crosses = reason == Reason::LaterMissing && given.program == usize::try_from(at).ok();
    let words = || format!("the instruction goes on behind the program's bytes, at {at:#x}");
    crosses.then(words)
}

/// The words for ADR without a failed fetch.
fn access(outcome: &Outcome, given: &Given) -> Option<String> {
    let words = || {
        let last = outcome.last;
        let reach = match given.program {
            None => "a word that is not in memory",
            Some(_) => "a word that is not inside one memory, or writes among the program's bytes",
        };
        format!("the instruction at {last:#x} reads or writes {reach}")
    };
    (outcome.status == Status::Adr.number()).then(words)
}

/// A status in words.
fn status(number: u64, budget: u64) -> String {
    match number {
        1 => format!("AOK (1): the budget of {budget} cycles was spent before a stop"),
        2 => "HLT (2): the image halted".into(),
        3 => "ADR (3): an address outside memory".into(),
        _ => "INS (4): bytes that are no instruction".into(),
    }
}

fn address(number: u64) -> String {
    format!("{number:#x} ({number})")
}

fn register_lines(block: &[u8]) -> String {
    let words = read_registers(block).0;
    let named = REGISTER_NAMES.iter().zip(words);
    let lines: String = named
        .filter(|(_, word)| *word != 0)
        .map(|(name, word)| format!("  {name:<3}  {}\n", address(word)))
        .collect();
    match lines.is_empty() {
        true => "registers: all 0\n".into(),
        false => format!("registers that are not 0:\n{lines}"),
    }
}

fn change_lines(before: &[u8], after: &[u8]) -> String {
    let words = before.chunks(8).zip(after.chunks(8)).enumerate();
    let lines: String = words
        .filter(|(_, (before, after))| before != after)
        .map(|(place, (before, after))| {
            let at = address(8 * place as u64);
            format!("  {at:<14}  {:<18}  {}\n", word(before), word(after))
        })
        .collect();
    match lines.is_empty() {
        true => "memory: as it was\n".into(),
        false => format!("words changed in memory (address, before, after):\n{lines}"),
    }
}

/// Up to eight bytes as a number, two digits for each, least byte first.
fn word(bytes: &[u8]) -> String {
    let digits: String = bytes.iter().rev().map(|b| format!("{b:02x}")).collect();
    format!("0x{digits}")
}
