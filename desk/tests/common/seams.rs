//! What turned up around the seam of two memories (#110).

use super::tally::{Classes, Tally};
use desk::second::fault::Reason;
use desk::second::letter::{Executed, Machine, Pipeline};
use desk::second::machine::RSP;
use desk::second::memory::Extent;
use desk::second::plain::Plain;
use desk::second::table::{row_of, CALL, MRMOVQ, POPQ, PUSHQ, RET, RMMOVQ};

const PARTS: [&str; 3] = ["one memory", "both parts", "no writable byte"];
const ACCESSES: [&str; 8] = [
    "load in the program",
    "load across the seam",
    "load behind the seam",
    "load outside",
    "store into the program",
    "store across the seam",
    "store behind the seam",
    "store outside",
];
const FETCHES: [&str; 5] = [
    "up to the seam",
    "across the seam",
    "at the seam",
    "first byte missing",
    "elsewhere",
];

/// Every class of performed instructions that has to occur.
pub const CLASSES: &Classes = &[
    ("memory", &[PARTS[0], PARTS[1], PARTS[2]]),
    ("access", &ACCESSES),
    ("fetch", &FETCHES),
];

/// Every class of single calls that has to occur.
pub const CALL_CLASSES: &Classes = &[
    (PATCHED_PROGRAM, &[PROGRAM]),
    ("lent", &[PARTS[0], PARTS[1], PARTS[2]]),
    ("access in M", &ACCESSES),
    (
        "stopped at the seam for a later byte",
        &["by the plain engine", "by the pipeline"],
    ),
];

/// Where a store lies that meets the window and is refused by the seam.
pub const PATCHED_PROGRAM: &str = "call, store in M into the window, which fails";
pub const PROGRAM: &str = "in the program part";

/// How memory is lent.
pub fn parts_name(memory: Extent) -> &'static str {
    match memory.seam {
        0 => PARTS[0],
        seam if seam == memory.size => PARTS[2],
        _ => PARTS[1],
    }
}

/// What an access of eight bytes is to the seam.
pub fn access_name(memory: Extent, store: bool, address: u64) -> &'static str {
    let last = u128::from(address) + 7;
    let place = match () {
        () if last >= u128::from(memory.size) => 3,
        () if address >= memory.seam => 2,
        () if last >= u128::from(memory.seam) => 1,
        () => 0,
    };
    ACCESSES[place + if store { 4 } else { 0 }]
}

/// What a fetch is to the seam, by the instruction's address and first byte.
fn fetch_name(memory: Extent, address: u64, first: Option<u8>) -> &'static str {
    let Some(first) = first else {
        return FETCHES[3];
    };
    let end = address + u64::from(row_of(first >> 4).length);
    match memory.seam {
        0 => FETCHES[4],
        seam if end == seam => FETCHES[0],
        seam if address == seam => FETCHES[2],
        seam if address < seam && end > seam => FETCHES[1],
        _ => FETCHES[4],
    }
}

/// Counts what the plain engine is about to perform.
pub fn count_performed(tally: &mut Tally, machine: &Plain, memory: &[u8], extent: Extent) {
    let at = |address: u64| memory.get(usize::try_from(address).ok()?).copied();
    let (address, first) = (machine.address, at(machine.address));
    tally.count("fetch", fetch_name(extent, address, first));
    let later = |behind: u64| at(address + behind).map_or(0, u64::from);
    let constant = (2..10)
        .rev()
        .fold(0, |word, place| word << 8 | later(place));
    let base = machine.registers.get((later(1) & 15) as u8);
    let rsp = machine.registers.get(RSP);
    let access = match first.unwrap_or(0) >> 4 {
        RMMOVQ => (true, base.wrapping_add(constant)),
        MRMOVQ => (false, base.wrapping_add(constant)),
        PUSHQ | CALL => (true, rsp.wrapping_sub(8)),
        POPQ | RET => (false, rsp),
        _ => return,
    };
    tally.count("access", access_name(extent, access.0, access.1));
}

/// Counts a call of the pipeline by the access of its first clock.
pub fn count_pipelined(tally: &mut Tally, record: &Pipeline, left: &Pipeline, memory: Extent) {
    tally.count("lent", parts_name(memory));
    if let Some((store, address)) = record.m.as_ref().and_then(access_of) {
        tally.count("access in M", access_name(memory, store, address));
    }
    let stopped = record.status != left.status;
    if stopped && left.fault.reason == Reason::LaterMissing && at_seam(memory, left.fault.address) {
        tally.count("stopped at the seam for a later byte", "by the pipeline");
    }
}

/// Counts a call of the plain engine.
pub fn count_plain(tally: &mut Tally, record: &Machine, left: &Machine, memory: Extent) {
    tally.count("lent", parts_name(memory));
    let stopped = record.status != left.status;
    if stopped && left.fault.reason == Reason::LaterMissing && at_seam(memory, left.fault.address) {
        tally.count(
            "stopped at the seam for a later byte",
            "by the plain engine",
        );
    }
}

fn at_seam(memory: Extent, address: u64) -> bool {
    address == memory.seam && memory.seam < memory.size
}

/// Whether what M holds stores, and the address of its access.
fn access_of(m: &Executed) -> Option<(bool, u64)> {
    match m.instruction.code {
        RMMOVQ | PUSHQ | CALL => Some((true, m.result)),
        MRMOVQ => Some((false, m.result)),
        POPQ | RET => Some((false, m.a)),
        _ => None,
    }
}
