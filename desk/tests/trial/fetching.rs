//! Fetching by the product and by the letter, on memory of any size and at any
//! address.

use crate::calls;
use crate::common::reasons::{reason_name, REASONS};
use crate::common::tally::{Classes, Tally};
use crate::entries::{fetch, numbered};
use desk::second::letter;
use desk::second::machine::{MEMORY_LIMIT, PROGRAM_LIMIT};
use desk::second::memory::Memory;
use desk::second::Status;

/// Fillers of what was fetched, and those beside a named register of 15.
const FILLERS: [&str; 7] = [
    "0",
    "8",
    "14",
    "15",
    "another",
    "15, and INS",
    "another, and INS",
];

const CLASSES: &Classes = &[
    (
        "fetched",
        &[
            "nop", "cmovXX", "irmovq", "rmmovq", "mrmovq", "OPq", "jXX", "call", "ret", "pushq",
            "popq", "iaddq", "HLT", "ADR", "INS",
        ],
    ),
    ("failed for", &REASONS),
    ("filler of irmovq", &FILLERS),
    ("filler of iaddq", &FILLERS),
    ("filler of pushq", &FILLERS),
    ("filler of popq", &FILLERS),
    ("refused for memory", &["empty", "no", "over 65536"]),
    (
        "memory over 4096, address",
        &["4085-4095", "4096-4105", "65526-65535", "65536-65545"],
    ),
    (
        "address",
        &[
            "inside",
            "in the last ten bytes",
            "outside",
            "next address wraps",
        ],
    ),
];

#[test]
fn fetching_is_the_letters_equal() {
    let calls_made = if cfg!(debug_assertions) {
        20_000
    } else {
        200_000
    };
    let mut calls = calls(0xfe7c);
    let mut tally = Tally::default();
    for turn in 0..calls_made {
        let (mut memory, seam, address) = calls.fetch();
        let given = memory.clone();
        let product = fetch(&mut memory, seam, address);
        let letter = letter::fetch_open(Memory::split(&mut memory, seam), address);
        assert_eq!(product, numbered(letter), "call {turn}");
        assert!(memory == given, "call {turn}: fetching has written");
        let (answer, expected, _) = letter;
        count(&mut tally, &given, &expected);
        if answer.is_ok() {
            count_filler(&mut tally, &given, &expected);
            tally.count("failed for", reason_name(expected.reason));
        }
    }
    println!("compared {calls_made} fetches");
    println!("{}", tally.table(CLASSES));
    tally.check(CLASSES, 1);
}

/// Counts the filler of an instruction that has one and lies inside memory.
/// Its code and function are in the table, so that INS is for its register.
fn count_filler(tally: &mut Tally, memory: &[u8], fetched: &letter::Instruction) {
    let at = |behind| memory.get(usize::try_from(fetched.address.checked_add(behind)?).ok()?);
    let (Some(first), Some(halves)) = (at(0), at(1)) else {
        return;
    };
    let (heading, filler) = match first {
        0x30 => ("filler of irmovq", halves >> 4),
        0xc0 => ("filler of iaddq", halves >> 4),
        0xa0 => ("filler of pushq", halves & 15),
        0xb0 => ("filler of popq", halves & 15),
        _ => return,
    };
    let name = match (fetched.status, filler) {
        (Status::Aok, 0) => "0",
        (Status::Aok, 8) => "8",
        (Status::Aok, 14) => "14",
        (Status::Aok, 15) => "15",
        (Status::Aok, _) => "another",
        (Status::Ins, 15) => "15, and INS",
        (Status::Ins, _) => "another, and INS",
        _ => return,
    };
    tally.count(heading, name);
}

fn count(tally: &mut Tally, memory: &[u8], fetched: &letter::Instruction) {
    let names = CLASSES[0].1;
    let name = match fetched.status {
        Status::Aok => names[usize::from(fetched.code) - 1],
        status => status.name(),
    };
    let size = memory.len();
    if (1..=MEMORY_LIMIT).contains(&size) {
        tally.count("fetched", name);
    }
    let name = match size {
        0 => "empty",
        1..=MEMORY_LIMIT => "no",
        _ => "over 65536",
    };
    tally.count("refused for memory", name);
    let (size, address) = (size as u64, fetched.address);
    let around = match address {
        4_085..=4_095 => Some("4085-4095"),
        4_096..=4_105 => Some("4096-4105"),
        65_526..=65_535 => Some("65526-65535"),
        65_536..=65_545 => Some("65536-65545"),
        _ => None,
    };
    if let (Some(around), true) = (around, size > PROGRAM_LIMIT as u64) {
        tally.count("memory over 4096, address", around);
    }
    let name = match address {
        _ if address > u64::MAX - 10 => "next address wraps",
        _ if address >= size => "outside",
        _ if address + 10 >= size => "in the last ten bytes",
        _ => "inside",
    };
    tally.count("address", name);
}
