//! #104: listings written through the host edge and by the second program, byte
//! for byte: the answer, all bytes of the text and of its length's block; and
//! each that was written, read back by both readers.

mod common;

use common::tally::{Classes, Tally};
use desk::engine::{self, ReadListing, WriteListing};
use desk::generate::{Range, Ranges};
use desk::second::fetch::fetch;
use desk::second::memory::Memory;
use desk::second::{listing, writing, Status};
use std::collections::BTreeMap;

/// How many listings are compared.
const LISTINGS: usize = 150_000;

/// By what the range was made to try, the answers that occur; no other does.
const CLASSES: &Classes = &[
    ("valid", &["written"]),
    ("fillers", &["written"]),
    ("damaged", &["written"]),
    ("noise", &["written"]),
    ("a range inside", &["written"]),
    ("crossing the end", &["written"]),
    ("a range of nothing", &["written"]),
    ("large", &["written"]),
    ("as long as needed", &["written"]),
    ("too short", &["written", "refused (8)"]),
    ("size", &["refused (1)"]),
    ("block", &["refused (4)"]),
    ("start above end", &["refused (7)"]),
    ("end above N", &["refused (7)"]),
    (
        "several",
        &["written", "refused (1)", "refused (4)", "refused (7)"],
    ),
];

/// The names of all instructions.
const NAMES: [&str; 28] = [
    "halt", "nop", "rrmovq", "cmovle", "cmovl", "cmove", "cmovne", "cmovge", "cmovg", "irmovq",
    "rmmovq", "mrmovq", "addq", "subq", "andq", "xorq", "jmp", "jle", "jl", "je", "jne", "jge",
    "jg", "call", "ret", "pushq", "popq", "iaddq",
];

/// What a writer leaves.
#[derive(Debug, PartialEq, Eq)]
struct Left {
    answer: u64,
    text: Vec<u8>,
    length: Vec<u8>,
}

impl Left {
    fn by(range: &Range, write: WriteListing) -> Left {
        let (mut text, mut length) = (range.text.clone(), range.length.clone());
        let (start, end) = (range.start, range.end);
        let answer = write(&range.memory, &mut text, &mut length, start, end);
        Left {
            answer,
            text,
            length,
        }
    }

    fn class(&self) -> &'static str {
        match self.answer {
            0 => "written",
            1 => "refused (1)",
            4 => "refused (4)",
            7 => "refused (7)",
            8 => "refused (8)",
            _ => "another answer",
        }
    }

    /// What a refusal leaves: all but the length that 8 tells.
    fn check_refusal(&self, range: &Range) {
        assert_eq!(self.text, range.text, "a refusal leaves the text");
        if self.answer != 8 {
            assert_eq!(self.length, range.length, "the block stays");
        }
    }

    /// The listing at the front of the text.
    fn listing(&self) -> &[u8] {
        let [length] = engine::words(&self.length);
        &self.text[..length as usize]
    }
}

/// "Reading the listing with #103 gives the same bytes in that range."
fn check_read_back(range: &Range, text: &[u8], read: ReadListing) {
    let (mut memory, mut fault) = (vec![7; range.memory.len()], [0; 16]);
    assert_eq!(read(text, &mut memory, &mut fault), 0);
    let (start, end) = (range.start as usize, range.end as usize);
    let mut wanted = vec![0; range.memory.len()];
    wanted[start..end].copy_from_slice(&range.memory[start..end]);
    assert_eq!(memory, wanted);
}

/// What the lines were: instructions by name, single bytes that start none,
/// and single bytes that would start one but for the end.
#[derive(Default)]
struct Lines {
    names: BTreeMap<String, u64>,
    single: u64,
    crossing: u64,
}

impl Lines {
    fn count(&mut self, memory: &[u8], text: &[u8]) {
        let text = std::str::from_utf8(text).expect("ASCII");
        let only_read = Memory {
            program: memory,
            writable: &mut [],
        };
        for line in text.lines() {
            let mut fields = line.split('\t');
            let address = fields.next().expect("an address");
            let address = u64::from_str_radix(address, 16).expect("hex");
            match fields.nth(1) {
                Some(remark) => {
                    let name = remark.split(' ').next().expect("a name");
                    *self.names.entry(name.into()).or_default() += 1;
                }
                None => match fetch(&only_read, None, address) {
                    Err(stop) if stop.status != Status::Hlt => self.single += 1,
                    _ => self.crossing += 1,
                },
            }
        }
    }

    fn check(&self) {
        println!(
            "{} lines of one byte that starts none, {} of one up to the end",
            self.single, self.crossing
        );
        println!("by name: {:?}", self.names);
        assert!(self.single > 10_000 && self.crossing > 10_000);
        assert_eq!(self.names.len(), NAMES.len());
        assert!(NAMES.iter().all(|name| self.names[*name] > 1_000));
    }
}

#[test]
fn both_write_alike() {
    let (mut tally, mut lines, mut read_back) = (Tally::default(), Lines::default(), 0);
    for range in Ranges::new(104).take(LISTINGS) {
        let product = Left::by(&range, engine::write_listing);
        assert_eq!(product, Left::by(&range, writing::write_listing));
        tally.count(range.name, product.class());
        if product.answer != 0 {
            product.check_refusal(&range);
            continue;
        }
        let text = product.listing();
        check_read_back(&range, text, engine::read_listing);
        check_read_back(&range, text, listing::read_listing);
        lines.count(&range.memory, text);
        read_back += 1;
    }
    println!("{LISTINGS} listings, {read_back} written and read back, by what was asked:");
    print!("{}", tally.table(CLASSES));
    tally.check(CLASSES, 50);
    lines.check();
}
