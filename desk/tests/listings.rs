//! Listings read through the host edge and by the second program, byte for
//! byte: the answer, and all bytes of memory and of the fault's block.

mod common;

use common::tally::{Classes, Tally};
use desk::engine::{self, ReadListing};
use desk::generate::{Listed, Listings};
use desk::second::listing;

/// How many texts are compared.
const TEXTS: usize = 240_000;

/// By what was done to a right listing, the answers that occur; no other does.
/// A text that has no line for it, or where it fell on a remark, is still read.
const CLASSES: &Classes = &[
    ("nothing", &["read"]),
    ("other case", &["read"]),
    ("a bit", &["read", "kind 1", "kind 3", "kind 4"]),
    ("a byte", &["read", "kind 1", "kind 2", "kind 3", "kind 4"]),
    (
        "line feed lost",
        &["read", "kind 1", "kind 2", "kind 3", "kind 4"],
    ),
    ("line feed doubled", &["read", "kind 1"]),
    ("last line feed lost", &["read", "kind 1"]),
    ("carriage return", &["read", "kind 1"]),
    ("tab lost", &["read", "kind 1", "kind 2"]),
    (
        "tab put in",
        &["read", "kind 1", "kind 2", "kind 3", "kind 4"],
    ),
    ("17 digits", &["read", "kind 1"]),
    ("digit lost", &["read", "kind 1", "kind 2"]),
    ("17 bytes", &["read", "kind 2"]),
    ("overlap", &["read", "kind 3"]),
    ("to the end", &["read"]),
    ("one past the end", &["kind 4"]),
    ("highest addresses", &["kind 4"]),
    ("noise", &["read", "kind 1", "kind 2", "kind 4"]),
    ("size", &["refused (1)"]),
    ("block", &["refused (4)"]),
];

/// What a reader leaves.
#[derive(Debug, PartialEq, Eq)]
struct Left {
    answer: u64,
    memory: Vec<u8>,
    fault: Vec<u8>,
}

impl Left {
    fn by(listed: &Listed, read: ReadListing) -> Left {
        let (mut memory, mut fault) = (listed.memory.clone(), listed.fault.clone());
        let answer = read(&listed.text, &mut memory, &mut fault);
        Left {
            answer,
            memory,
            fault,
        }
    }

    /// The answer in words.
    fn class(&self) -> &'static str {
        match (self.answer, self.fault.get(8)) {
            (0, _) => "read",
            (1, _) => "refused (1)",
            (4, _) => "refused (4)",
            (9, Some(1)) => "kind 1",
            (9, Some(2)) => "kind 2",
            (9, Some(3)) => "kind 3",
            (9, Some(4)) => "kind 4",
            _ => "another answer",
        }
    }
}

#[test]
fn both_read_alike() {
    let mut tally = Tally::default();
    for listed in Listings::new(103).take(TEXTS) {
        let product = Left::by(&listed, engine::read_listing);
        let second = Left::by(&listed, listing::read_listing);
        assert_eq!(product, second, "{}", listed.text.escape_ascii());
        if product.answer != 0 {
            assert_eq!(product.memory, listed.memory, "a refusal leaves memory");
        }
        if product.answer != 9 {
            assert_eq!(product.fault, listed.fault, "the block stays");
        }
        tally.count(listed.name, product.class());
    }
    println!("{TEXTS} texts, by what was done to them:");
    print!("{}", tally.table(CLASSES));
    tally.check(CLASSES, 5);
}
