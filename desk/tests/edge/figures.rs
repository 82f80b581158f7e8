//! Document 01's cases and the public figures, through the edge.

use desk::engine;
use desk::programs::{figure_4_8, from_hex, listing_001, listing_004, stretched_004};

/// Registers by number, with their values.
type Values = &'static [(usize, u64)];

/// An image, and the figures that are known of its run from 0 with codes 4.
struct Figure {
    name: &'static str,
    image: Vec<u8>,
    given: Values,
    /// Status, last address, codes, retired, cycles.
    words: [u64; 5],
    /// The registers afterwards that are not 0.
    registers: Values,
    /// Words in memory afterwards, by address.
    memory: Values,
}

impl Figure {
    fn check(&self) {
        let name = self.name;
        let mut memory = self.image.clone();
        let mut block = [0; 120];
        for (number, value) in self.given {
            block[8 * number..][..8].copy_from_slice(&value.to_le_bytes());
        }
        let answer = engine::outcome(engine::replay, &mut memory, &mut block, 0, 4, 4_000);
        let end = answer.unwrap_or_else(|number| panic!("{name}: refused {number}"));
        let words = [end.status, end.last, end.codes, end.retired, end.cycles];
        assert_eq!(words, self.words, "{name}");
        for number in 0..15 {
            let known = self.registers.iter().find(|(of, _)| *of == number);
            let value = known.map_or(0, |(_, value)| *value);
            assert_eq!(word(&block, 8 * number), value, "{name} register {number}");
        }
        for (address, value) in self.memory {
            assert_eq!(word(&memory, *address), *value, "{name} at {address:#x}");
        }
    }
}

fn word(bytes: &[u8], at: usize) -> u64 {
    u64::from_le_bytes(bytes[at..at + 8].try_into().expect("a word"))
}

/// P1 to P6: the bytes shown are the whole image.
#[test]
fn p1_to_p6() {
    let cases = [
        ("P1", "00", [2, 0, 4, 1, 5]),
        ("P2", "10", [3, 1, 4, 2, 6]),
        ("P3", "d0", [4, 0, 4, 1, 5]),
        ("a lone c0", "c0", [3, 0, 4, 1, 5]),
        ("P4", "64", [4, 0, 4, 1, 5]),
        ("P5", "60", [3, 0, 4, 1, 5]),
        ("P6", "60f0", [4, 0, 4, 1, 5]),
    ];
    for (name, image, words) in cases {
        let figure = Figure {
            name,
            image: from_hex(image),
            given: &[],
            words,
            registers: &[],
            memory: &[],
        };
        figure.check();
    }
}

/// P10 and P11: pushq rsp, popq rsp, and popq rsp before ret.
#[test]
fn p10_and_p11() {
    let padded = |code: &str, words: &[(usize, u8)]| {
        let mut image = from_hex(code);
        image.resize(32, 0);
        for (at, byte) in words {
            image[*at] = *byte;
        }
        image
    };
    let figures = [
        Figure {
            name: "P10 pushq rsp",
            image: padded("a04f 00", &[]),
            given: &[(4, 32)],
            words: [2, 2, 4, 2, 6],
            registers: &[(4, 24)],
            memory: &[(24, 32)],
        },
        Figure {
            name: "P10 popq rsp",
            image: padded("b04f 00", &[(16, 77)]),
            given: &[(4, 16)],
            words: [2, 2, 4, 2, 6],
            registers: &[(4, 77)],
            memory: &[(16, 77)],
        },
        Figure {
            name: "P11",
            image: padded("b04f 90 00", &[(8, 16), (16, 3)]),
            given: &[(4, 8)],
            words: [2, 3, 4, 3, 11],
            registers: &[(4, 24)],
            memory: &[],
        },
    ];
    figures.iter().for_each(Figure::check);
}

/// #102: fillers other than F, with source document 004's irmovq.
#[test]
fn fillers() {
    let mut image = from_hex("3082cdab000000000000 c0020100000000000000 a028 b03e 00");
    image.resize(48, 0);
    let figure = Figure {
        name: "fillers 8, 0, 8 and 14",
        image,
        given: &[(4, 48)],
        words: [2, 24, 0, 5, 9],
        registers: &[(2, 0xabce), (3, 0xabce), (4, 48)],
        memory: &[(40, 0xabce)],
    };
    figure.check();
}

#[test]
fn listings() {
    let of_001 = Figure {
        name: "listing of 001",
        image: listing_001(),
        given: &[],
        words: [2, 0x40, 0, 11, 20],
        registers: &[(0, 9), (2, 9), (3, 12), (4, 128)],
        memory: &[(120, 64)],
    };
    of_001.check();
    let of_004 = Figure {
        name: "listing of 004",
        image: listing_004(),
        given: &[],
        words: [2, 0x13, 4, 33, 52],
        registers: &[(0, 4), (4, 0x100), (7, 0x38), (8, 1), (9, 8)],
        memory: &[(0xf0, 0x53), (0xf8, 0x13)],
    };
    of_004.check();
    let stretched = Figure {
        name: "listing of 004, 400 elements",
        image: stretched_004(),
        given: &[],
        words: [2, 0x13, 4, 2_013, 2_428],
        registers: &[(0, 400), (4, 0x1000), (7, 0xc98), (8, 1), (9, 8)],
        memory: &[],
    };
    stretched.check();
}

/// CS:APP's own simulator gives these for the program of its figure 4.8, but
/// for the cycles: 34 + 4, four loads used, a jump not taken and two returns.
#[test]
fn program_of_figure_4_8() {
    let figure = Figure {
        name: "figure 4.8",
        image: figure_4_8(),
        given: &[],
        words: [2, 0x13, 4, 34, 50],
        registers: &[
            (0, 0xabcd_abcd_abcd),
            (4, 0x200),
            (7, 0x38),
            (8, 8),
            (9, 1),
            (10, 0xa000_a000_a000),
        ],
        memory: &[(0x1f0, 0x55), (0x1f8, 0x13)],
    };
    figure.check();
}
