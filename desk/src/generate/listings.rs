//! Listings to read: right ones, and right ones with one thing done to them.

use super::random::Random;
use crate::second::listing::FAULT_BYTES;
use crate::second::machine::{MEMORY_LIMIT, PROGRAM_LIMIT};

/// What was done to a right listing.
#[derive(Clone, Copy, Debug, PartialEq, Eq)]
pub enum Damage {
    /// Nothing.
    None,
    /// Digits of the other case.
    Case,
    /// One bit of one byte.
    Bit,
    /// One byte by another.
    Byte,
    /// A line feed taken out.
    LostFeed,
    /// A line feed doubled: a blank line.
    DoubledFeed,
    /// The last line feed taken away.
    Unended,
    /// A carriage return before a line feed.
    Return,
    /// A tab taken out.
    LostTab,
    /// A tab put in.
    Tab,
    /// An address of 17 digits, zeros in front.
    LongAddress,
    /// One digit less of the bytes.
    Odd,
    /// A seventeenth byte.
    Seventeen,
    /// A line that begins on the last byte given.
    Overlap,
    /// A last line that ends with memory.
    ToTheEnd,
    /// A last line that ends one byte behind memory.
    PastTheEnd,
    /// A last line at the highest addresses, whose end wraps.
    Wrap,
    /// Bytes without any plan, of those that a listing has.
    Noise,
    /// A memory of no size, or of one too many.
    Size,
    /// A block for the fault of another length.
    Block,
}

/// One text to read, and what is lent with it.
#[derive(Clone, Debug)]
pub struct Listed {
    pub damage: Damage,
    /// The damage's name.
    pub name: &'static str,
    pub text: Vec<u8>,
    pub memory: Vec<u8>,
    pub fault: Vec<u8>,
}

/// Each with its name.
const DAMAGES: [(Damage, &str); 20] = [
    (Damage::None, "nothing"),
    (Damage::Case, "other case"),
    (Damage::Bit, "a bit"),
    (Damage::Byte, "a byte"),
    (Damage::LostFeed, "line feed lost"),
    (Damage::DoubledFeed, "line feed doubled"),
    (Damage::Unended, "last line feed lost"),
    (Damage::Return, "carriage return"),
    (Damage::LostTab, "tab lost"),
    (Damage::Tab, "tab put in"),
    (Damage::LongAddress, "17 digits"),
    (Damage::Odd, "digit lost"),
    (Damage::Seventeen, "17 bytes"),
    (Damage::Overlap, "overlap"),
    (Damage::ToTheEnd, "to the end"),
    (Damage::PastTheEnd, "one past the end"),
    (Damage::Wrap, "highest addresses"),
    (Damage::Noise, "noise"),
    (Damage::Size, "size"),
    (Damage::Block, "block"),
];

/// A line to be written.
#[derive(Clone)]
struct Line {
    address: u64,
    /// How many digits the address has at least.
    width: usize,
    bytes: Vec<u8>,
    remark: Option<Vec<u8>>,
}

impl Line {
    fn text(&self) -> Vec<u8> {
        let width = self.width;
        let mut text = format!("{:0width$x}\t", self.address).into_bytes();
        for byte in &self.bytes {
            text.extend(format!("{byte:02x}").into_bytes());
        }
        if let Some(remark) = &self.remark {
            text.push(b'\t');
            text.extend(remark);
        }
        text.push(b'\n');
        text
    }
}

/// Listings from a seed, one after another.
pub struct Listings {
    random: Random,
    made: usize,
}

impl Listings {
    pub fn new(seed: u64) -> Listings {
        Listings {
            random: Random::new(seed),
            made: 0,
        }
    }

    fn size(&mut self) -> usize {
        match self.random.below(64) {
            0 => self
                .random
                .pick(&[PROGRAM_LIMIT, PROGRAM_LIMIT + 1, MEMORY_LIMIT]),
            1..=12 => 1 + self.random.below(16) as usize,
            _ => 1 + self.random.below(300) as usize,
        }
    }

    /// Lines that ascend and fit.
    fn lines(&mut self, size: usize) -> Vec<Line> {
        let mut lines = Vec::new();
        let mut free = 0;
        let most = self.random.below(12);
        while lines.len() < most as usize {
            let wide = self.random.below(40) as usize;
            let gap = self.random.pick(&[0, 0, 0, 1, wide]);
            let left = size.saturating_sub(free + gap);
            if left == 0 {
                break;
            }
            let count = 1 + self.random.below(left.min(16) as u64) as usize;
            lines.push(self.line((free + gap) as u64, count));
            free += gap + count;
        }
        lines
    }

    fn line(&mut self, address: u64, count: usize) -> Line {
        let width = self.random.pick(&[1, 1, 1, 3, 4, 16]);
        let remark = match self.random.below(4) {
            0 => None,
            1 => Some(Vec::new()),
            2 => Some(b"rrmovq %rax, %rbx".to_vec()),
            _ => {
                let length = self.random.below(12) as usize;
                let mut noise = self.random.bytes(length);
                noise.retain(|byte| *byte != b'\n');
                Some(noise)
            }
        };
        Line {
            address,
            width,
            bytes: self.random.bytes(count),
            remark,
        }
    }

    /// The place of one of the bytes that are c, if the text has any.
    fn place(&mut self, text: &[u8], c: u8) -> Option<usize> {
        let places: Vec<usize> = (0..text.len()).filter(|at| text[*at] == c).collect();
        (!places.is_empty()).then(|| self.random.pick(&places))
    }

    /// What is done to the lines before they are written.
    fn damage_lines(&mut self, damage: Damage, lines: &mut Vec<Line>, size: usize) {
        let at = self.random.below(lines.len().max(1) as u64) as usize;
        let end = |line: &Line| line.address + line.bytes.len() as u64;
        let last = lines.last().map_or(0, end);
        match damage {
            Damage::LongAddress if at < lines.len() => lines[at].width = 17,
            Damage::Seventeen if at < lines.len() => lines[at].bytes = self.random.bytes(17),
            Damage::Overlap if last > 0 => {
                let back = 1 + self.random.below(3).min(last - 1);
                let line = self.line(last - back, 1);
                lines.push(line);
            }
            Damage::ToTheEnd | Damage::PastTheEnd => {
                let past = u64::from(damage == Damage::PastTheEnd);
                let left = size as u64 - last;
                if left + past > 0 {
                    let count = 1 + self.random.below((left + past).min(16));
                    let line = self.line(size as u64 + past - count, count as usize);
                    lines.push(line);
                }
            }
            Damage::Wrap => {
                let count = 1 + self.random.below(16);
                let address = u64::MAX - self.random.below(count);
                let line = self.line(address, count as usize);
                lines.push(line);
            }
            _ => {}
        }
    }

    /// What is done to the text.
    fn damage_text(&mut self, damage: Damage, text: &mut Vec<u8>) {
        let at = self.random.below(text.len().max(1) as u64) as usize;
        match damage {
            Damage::Bit if at < text.len() => text[at] ^= 1 << self.random.below(8),
            Damage::Byte if at < text.len() => text[at] = self.random.word() as u8,
            Damage::Unended => drop(text.pop()),
            Damage::Tab => text.insert(at.min(text.len()), b'\t'),
            Damage::Noise => *text = self.noise(),
            Damage::Case => text.iter_mut().for_each(|byte| {
                if byte.is_ascii_lowercase() && self.random.chance(1, 2) {
                    *byte = byte.to_ascii_uppercase();
                }
            }),
            Damage::LostFeed | Damage::DoubledFeed | Damage::Return => {
                if let Some(at) = self.place(text, b'\n') {
                    match damage {
                        Damage::LostFeed => drop(text.remove(at)),
                        Damage::Return => text.insert(at, b'\r'),
                        _ => text.insert(at, b'\n'),
                    }
                }
            }
            Damage::LostTab | Damage::Odd => {
                if let Some(at) = self.place(text, b'\t') {
                    let of_bytes = usize::from(damage == Damage::Odd);
                    text.remove((at + of_bytes).min(text.len() - 1));
                }
            }
            _ => {}
        }
    }

    fn noise(&mut self) -> Vec<u8> {
        let length = self.random.below(40);
        let choices = b"0019afAF\t\t\t\n\n\r g@G`:/";
        (0..length).map(|_| self.random.pick(choices)).collect()
    }
}

impl Iterator for Listings {
    type Item = Listed;

    fn next(&mut self) -> Option<Listed> {
        let (damage, name) = DAMAGES[self.made % DAMAGES.len()];
        self.made += 1;
        let size = self.size();
        let mut lines = self.lines(size);
        self.damage_lines(damage, &mut lines, size);
        let mut text: Vec<u8> = lines.iter().flat_map(Line::text).collect();
        self.damage_text(damage, &mut text);
        let lent = match damage {
            Damage::Size => self.random.pick(&[0, MEMORY_LIMIT + 1]),
            _ => size,
        };
        let block = match damage {
            Damage::Block => self.random.pick(&[0, 8, 15, 17, 24]),
            _ => FAULT_BYTES,
        };
        Some(Listed {
            damage,
            name,
            text,
            memory: self.random.bytes(lent),
            fault: self.random.bytes(block),
        })
    }
}
