//! Memories to write listings of, each with a range, and with a text and a
//! block for its length to lend.

use super::random::Random;
use crate::second::machine::{MEMORY_LIMIT, PROGRAM_LIMIT};
use crate::second::table::{RegisterByte, TABLE};
use crate::second::writing::{listing, LENGTH_BYTES};

/// What a case is made to try.
#[derive(Clone, Copy, Debug, PartialEq, Eq)]
enum Plan {
    /// Valid instructions in their one form, all of memory.
    Valid,
    /// The same with any fillers.
    Fillers,
    /// The same with some bytes changed.
    Damaged,
    /// Bytes without any plan.
    Noise,
    /// A range anywhere inside memory.
    Inside,
    /// A range that ends inside an instruction.
    Crossing,
    /// A range of nothing.
    Empty,
    /// A large memory, near its end.
    Large,
    /// A text that is as long as needed.
    Exact,
    /// A text that is too short.
    Short,
    /// A memory of no size, or of one too many.
    Size,
    /// A block for the length of another length.
    Block,
    /// A start above the end.
    Backwards,
    /// An end above N.
    Beyond,
    /// Several of these at once.
    Several,
}

/// Each with its name.
const PLANS: [(Plan, &str); 15] = [
    (Plan::Valid, "valid"),
    (Plan::Fillers, "fillers"),
    (Plan::Damaged, "damaged"),
    (Plan::Noise, "noise"),
    (Plan::Inside, "a range inside"),
    (Plan::Crossing, "crossing the end"),
    (Plan::Empty, "a range of nothing"),
    (Plan::Large, "large"),
    (Plan::Exact, "as long as needed"),
    (Plan::Short, "too short"),
    (Plan::Size, "size"),
    (Plan::Block, "block"),
    (Plan::Backwards, "start above end"),
    (Plan::Beyond, "end above N"),
    (Plan::Several, "several"),
];

/// One listing to write, and what is lent for it.
#[derive(Clone, Debug)]
pub struct Range {
    /// The plan's name.
    pub name: &'static str,
    pub memory: Vec<u8>,
    pub text: Vec<u8>,
    pub length: Vec<u8>,
    pub start: u64,
    pub end: u64,
}

/// Ranges from a seed, one after another.
pub struct Ranges {
    random: Random,
    made: usize,
}

impl Ranges {
    pub fn new(seed: u64) -> Ranges {
        Ranges {
            random: Random::new(seed),
            made: 0,
        }
    }

    /// A valid instruction, with F or with anything for a filler.
    fn instruction(&mut self, any_filler: bool) -> Vec<u8> {
        let code = self.random.below(13) as u8;
        let row = TABLE[usize::from(code)];
        let function = self.random.below(u64::from(row.functions)) as u8;
        let mut bytes = vec![code << 4 | function];
        let mut half = |named: bool| match named || any_filler {
            true => self.random.below(if named { 15 } else { 16 }) as u8,
            false => 0xf,
        };
        match row.register_byte {
            RegisterByte::Absent => {}
            RegisterByte::Both => bytes.push(half(true) << 4 | half(true)),
            RegisterByte::OnlyB => bytes.push(half(false) << 4 | half(true)),
            RegisterByte::OnlyA => bytes.push(half(true) << 4 | half(false)),
        }
        if row.length >= 9 {
            bytes.extend(self.constant().to_le_bytes());
        }
        bytes
    }

    /// Constants of all lengths, and those at both ends.
    fn constant(&mut self) -> u64 {
        let word = self.random.word() >> self.random.below(64);
        self.random.pick(&[0, 1, u64::MAX, 1 << 63, word, word])
    }

    /// Instructions up to a size, and the addresses of those that are whole.
    fn program(&mut self, size: usize, any_filler: bool) -> (Vec<u8>, Vec<usize>) {
        let (mut memory, mut starts) = (Vec::new(), Vec::new());
        while memory.len() < size {
            let bytes = self.instruction(any_filler);
            if memory.len() + bytes.len() <= size {
                starts.push(memory.len());
            }
            memory.extend(bytes);
        }
        memory.truncate(size);
        (memory, starts)
    }

    fn memory(&mut self, plan: Plan, size: usize) -> Vec<u8> {
        let any_filler = plan != Plan::Valid && self.random.chance(2, 3);
        match plan {
            Plan::Noise => self.random.bytes(size),
            Plan::Valid => self.program(size, false).0,
            Plan::Fillers => self.program(size, true).0,
            Plan::Large => {
                let mut memory = self.random.bytes(size);
                let (tail, _) = self.program(600, any_filler);
                memory.splice(size - 600.., tail);
                memory
            }
            _ => {
                let (mut memory, _) = self.program(size, any_filler);
                for _ in 0..self.random.below(5) {
                    let at = self.random.below(size as u64) as usize;
                    memory[at] = self.random.word() as u8;
                }
                memory
            }
        }
    }

    fn size(&mut self, plan: Plan) -> usize {
        match plan {
            Plan::Large => self
                .random
                .pick(&[PROGRAM_LIMIT, PROGRAM_LIMIT + 1, MEMORY_LIMIT]),
            _ if self.random.chance(1, 5) => 1 + self.random.below(12) as usize,
            _ => 1 + self.random.below(200) as usize,
        }
    }

    /// A range inside memory; of a large one only its end.
    fn range(&mut self, plan: Plan, size: usize) -> (u64, u64) {
        let size = size as u64;
        match plan {
            Plan::Valid | Plan::Fillers | Plan::Damaged | Plan::Noise => (0, size),
            Plan::Empty => {
                let at = self.random.below(size + 1);
                (at, at)
            }
            Plan::Large => (size - self.random.below(600), size),
            _ => {
                let (one, other) = (self.random.below(size + 1), self.random.below(size + 1));
                (one.min(other), one.max(other))
            }
        }
    }

    /// A memory and a range of it that ends inside a whole instruction.
    fn crossing(&mut self) -> (Vec<u8>, u64, u64) {
        let size = 20 + self.random.below(100) as usize;
        let (memory, starts) = self.program(size, true);
        let last = self.random.below(starts.len() as u64) as usize;
        let first = self.random.below(last as u64 + 1) as usize;
        let length = u64::from(TABLE[usize::from(memory[starts[last]] >> 4)].length);
        let inside = 1 + self.random.below(length.max(2) - 1);
        let (start, from) = (starts[first] as u64, starts[last] as u64);
        (memory, start, from + inside)
    }

    /// What is refused: the numbers that a plan makes wrong.
    fn spoil(&mut self, plan: Plan, range: &mut Range) {
        let size = range.memory.len() as u64;
        match plan {
            Plan::Size => range.memory = vec![0; self.random.pick(&[0, MEMORY_LIMIT + 1])],
            Plan::Block => {
                let other = self.random.pick(&[0, 4, 7, 9, 16]);
                range.length = self.random.bytes(other);
            }
            Plan::Backwards => {
                let above = self.random.pick(&[1, 1, 2, u64::MAX - range.end]);
                range.start = range.end.saturating_add(above.max(1));
            }
            Plan::Beyond => range.end = self.random.pick(&[size + 1, size + 2, u64::MAX]),
            _ => {}
        }
    }

    /// How long a text is lent: mostly longer than needed.
    fn room(&mut self, plan: Plan, needed: usize) -> usize {
        match plan {
            Plan::Exact => needed,
            Plan::Short => {
                let any = self.random.below(needed.max(1) as u64) as usize;
                self.random.pick(&[0, any, needed.saturating_sub(1)])
            }
            _ => needed + self.random.below(40) as usize,
        }
    }
}

impl Iterator for Ranges {
    type Item = Range;

    fn next(&mut self) -> Option<Range> {
        let (plan, name) = PLANS[self.made % PLANS.len()];
        self.made += 1;
        let (memory, start, end) = match plan {
            Plan::Crossing => self.crossing(),
            _ => {
                let size = self.size(plan);
                let (start, end) = self.range(plan, size);
                (self.memory(plan, size), start, end)
            }
        };
        let needed = listing(&memory, start as usize, end as usize).len();
        let room = self.room(plan, needed);
        let mut range = Range {
            name,
            memory,
            text: self.random.bytes(room),
            length: self.random.bytes(LENGTH_BYTES),
            start,
            end,
        };
        match plan {
            Plan::Several => {
                for plan in [Plan::Size, Plan::Block, Plan::Beyond, Plan::Backwards] {
                    if self.random.chance(1, 2) {
                        self.spoil(plan, &mut range);
                    }
                }
            }
            _ => self.spoil(plan, &mut range),
        }
        Some(range)
    }
}
