//! A deterministic generator of cases to compare replays on.
//!
//! The same seed gives the same cases, on every machine.

mod calls;
mod listings;
mod patching;
mod programs;
mod random;
mod ranges;
mod records;

pub use calls::{Call, Calls, Origin, Way};
pub use listings::{Damage, Listed, Listings};
pub use random::Random;
pub use ranges::{Range, Ranges};
pub use records::Record;

use crate::second::machine::{CYCLE_LIMIT, MEMORY_LIMIT, PROGRAM_LIMIT};
use crate::second::replay::{read_registers, Chosen, FULL_BYTES, REGISTER_BYTES, RESULT_BYTES};
use crate::second::window::Window;

/// What a case is made to try.
#[derive(Clone, Copy, Debug, PartialEq, Eq)]
pub enum Kind {
    /// Bytes without any plan.
    RandomBytes,
    /// Valid instructions in any order, some with a few bytes damaged.
    Soup,
    /// Loops with calls, returns and a stack.
    Loops,
    /// Addresses at both ends of memory and of the number line.
    Ends,
    /// Every charge, run into every way to stop.
    Charges,
    /// Stores into the program's own bytes, near ahead of them.
    SelfModifying,
    /// Refused calls, often for several reasons at once.
    Refusals,
    /// Images of 4,096 to 65,536 bytes, with code, stack and data around 4,096
    /// and at the end.
    Large,
    /// Programs that patch their own code (#113).
    Patching,
}

impl Kind {
    pub const ALL: [Kind; 9] = [
        Kind::RandomBytes,
        Kind::Soup,
        Kind::Loops,
        Kind::Ends,
        Kind::Charges,
        Kind::SelfModifying,
        Kind::Refusals,
        Kind::Patching,
        Kind::Large,
    ];

    /// The name a table of counts shows.
    pub fn name(self) -> &'static str {
        match self {
            Kind::RandomBytes => "random bytes",
            Kind::Soup => "soup",
            Kind::Loops => "loops",
            Kind::Ends => "ends",
            Kind::Charges => "charges",
            Kind::SelfModifying => "self-modifying",
            Kind::Refusals => "refusals",
            Kind::Large => "large",
            Kind::Patching => "patching",
        }
    }
}

/// What is lent and given to one replay.
#[derive(Clone, Debug, PartialEq, Eq)]
pub struct Case {
    pub kind: Kind,
    pub image: Vec<u8>,
    pub registers: Vec<u8>,
    pub result: Vec<u8>,
    pub start: u64,
    pub codes: u64,
    pub budget: u64,
    /// Where the code that a plan laid over the image ends.
    pub code_end: usize,
}

/// Makes one case after the other.
pub struct Generator {
    random: Random,
    /// The last size of the sweep over all sizes up to 4,096.
    swept: usize,
}

impl Generator {
    pub fn new(seed: u64) -> Generator {
        Generator {
            random: Random::new(seed),
            swept: 0,
        }
    }

    /// The next case, of any kind.
    pub fn case(&mut self) -> Case {
        let kind = self.kind();
        self.case_of(kind)
    }

    /// Any kind; few are large, as large images take long to compare.
    fn kind(&mut self) -> Kind {
        if self.random.chance(1, 64) {
            return Kind::Large;
        }
        self.random.pick(&Kind::ALL[..Kind::ALL.len() - 1])
    }

    /// Any kind that is not made to be refused.
    pub fn running_kind(&mut self) -> Kind {
        match self.kind() {
            Kind::Refusals => Kind::RandomBytes,
            kind => kind,
        }
    }

    /// The next case, of one kind.
    pub fn case_of(&mut self, kind: Kind) -> Case {
        if kind == Kind::Refusals {
            return self.refused();
        }
        let size = self.size(kind);
        let random = &mut self.random;
        let program = match kind {
            Kind::Soup => programs::soup(random, size),
            Kind::Loops => programs::loops(random, size),
            Kind::Ends => programs::ends(random, size),
            Kind::Charges => programs::charges(random, size),
            Kind::SelfModifying => programs::self_modifying(random, size),
            Kind::Large => programs::large(random, size),
            Kind::Patching => patching::patching(random, size),
            Kind::RandomBytes | Kind::Refusals => programs::random_bytes(random, size),
        };
        let registers = program.registers.iter().flat_map(|word| word.to_le_bytes());
        Case {
            kind,
            image: program.image,
            registers: registers.collect(),
            // Filled, so that a word left unwritten shows.
            result: self.random.bytes(RESULT_BYTES),
            start: program.start,
            codes: self.random.below(8),
            budget: self.budget(),
            code_end: program.code_end,
        }
    }

    /// The next case, with a full result block and settings as numbers; one in
    /// eight of the settings is refused, and as many blocks as of short ones.
    pub fn set_case(&mut self) -> (Case, Chosen) {
        let mut case = self.case();
        let right = case.result.len() == RESULT_BYTES;
        case.result = match right {
            true => self.random.bytes(FULL_BYTES),
            false => wrong_length(&mut self.random, FULL_BYTES),
        };
        let chosen = self.chosen(&case);
        (case, chosen)
    }

    /// The next case with settings, and a seam for its memory (#110).
    pub fn split_case(&mut self) -> (Case, Chosen, usize) {
        let (case, chosen) = self.set_case();
        let seam = self.seam(&case);
        (case, chosen, seam)
    }

    /// A seam in the image of a case: where its code ends, near a place that
    /// its code or its registers lead to, anywhere, or at one of the ends, so
    /// that one part is empty.
    pub fn seam(&mut self, case: &Case) -> usize {
        let random = &mut self.random;
        let size = case.image.len();
        let registers = read_registers(&case.registers).0;
        let few = random.below(24) as usize;
        let near = |place: u64| {
            let place = usize::try_from(place).unwrap_or(size).min(size);
            (place + few).saturating_sub(12)
        };
        let seam = match random.below(12) {
            0..=3 => case.code_end,
            4 => near(case.code_end as u64),
            5 => near(case.start + random.below(60)),
            6 | 7 => near(random.pick(&registers)),
            8 => near(size as u64),
            9 => random.pick(&[0, size]),
            _ => random.below(size as u64 + 1) as usize,
        };
        seam.min(size)
    }

    /// A window over the code of a case (#113): over what a plan laid, or all,
    /// with ends that are moved a little, or anywhere.
    pub fn window(&mut self, case: &Case) -> Window {
        let random = &mut self.random;
        let (size, code_end) = (case.image.len() as u64, case.code_end as u64);
        let (few, some) = (random.below(13), random.below(61));
        let any = random.below(size + 1);
        let begin = random.pick(&[0, case.start]);
        let first = random.pick(&[begin, begin, begin, begin, begin, few, some, any]);
        let near = (code_end + few).saturating_sub(6);
        let end = random.pick(&[code_end, code_end, near, near, size, size, some, any]);
        let (first, end) = (first.min(size), end.min(size));
        Window {
            first: first.min(end),
            end: end.max(first),
        }
    }

    /// Settings as numbers; without a window its addresses are anything.
    fn chosen(&mut self, case: &Case) -> Chosen {
        let window = self.window(case);
        let random = &mut self.random;
        let windowed = random.below(2);
        let mut chosen = Chosen {
            rule: random.below(3),
            late: random.below(2),
            windowed,
            first: window.first,
            end: window.end,
        };
        if windowed == 0 {
            (chosen.first, chosen.end) = (random.word(), random.below(9));
        }
        if random.chance(1, 8) {
            let over = random.pick(&[3, 4, 255, 256, 1 << 32, u64::MAX]);
            match random.below(4) {
                0 => chosen.rule = over,
                1 => chosen.late = over - 1,
                2 => chosen.windowed = over - 1,
                _ => {
                    let refused = refused_window(random, case.image.len());
                    (chosen.windowed, chosen.first, chosen.end) = (1, refused.first, refused.end);
                }
            }
        }
        chosen
    }

    /// A memory size. One in eight is the next of a sweep over all sizes up to
    /// 4,096, and a few are large; the others are small more often, as there
    /// the ends are near, but mostly with room for programs that have a plan.
    fn size(&mut self, kind: Kind) -> usize {
        if kind == Kind::Large || self.random.chance(1, 128) {
            return self.large_size();
        }
        if self.random.chance(1, 8) {
            self.swept = self.swept % PROGRAM_LIMIT + 1;
            return self.swept;
        }
        let most = self.random.pick(&[24, 64, 256, 256, 512, 1_024]);
        let size = 1 + self.random.below(most) as usize;
        let room = match kind {
            Kind::Loops | Kind::Charges | Kind::SelfModifying | Kind::Patching => {
                self.random.chance(7, 8)
            }
            Kind::Soup => self.random.chance(1, 2),
            _ => false,
        };
        size + if room { 250 } else { 0 }
    }

    /// A memory size from 4,096 to 65,536, often at one of the ends.
    fn large_size(&mut self) -> usize {
        let between = MEMORY_LIMIT - PROGRAM_LIMIT;
        let any = PROGRAM_LIMIT + self.random.below(between as u64) as usize;
        let ends = [PROGRAM_LIMIT, PROGRAM_LIMIT + 1, MEMORY_LIMIT - 1];
        self.random
            .pick(&[ends[0], ends[1], ends[2], MEMORY_LIMIT, any, any])
    }

    /// A budget from 1 to the limit, small ones more often.
    fn budget(&mut self) -> u64 {
        let most = self.random.pick(&[12, 12, 60, 300, 300, 300, 4_000, 4_000]);
        if !self.random.chance(1, 64) {
            return 1 + self.random.below(most);
        }
        match self.random.below(4) {
            0 => CYCLE_LIMIT,
            1 => CYCLE_LIMIT - self.random.below(8),
            _ => 1 + self.random.below(CYCLE_LIMIT),
        }
    }

    /// A case of another kind, spoilt in one way or in several.
    fn refused(&mut self) -> Case {
        let kind = self.running_kind();
        let swept = self.swept;
        let mut case = self.case_of(kind);
        // The sweep is for cases that run.
        self.swept = swept;
        case.kind = Kind::Refusals;
        let first = self.random.below(6);
        for way in 0..6 {
            if way == first || self.random.chance(1, 4) {
                self.spoil(&mut case, way);
            }
        }
        case
    }

    fn spoil(&mut self, case: &mut Case, way: u64) {
        let random = &mut self.random;
        let any = random.word();
        match way {
            0 => case.image = refused_memory(random),
            1 => case.registers = wrong_length(random, REGISTER_BYTES),
            2 => {
                case.budget =
                    random.pick(&[0, CYCLE_LIMIT + 1, u64::MAX, CYCLE_LIMIT + any % 99 + 1])
            }
            3 => case.result = wrong_length(random, RESULT_BYTES),
            4 => case.codes = random.pick(&[8, 9, 255, 256, 1 << 32, u64::MAX, any | 8]),
            _ => case.start = outside(random, case.image.len() as u64),
        }
    }
}

/// A window that refusal 5 meets in a memory of this size.
fn refused_window(random: &mut Random, size: usize) -> Window {
    let size = size as u64;
    let (inside, over) = (random.below(size + 1), outside(random, size + 1));
    let (first, end) = random.pick(&[
        (inside, over),
        (over, over),
        (over, inside),
        (inside + 1, inside),
        (size, 0),
        (0, size + 1),
    ]);
    match first == 0 && end == 0 {
        true => Window { first: 1, end },
        false => Window { first, end },
    }
}

/// Memory that refusal 1 meets; mostly empty, as the other takes long to make.
fn refused_memory(random: &mut Random) -> Vec<u8> {
    let over = MEMORY_LIMIT + 1 + random.below(200) as usize;
    let size = random.pick(&[0, 0, 0, 0, MEMORY_LIMIT + 1, over]);
    random.bytes(size)
}

/// An address that is not below N.
fn outside(random: &mut Random, size: u64) -> u64 {
    let (few, far) = (random.below(20), random.word());
    let behind = random.pick(&[0, 0, 1, few, far]);
    random.pick(&[size.saturating_add(behind), u64::MAX])
}

/// A block of bytes that is too short or too long.
fn wrong_length(random: &mut Random, right: usize) -> Vec<u8> {
    let any = random.below(2 * right as u64) as usize;
    let length = random.pick(&[0, 1, right - 1, right + 1, right - 8, right + 8, any]);
    let length = if length == right { right + 1 } else { length };
    random.bytes(length)
}
