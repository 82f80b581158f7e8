//! What turned up among the cases that were compared.

use crate::common::reasons::{reason_name, REASONS};
use crate::common::tally::{Classes, Tally};
use desk::generate::Case;
use desk::second::machine::{CYCLE_LIMIT, MEMORY_LIMIT, PROGRAM_LIMIT};
use desk::second::pipeline::Pipeline;
use desk::second::{Reason, Refusal, Status};

const NUMBERS: [&str; 8] = ["0", "1", "2", "3", "4", "5", "6", "7"];
const BLOCKS: [&str; 4] = ["right", "empty", "short", "long"];

/// Every class that has to occur, under its heading.
const CLASSES: &Classes = &[
    (
        "kind",
        &[
            "random bytes",
            "soup",
            "loops",
            "ends",
            "charges",
            "self-modifying",
            "refusals",
            "patching",
            "large",
        ],
    ),
    (
        "stop",
        &[
            "HLT",
            "ADR at fetch",
            "ADR at access",
            "INS",
            "budget spent",
        ],
    ),
    ("failed fetch", &REASONS),
    ("refusal", &["1", "2", "3", "4", "5", "6"]),
    ("reasons to refuse", &["0", "1", "2", "3", "4", "5", "6"]),
    (
        "refusal 6 applies beside",
        &["none", "1", "2", "3", "4", "5"],
    ),
    (
        "charged for",
        &["nothing", "load-use", "mispredict", "return"],
    ),
    (
        "size",
        &[
            "0",
            "1",
            "2-7",
            "8-15",
            "16-255",
            "256-4095",
            "4096",
            "4097",
            "4098-65534",
            "65535",
            "65536",
            "65537",
            "more",
        ],
    ),
    (
        "budget",
        &[
            "0",
            "1",
            "2-4",
            "5-99",
            "100-9999",
            "10000-262144",
            "262145",
            "262146",
            "more",
        ],
    ),
    ("codes given", &NUMBERS),
    ("codes left", &NUMBERS),
    ("last kept", &INSTRUCTIONS),
    (
        "start",
        &["0", "inside", "N - 1", "N", "outside", "2^64 - 1"],
    ),
    (
        "last address",
        &[
            "below 4080",
            "4080-4095",
            "4096-4111",
            "4112-65519",
            "65520-65535",
            "65536-65551",
            "above",
        ],
    ),
    (
        "written",
        &[
            "nothing",
            "below 4096 only",
            "across 4096",
            "above 4096",
            "the byte at 65535",
        ],
    ),
    ("register block", &BLOCKS),
    ("result block", &BLOCKS),
];

const INSTRUCTIONS: [&str; 13] = [
    "none", "nop", "cmovXX", "irmovq", "rmmovq", "mrmovq", "OPq", "jXX", "call", "ret", "pushq",
    "popq", "iaddq",
];

/// How often each class occurred, and each size.
pub struct Counts {
    cases: u64,
    classes: Tally,
    sizes: Vec<u64>,
}

impl Default for Counts {
    fn default() -> Counts {
        Counts {
            cases: 0,
            classes: Tally::default(),
            sizes: vec![0; MEMORY_LIMIT + 1],
        }
    }
}

impl Counts {
    /// Counts a case by what was given and by what the second program made of
    /// it: its final record and memory.
    pub fn add(&mut self, case: &Case, record: Result<Pipeline, Refusal>, memory: &[u8]) {
        self.cases += 1;
        self.count("kind", case.kind.name());
        self.count("size", size_class(case.image.len()));
        self.count("budget", budget_class(case.budget));
        self.count("register block", block_class(case.registers.len(), 120));
        self.count("result block", block_class(case.result.len(), 40));
        self.count("start", start_class(case.start, case.image.len() as u64));
        self.add_reasons(case);
        match record {
            Err(refusal) => self.count("refusal", NUMBERS[refusal.number() as usize]),
            Ok(record) => {
                self.add_run(case, &record);
                self.count("written", written_class(&case.image, memory));
            }
        }
    }

    fn add_reasons(&mut self, case: &Case) {
        let reasons = reasons(case);
        self.count("reasons to refuse", NUMBERS[reasons.len()]);
        if let Some((6, others)) = reasons.split_last() {
            for number in others {
                self.count("refusal 6 applies beside", NUMBERS[*number]);
            }
            if others.is_empty() {
                self.count("refusal 6 applies beside", "none");
            }
        }
    }

    fn add_run(&mut self, case: &Case, record: &Pipeline) {
        self.sizes[case.image.len()] += 1;
        self.count("last address", last_class(record.last));
        self.count("codes given", NUMBERS[case.codes as usize]);
        self.count("codes left", NUMBERS[record.codes.number() as usize]);
        self.count("stop", stop_class(record));
        self.count("failed fetch", reason_name(record.fault.reason));
        let kept = record.kept.map_or(0, |kept| usize::from(kept.code()));
        self.count("last kept", INSTRUCTIONS[kept]);
        let kinds = record.kinds;
        let charges = [
            ("load-use", kinds.load_use),
            ("mispredict", kinds.mispredict),
            ("return", kinds.returns),
        ];
        for (name, _) in charges.iter().filter(|(_, cycles)| *cycles > 0) {
            self.count("charged for", name);
        }
        if charges.iter().all(|(_, cycles)| *cycles == 0) {
            self.count("charged for", "nothing");
        }
    }

    fn count(&mut self, heading: &'static str, class: &'static str) {
        self.classes.count(heading, class);
    }

    /// Takes in the counts of another part of the run.
    pub fn join(&mut self, other: Counts) {
        self.cases += other.cases;
        self.classes.join(other.classes);
        for (sum, count) in self.sizes.iter_mut().zip(other.sizes) {
            *sum += count;
        }
    }

    /// The counts, a line for each heading.
    pub fn table(&self) -> String {
        let ran = |sizes: &[u64]| sizes.iter().filter(|count| **count > 0).count();
        let (small, large) = self.sizes[1..].split_at(PROGRAM_LIMIT);
        let (small, large) = (ran(small), ran(large));
        let table = self.classes.table(CLASSES);
        format!("{table}sizes that ran: {small} of {PROGRAM_LIMIT}, and {large} above")
    }

    /// Every class occurred, and often; so did every size from 1 to 4,096.
    pub fn check(&self) {
        self.classes.check(CLASSES, 1 + self.cases / 10_000);
        let missing = (1..=PROGRAM_LIMIT).find(|size| self.sizes[*size] == 0);
        assert_eq!(missing, None, "a size that did not occur");
    }
}

fn size_class(size: usize) -> &'static str {
    match size {
        0 => "0",
        1 => "1",
        2..=7 => "2-7",
        8..=15 => "8-15",
        16..=255 => "16-255",
        256..=4_095 => "256-4095",
        4_096 => "4096",
        4_097 => "4097",
        4_098..=65_534 => "4098-65534",
        65_535 => "65535",
        65_536 => "65536",
        65_537 => "65537",
        _ => "more",
    }
}

fn start_class(start: u64, size: u64) -> &'static str {
    match start {
        u64::MAX => "2^64 - 1",
        _ if start == size => "N",
        _ if start > size => "outside",
        0 => "0",
        _ if start == size - 1 => "N - 1",
        _ => "inside",
    }
}

fn last_class(last: u64) -> &'static str {
    match last {
        0..=4_079 => "below 4080",
        4_080..=4_095 => "4080-4095",
        4_096..=4_111 => "4096-4111",
        4_112..=65_519 => "4112-65519",
        65_520..=65_535 => "65520-65535",
        65_536..=65_551 => "65536-65551",
        _ => "above",
    }
}

/// Where a run changed memory.
fn written_class(before: &[u8], after: &[u8]) -> &'static str {
    let changed = |at: usize| before.get(at) != after.get(at);
    if before == after {
        "nothing"
    } else if changed(65_535) {
        "the byte at 65535"
    } else if changed(4_095) && changed(4_096) {
        "across 4096"
    } else if before.len() > PROGRAM_LIMIT && before[PROGRAM_LIMIT..] != after[PROGRAM_LIMIT..] {
        "above 4096"
    } else {
        "below 4096 only"
    }
}

fn budget_class(budget: u64) -> &'static str {
    match budget {
        0 => "0",
        1 => "1",
        2..=4 => "2-4",
        5..=99 => "5-99",
        100..=9_999 => "100-9999",
        10_000..=262_144 => "10000-262144",
        262_145 => "262145",
        262_146 => "262146",
        _ => "more",
    }
}

fn block_class(length: usize, right: usize) -> &'static str {
    match length {
        _ if length == right => "right",
        0 => "empty",
        _ if length < right => "short",
        _ => "long",
    }
}

/// The numbers of the refusals that a case asks for.
fn reasons(case: &Case) -> Vec<usize> {
    let size = case.image.len();
    let asked = [
        size == 0 || size > MEMORY_LIMIT,
        case.registers.len() != 120,
        case.budget == 0 || case.budget > CYCLE_LIMIT,
        case.result.len() != 40,
        case.codes > 7,
        case.start >= size as u64,
    ];
    (1..=6).filter(|number| asked[number - 1]).collect()
}

/// Why a run ended.
fn stop_class(record: &Pipeline) -> &'static str {
    let fetched = record.fault.reason != Reason::None;
    match record.status {
        Status::Aok => "budget spent",
        Status::Hlt => "HLT",
        Status::Ins => "INS",
        Status::Adr if fetched => "ADR at fetch",
        Status::Adr => "ADR at access",
    }
}
