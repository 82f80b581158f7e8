//! The replay over two memories (#110), by the product, where its archive has
//! it, against the second program.

use crate::common::reasons::REASONS;
use crate::common::seams::parts_name;
use crate::common::tally::{Classes, Tally};
use crate::Left;
use desk::engine::{self, FullOutcome, ReplaySplit};
use desk::generate::{Case, Generator};
use desk::second;
use desk::second::memory::Extent;
use desk::second::replay::{Chosen, FULL_BYTES};

const NUMBERS: [&str; 7] = ["0", "1", "2", "3", "4", "5", "6"];
const STATUSES: [&str; 4] = ["AOK", "HLT", "ADR", "INS"];

/// Every class that has to occur, under its heading.
const CLASSES: &Classes = &[
    ("answer", &NUMBERS),
    ("lent", &["one memory", "both parts", "no writable byte"]),
    (
        "sum",
        &["0", "1-4096", "4097-65535", "65536", "65537", "more"],
    ),
    (
        "start",
        &["in the program", "at the seam", "behind it", "outside"],
    ),
    ("status", &STATUSES),
    ("failed fetch", &REASONS),
    (
        "later byte missing",
        &["at the seam", "at N", "at the window's end"],
    ),
    ("charged for a patch", &["one memory", "both parts"]),
    (
        "ADR of an access",
        &["in the program's code", "in writable code"],
    ),
];

/// What a replay over two memories leaves of a case.
fn left(case: &Case, seam: usize, chosen: Chosen, replay: ReplaySplit) -> Left {
    Left::by(
        case,
        case.budget,
        |memory, registers, result, start, codes, budget| {
            let (program, writable) = memory.split_at_mut(seam);
            replay(
                program, writable, registers, result, start, codes, budget, chosen,
            )
        },
    )
}

#[test]
fn two_memories_are_the_second_programs_equal() {
    let cases = if cfg!(debug_assertions) {
        40_000
    } else {
        400_000
    };
    let mut generator = Generator::new(0x5b117);
    let mut tally = Tally::default();
    for number in 0..cases {
        let (case, chosen, seam) = generator.split_case();
        let expected = left(&case, seam, chosen, second::replay_split);
        if let Some(replay) = engine::REPLAY_SPLIT {
            let product = left(&case, seam, chosen, replay);
            assert!(
                product == expected,
                "case {number}, seam {seam}: {chosen:?} {case:x?}"
            );
        }
        assert!(
            expected.memory[..seam] == case.image[..seam],
            "case {number}"
        );
        count(&mut tally, &case, seam, chosen, &expected);
    }
    match engine::REPLAY_SPLIT {
        Some(_) => println!("compared {cases} cases"),
        None => println!("{cases} cases by the second program alone: no y86_replay_split"),
    }
    println!("{}", tally.table(CLASSES));
    tally.check(CLASSES, 20);
}

fn count(tally: &mut Tally, case: &Case, seam: usize, chosen: Chosen, left: &Left) {
    let extent = Extent {
        seam: seam as u64,
        size: case.image.len() as u64,
    };
    tally.count("answer", NUMBERS[left.answer as usize]);
    tally.count("sum", sum_name(extent.size));
    if left.answer > 0 {
        if left.answer == 6 {
            tally.count("start", "outside");
        }
        return;
    }
    tally.count("lent", parts_name(extent));
    tally.count(
        "start",
        match case.start.cmp(&extent.seam) {
            std::cmp::Ordering::Less => "in the program",
            std::cmp::Ordering::Equal => "at the seam",
            std::cmp::Ordering::Greater => "behind it",
        },
    );
    let block: &[u8; FULL_BYTES] = left.result[..].try_into().expect("a full block");
    count_told(tally, extent, chosen, &FullOutcome::read(block));
}

fn count_told(tally: &mut Tally, extent: Extent, chosen: Chosen, told: &FullOutcome) {
    tally.count("status", STATUSES[told.outcome.status as usize - 1]);
    if told.kinds[3] > 0 {
        tally.count("charged for a patch", parts_name(extent));
    }
    tally.count("failed fetch", REASONS[told.reason as usize]);
    match (told.outcome.status, told.reason) {
        (_, 4) => {
            let name = match told.fault_address {
                at if at == extent.seam => "at the seam",
                at if at == extent.size => "at N",
                at => {
                    assert_eq!((chosen.windowed, chosen.end), (1, at));
                    "at the window's end"
                }
            };
            tally.count("later byte missing", name);
        }
        (3, 0) if told.outcome.last < extent.seam => {
            tally.count("ADR of an access", "in the program's code");
        }
        (3, 0) => tally.count("ADR of an access", "in writable code"),
        _ => {}
    }
}

fn sum_name(size: u64) -> &'static str {
    match size {
        0 => "0",
        1..=4_096 => "1-4096",
        4_097..=65_535 => "4097-65535",
        65_536 => "65536",
        65_537 => "65537",
        _ => "more",
    }
}

/// Runs over one memory keep their answers.
#[test]
fn no_program_byte_is_one_memory() {
    let mut generator = Generator::new(0x11e);
    for number in 0..20_000 {
        let (case, chosen) = generator.set_case();
        let one = Left::by(
            &case,
            case.budget,
            |memory, registers, result, start, codes, budget| {
                second::replay_set(memory, registers, result, start, codes, budget, chosen)
            },
        );
        let split = left(&case, 0, chosen, second::replay_split);
        assert!(one == split, "case {number}");
    }
}
