//! The replay with settings and the full result block, by the product, where
//! its archive has it, against the second program.

use crate::common::reasons::REASONS;
use crate::common::tally::{Classes, Tally};
use crate::Left;
use desk::engine::{self, FullOutcome, ReplaySet};
use desk::generate::{Case, Generator};
use desk::second;
use desk::second::replay::{Chosen, FULL_BYTES};

const NUMBERS: [&str; 7] = ["0", "1", "2", "3", "4", "5", "6"];
const STATUSES: [&str; 4] = ["AOK", "HLT", "ADR", "INS"];

/// Every class that has to occur, under its heading.
const CLASSES: &Classes = &[
    ("answer", &NUMBERS),
    ("rule", &["0", "1", "2", "another"]),
    ("late", &["0", "1", "another"]),
    ("windowed", &["0", "1", "another"]),
    (
        "refused for the settings alone",
        &["rule", "late", "windowed", "window"],
    ),
    ("status", &STATUSES),
    ("failed fetch", &REASONS),
    ("ADR of an access", &["yes"]),
    (
        "charged for",
        &["load-use", "mispredict", "return", "patch"],
    ),
    (
        "missing byte with a window",
        &["before its first", "at its end", "behind its end"],
    ),
];

/// What a replay with settings leaves of a case.
fn left(case: &Case, chosen: Chosen, replay: ReplaySet) -> Left {
    Left::by(
        case,
        case.budget,
        |memory, registers, result, start, codes, budget| {
            replay(memory, registers, result, start, codes, budget, chosen)
        },
    )
}

#[test]
fn the_full_block_is_the_second_programs_equal() {
    let cases = if cfg!(debug_assertions) {
        40_000
    } else {
        400_000
    };
    let mut generator = Generator::new(0x5e7);
    let mut tally = Tally::default();
    for number in 0..cases {
        let (case, chosen) = generator.set_case();
        let expected = left(&case, chosen, second::replay_set);
        if let Some(replay) = engine::REPLAY_SET {
            let product = left(&case, chosen, replay);
            assert!(product == expected, "case {number}: {chosen:?} {case:x?}");
        }
        count(&mut tally, &case, chosen, &expected);
    }
    match engine::REPLAY_SET {
        Some(_) => println!("compared {cases} cases"),
        None => println!("{cases} cases by the second program alone: no y86_replay_set"),
    }
    println!("{}", tally.table(CLASSES));
    tally.check(CLASSES, 20);
}

fn count(tally: &mut Tally, case: &Case, chosen: Chosen, left: &Left) {
    const FEW: [&str; 4] = ["0", "1", "2", "another"];
    const TWO: [&str; 3] = ["0", "1", "another"];
    tally.count("answer", NUMBERS[left.answer as usize]);
    tally.count("rule", FEW[chosen.rule.min(3) as usize]);
    tally.count("late", TWO[chosen.late.min(2) as usize]);
    tally.count("windowed", TWO[chosen.windowed.min(2) as usize]);
    if left.answer == 5 && case.codes <= 7 {
        let name = match chosen {
            Chosen { rule: 3.., .. } => "rule",
            Chosen { late: 2.., .. } => "late",
            Chosen { windowed: 2.., .. } => "windowed",
            _ => "window",
        };
        tally.count("refused for the settings alone", name);
    }
    if left.answer == 0 {
        let block: &[u8; FULL_BYTES] = left.result[..].try_into().expect("a full block");
        count_told(tally, chosen, &FullOutcome::read(block));
    }
}

fn count_told(tally: &mut Tally, chosen: Chosen, told: &FullOutcome) {
    tally.count("status", STATUSES[told.outcome.status as usize - 1]);
    tally.count("failed fetch", REASONS[told.reason as usize]);
    if told.outcome.status == 3 && told.reason == 0 {
        tally.count("ADR of an access", "yes");
    }
    if let (1, 1 | 4) = (chosen.windowed, told.reason) {
        let name = match told.fault_address {
            at if at < chosen.first => "before its first",
            at if at == chosen.end => "at its end",
            _ => "behind its end",
        };
        tally.count("missing byte with a window", name);
    }
    let names = ["load-use", "mispredict", "return", "patch"];
    let kinds = names.iter().zip(told.kinds);
    for (name, _) in kinds.filter(|(_, cycles)| *cycles > 0) {
        tally.count("charged for", name);
    }
}

/// With document 01's settings the first five words are those of the short
/// block, and the rest is as it was.
#[test]
fn the_short_block_is_the_full_ones_beginning() {
    let mut generator = Generator::new(0x50f7);
    for number in 0..20_000 {
        let mut case = generator.case();
        let short = Left::by(&case, case.budget, second::replay);
        if case.result.len() != 40 {
            continue;
        }
        case.result = vec![0; FULL_BYTES];
        let full = left(&case, Chosen::default(), second::replay_set);
        assert_eq!(short.answer, full.answer, "case {number}");
        assert!(short.memory == full.memory && short.registers == full.registers);
        if short.answer == 0 {
            assert!(short.result == full.result[..40], "case {number}");
        }
    }
}
