//! The product through its host edge against the second program, byte for
//! byte: the answer, and all memory, register and result bytes.

#[path = "../common/mod.rs"]
mod common;
mod counts;
mod figures;
mod set;
mod split;

use counts::Counts;
use desk::engine;
use desk::generate::{Case, Generator, Kind};
use desk::second;
use desk::second::pipeline::Pipeline;
use desk::second::replay::replay_to_record;
use desk::second::{Refusal, Status};
use std::time::Instant;

/// What a replay leaves.
#[derive(PartialEq, Eq)]
struct Left {
    answer: u64,
    memory: Vec<u8>,
    registers: Vec<u8>,
    result: Vec<u8>,
}

impl Left {
    /// What one of the engines leaves of a case.
    fn by(
        case: &Case,
        budget: u64,
        replay: impl FnOnce(&mut [u8], &mut [u8], &mut [u8], u64, u64, u64) -> u64,
    ) -> Left {
        let (mut memory, mut registers) = (case.image.clone(), case.registers.clone());
        let mut result = case.result.clone();
        let (start, codes) = (case.start, case.codes);
        let answer = replay(
            &mut memory,
            &mut registers,
            &mut result,
            start,
            codes,
            budget,
        );
        Left {
            answer,
            memory,
            registers,
            result,
        }
    }

    fn by_product(case: &Case, budget: u64) -> Left {
        Left::by(case, budget, engine::replay)
    }

    /// What the second program leaves, with its final record.
    fn by_second(case: &Case, budget: u64) -> (Left, Result<Pipeline, Refusal>) {
        let mut record = None;
        let left = Left::by(
            case,
            budget,
            |memory, registers, result, start, codes, budget| {
                let made = replay_to_record(memory, registers, result, start, codes, budget);
                record = Some(made);
                made.map_or_else(Refusal::number, |_| 0)
            },
        );
        (left, record.expect("a replay"))
    }
}

/// Compares one case; gives the second program's record and final memory.
fn compare(case: &Case, budget: u64, name: &str) -> (Result<Pipeline, Refusal>, Vec<u8>) {
    let product = Left::by_product(case, budget);
    let (second, record) = Left::by_second(case, budget);
    assert!(
        product == second,
        "{name}, budget {budget}: {}\n{case:x?}",
        difference(&product, &second)
    );
    (record, second.memory)
}

/// Where two replays differ, the product's before the second program's.
fn difference(product: &Left, second: &Left) -> String {
    let blocks = [
        ("memory", &product.memory, &second.memory),
        ("registers", &product.registers, &second.registers),
        ("result", &product.result, &second.result),
    ];
    let mut text = format!("answers {} and {}", product.answer, second.answer);
    for (name, one, other) in blocks {
        let differing = (0..one.len()).find(|place| one[*place] != other[*place]);
        if let Some(place) = differing {
            let (one, other) = (one[place], other[place]);
            text += &format!(", {name} byte {place}: {one:#04x} and {other:#04x}");
        }
    }
    text
}

/// How many cases are compared. DESK_CASES asks for another number, of at
/// least 100,000, for a longer run; unoptimised code gets fewer.
fn asked_cases() -> u64 {
    match std::env::var("DESK_CASES") {
        Ok(text) => {
            let asked = text.parse().expect("DESK_CASES is a number of cases");
            assert!(asked >= 100_000, "fewer cases do not show every class");
            asked
        }
        Err(_) if cfg!(debug_assertions) => 100_000,
        Err(_) => 2_000_000,
    }
}

#[test]
fn the_product_is_the_second_programs_equal() {
    const SEEDS: [u64; 2] = [0x5eed, 0xfe12];
    let each = asked_cases().div_ceil(2);
    let begin = Instant::now();
    let mut counts = Counts::default();
    std::thread::scope(|scope| {
        let parts = SEEDS.map(|seed| scope.spawn(move || compare_many(seed, each)));
        for part in parts {
            counts.join(part.join().expect("cases that agree"));
        }
    });
    let spent = begin.elapsed().as_secs_f64();
    println!("compared {} cases in {spent:.1} s", 2 * each);
    println!("{}", counts.table());
    counts.check();
}

fn compare_many(seed: u64, cases: u64) -> Counts {
    let mut generator = Generator::new(seed);
    let mut counts = Counts::default();
    for number in 0..cases {
        let case = generator.case();
        let name = format!("seed {seed:#x}, case {number}");
        let (record, memory) = compare(&case, case.budget, &name);
        counts.add(&case, record, &memory);
    }
    counts
}

/// Each clock of a run: budget by budget until it has stopped, and once more.
#[test]
fn every_budget_up_to_the_stop_agrees() {
    let programs = if cfg!(debug_assertions) { 500 } else { 10_000 };
    let mut generator = Generator::new(0xc10c);
    let (mut compared, mut stopped) = (0, 0);
    for number in 0..programs {
        let mut case = generator.case();
        while case.kind == Kind::Refusals {
            case = generator.case();
        }
        let mut status = Status::Aok;
        for budget in 1..=120 {
            let before = status;
            let (record, _) = compare(&case, budget, &format!("program {number}"));
            status = record.expect("no refusal").status;
            compared += 1;
            if before != Status::Aok {
                stopped += 1;
                break;
            }
        }
    }
    println!("{programs} programs clock by clock: {compared} replays, {stopped} stopped");
    assert!(stopped > programs / 2);
}

/// The lent slices are parts of one block: what lies around them stays.
#[test]
fn nothing_but_the_lent_bytes_is_touched() {
    const GAP: usize = 24;
    let mut generator = Generator::new(0x9a9);
    for number in 0..20_000 {
        let case = generator.case();
        let lent = [&case.image, &case.registers, &case.result];
        let mut block = vec![0xa5; GAP];
        for bytes in lent {
            block.extend(bytes);
            block.extend([0xa5; GAP]);
        }
        let (memory, rest) = block[GAP..].split_at_mut(case.image.len());
        let (registers, rest) = rest[GAP..].split_at_mut(case.registers.len());
        let result = &mut rest[GAP..][..case.result.len()];
        let (start, codes, budget) = (case.start, case.codes, case.budget);
        engine::replay(memory, registers, result, start, codes, budget);
        let mut places = block.as_slice();
        for bytes in lent {
            assert!(places[..GAP].iter().all(|byte| *byte == 0xa5), "{number}");
            places = &places[GAP + bytes.len()..];
        }
        assert!(places.iter().all(|byte| *byte == 0xa5), "{number}");
    }
}

/// All combinations of the six refusals, with every buffer left alone.
#[test]
fn refusals_agree_in_every_combination() {
    for spoilt in 0..64_u64 {
        let way = |number: u64| spoilt >> (number - 1) & 1 == 1;
        let pick = |number, good: [u64; 2], bad: [u64; 2]| if way(number) { bad } else { good };
        for turn in 0..2 {
            let size = pick(1, [1, 65_536], [0, 65_537])[turn];
            let registers = pick(2, [120, 120], [119, 121])[turn];
            let result = pick(4, [40, 40], [41, 0])[turn];
            let case = Case {
                kind: Kind::Refusals,
                image: vec![0x10; size as usize],
                registers: vec![3; registers as usize],
                result: vec![5; result as usize],
                start: pick(6, [0, size.wrapping_sub(1)], [size, u64::MAX])[turn],
                codes: pick(5, [0, 7], [8, u64::MAX])[turn],
                budget: pick(3, [1, 262_145], [0, 262_146])[turn],
                code_end: 0,
            };
            let lowest = (1..=6).find(|number| way(*number)).unwrap_or(0);
            let left = Left::by_product(&case, case.budget);
            assert_eq!(left.answer, lowest);
            assert!(left == Left::by_second(&case, case.budget).0);
            if lowest > 0 {
                assert!(left.memory == case.image && left.registers == case.registers);
                assert!(left.result == case.result);
            }
        }
    }
}

/// The wrapper's own result block gives the words that the edge wrote.
#[test]
fn the_outcome_is_the_result_words() {
    let mut generator = Generator::new(0x0c);
    for _ in 0..20_000 {
        let case = generator.case();
        let (mut memory, mut registers) = (case.image.clone(), case.registers.clone());
        let (start, codes, budget) = (case.start, case.codes, case.budget);
        let replay = engine::replay;
        let answer = engine::outcome(replay, &mut memory, &mut registers, start, codes, budget);
        let record = Left::by_second(&case, budget).1;
        if case.result.len() != 40 {
            continue;
        }
        match (answer, record) {
            (Err(number), Err(refusal)) => assert_eq!(number, refusal.number()),
            (Ok(outcome), Ok(record)) => {
                let words = [outcome.status, outcome.last, outcome.codes];
                let codes = record.codes.number();
                assert_eq!(words, [record.status.number(), record.last, codes]);
                let counts = (outcome.retired, outcome.cycles);
                assert_eq!(counts, (record.retired, record.cycles));
            }
            _ => panic!("one of the two refused"),
        }
    }
}

/// Both have one type, so that each can stand where the other does.
#[test]
fn both_are_replays() {
    let both: [engine::Replay; 2] = [engine::replay, second::replay];
    let answers = both.map(|replay| replay(&mut [], &mut [], &mut [], 0, 0, 0));
    assert_eq!(answers, [1, 1]);
}
