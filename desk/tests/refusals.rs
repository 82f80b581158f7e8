//! Refusals by number: lowest wins, and nothing is changed.

mod common;

use common::codes;
use desk::programs::listing_001;
use desk::second::letter;
use desk::second::machine::{Refusal, Registers, Status, CYCLE_LIMIT, PLAIN_LIMIT};
use desk::second::pipeline::{Kinds, Logs, Pipeline, Settings};
use desk::second::plain::Plain;
use desk::second::replay;
use desk::second::stages::{Accessing, Decoding, Executing, Instruction, Writing};
use desk::second::window::Window;

fn plain() -> Plain {
    common::plain(&[0x10], Registers::default(), codes(4), 0)
}

fn pipeline() -> Pipeline {
    common::pipeline(&[0x10], Registers::default(), codes(4), 0)
}

fn letter_pipeline() -> letter::Pipeline {
    let (registers, settings) = (Registers::default(), Settings::default());
    letter::Pipeline::fresh(1, registers, codes(4), 0, settings).expect("a start")
}

/// A plain run with a log of a length, all compared afterwards.
fn plain_refusal(machine: Plain, size: usize, budget: u64, log: usize) -> Option<Refusal> {
    let (mut after, mut memory, mut lent) = (machine, vec![0x10; size], vec![9; log]);
    let answer = after.run(&mut memory, budget, Some(&mut lent)).err();
    if answer.is_some() {
        assert_eq!(
            (after, memory, lent),
            (machine, vec![0x10; size], vec![9; log])
        );
    }
    answer
}

#[test]
fn plain_runs_are_refused_by_number() {
    let mut counted = plain();
    counted.count = PLAIN_LIMIT - 10;
    let mut full = plain();
    full.count = u64::MAX;
    let cases = [
        (plain(), 0, 0, 0, Some(Refusal::Memory)),
        (plain(), 65_537, 1, 1, Some(Refusal::Memory)),
        (plain(), 65_536, 0, 0, Some(Refusal::Budget)),
        (plain(), 65_536, 1, 1, None),
        (plain(), 1, PLAIN_LIMIT + 1, 0, Some(Refusal::Budget)),
        (plain(), 1, u64::MAX, 0, Some(Refusal::Budget)),
        (plain(), 1, PLAIN_LIMIT, 65_535, Some(Refusal::Buffer)),
        (plain(), 1, PLAIN_LIMIT, 65_536, None),
        (counted, 1, 11, 11, Some(Refusal::Budget)),
        (counted, 1, 10, 9, Some(Refusal::Buffer)),
        (counted, 1, 10, 10, None),
        (full, 1, 1, 1, Some(Refusal::Budget)),
    ];
    for (machine, size, budget, log, expected) in cases {
        assert_eq!(plain_refusal(machine, size, budget, log), expected);
        let stopped = Plain {
            status: Status::Hlt,
            ..machine
        };
        assert_eq!(plain_refusal(stopped, size, budget, log), expected);
    }
}

#[test]
fn a_step_is_a_run_of_one() {
    let mut memory = vec![0x10; 4];
    let mut machine = plain();
    machine.count = PLAIN_LIMIT;
    assert_eq!(machine.step(&mut memory), Err(Refusal::Budget));
    assert_eq!(machine.step(&mut []), Err(Refusal::Memory));
    machine.count = PLAIN_LIMIT - 1;
    assert_eq!(machine.step(&mut memory), Ok(()));
    assert_eq!((machine.count, machine.address), (PLAIN_LIMIT, 1));
}

fn pipeline_refusal(
    machine: Pipeline,
    size: usize,
    budget: u64,
    logs: (usize, usize),
) -> Option<Refusal> {
    let (mut after, mut memory) = (machine, vec![0x10; size]);
    let (mut addresses, mut cycles) = (vec![9; logs.0], vec![8; logs.1]);
    let lent = Logs {
        addresses: &mut addresses,
        cycles: &mut cycles,
    };
    let answer = after.run(&mut memory, budget, Some(lent)).err();
    if answer.is_some() {
        assert_eq!((after, memory), (machine, vec![0x10; size]));
        assert_eq!((addresses, cycles), (vec![9; logs.0], vec![8; logs.1]));
    }
    answer
}

#[test]
fn pipelined_runs_are_refused_by_number() {
    let mut late = pipeline();
    late.cycles = CYCLE_LIMIT - 10;
    let mut bad = late;
    bad.retired = u64::MAX;
    let limit = CYCLE_LIMIT as usize;
    let over = Some(Refusal::Budget);
    let cases = [
        (bad, 0, 0, (0, 0), Some(Refusal::Memory)),
        (bad, 1, 0, (0, 0), over),
        (bad, 1, 11, (0, 0), over),
        (bad, 1, 10, (9, 10), Some(Refusal::Buffer)),
        (bad, 1, 10, (10, 9), Some(Refusal::Buffer)),
        (bad, 1, 10, (10, 10), Some(Refusal::Record)),
        (late, 1, 10, (10, 10), None),
        (late, 65_536, 10, (10, 10), None),
        (late, 65_537, 10, (10, 10), Some(Refusal::Memory)),
        (pipeline(), 1, CYCLE_LIMIT, (limit, limit), None),
        (pipeline(), 1, CYCLE_LIMIT + 1, (limit, limit), over),
        (pipeline(), 1, u64::MAX, (limit, limit), over),
    ];
    for (machine, size, budget, logs, expected) in cases {
        assert_eq!(pipeline_refusal(machine, size, budget, logs), expected);
        let stopped = Pipeline {
            status: Status::Ins,
            ..machine
        };
        assert_eq!(pipeline_refusal(stopped, size, budget, logs), expected);
    }
}

/// The records with an instruction in each place that can hold one.
fn holding(instruction: Instruction) -> [Pipeline; 5] {
    let base = pipeline();
    let d = Decoding {
        instruction,
        constant: 0,
    };
    let e = Executing {
        instruction,
        constant: 0,
        a: 0,
        b: 0,
    };
    let m = Accessing {
        instruction,
        result: 0,
        a: 0,
    };
    let w = Writing {
        instruction,
        result: 0,
        loaded: 0,
    };
    [
        Pipeline { d: Some(d), ..base },
        Pipeline { e: Some(e), ..base },
        Pipeline { m: Some(m), ..base },
        Pipeline { w: Some(w), ..base },
        Pipeline {
            kept: Some(instruction),
            ..base
        },
    ]
}

#[test]
fn records_are_refused_for_what_they_hold() {
    let make =
        |code, function, ra, rb| Instruction::new(0, (code, function), (ra, rb), Status::Aok);
    let refused = [
        make(13, 0, 15, 15),
        make(255, 0, 15, 15),
        make(2, 7, 0, 0),
        make(7, 7, 15, 15),
        make(6, 4, 0, 0),
        make(6, 0, 16, 0),
        make(6, 0, 0, 16),
        make(11, 0, 200, 15),
    ];
    let allowed = [
        make(0, 9, 15, 15),
        make(11, 200, 15, 15),
        make(12, 200, 15, 15),
        make(2, 6, 15, 15),
        make(7, 6, 15, 15),
        make(6, 3, 15, 15),
    ];
    for (instructions, expected) in [(&refused[..], Some(Refusal::Record)), (&allowed[..], None)] {
        for instruction in instructions {
            for machine in holding(*instruction) {
                let answer = pipeline_refusal(machine, 8, 1, (1, 1));
                assert_eq!(answer, expected, "{instruction:?}");
            }
        }
    }
}

#[test]
fn counts_above_the_cycles_are_refused() {
    let kinds = |load_use, mispredict, returns, patch| Kinds {
        load_use,
        mispredict,
        returns,
        patch,
    };
    let mut machine = pipeline();
    machine.cycles = 7;
    let above = [
        kinds(8, 0, 0, 0),
        kinds(0, 8, 0, 0),
        kinds(0, 0, 8, 0),
        kinds(0, 0, 0, 8),
    ];
    for spoilt in above {
        machine.kinds = spoilt;
        assert_eq!(
            pipeline_refusal(machine, 1, 1, (1, 1)),
            Some(Refusal::Record)
        );
    }
    machine.kinds = kinds(7, 7, 7, 7);
    machine.retired = 7;
    assert_eq!(pipeline_refusal(machine, 1, 1, (1, 1)), None);
    machine.retired = 8;
    assert_eq!(
        pipeline_refusal(machine, 1, 1, (1, 1)),
        Some(Refusal::Record)
    );
}

/// Every rule number, without late store data and with it.
fn any_settings() -> impl Iterator<Item = Settings> {
    let both = |rule| {
        [false, true].map(|late| Settings {
            rule,
            late,
            window: None,
        })
    };
    (0..=u8::MAX).flat_map(both)
}

/// #105: a rule number over 2 is refusal 5, after all lower numbers, on stopped
/// machines too and beside other faults of the record.
#[test]
fn rules_over_two_are_refused() {
    for settings in any_settings() {
        let rule = settings.rule;
        let expected = (rule > 2).then_some(Refusal::Record);
        let given = Pipeline {
            settings,
            ..pipeline()
        };
        let stopped = Pipeline {
            status: Status::Hlt,
            ..given
        };
        for machine in [given, stopped] {
            assert_eq!(pipeline_refusal(machine, 1, 1, (1, 1)), expected, "{rule}");
        }
        let mut by_letter = letter::Pipeline {
            settings,
            ..letter_pipeline()
        };
        assert_eq!(by_letter.clock(&mut [0x10]).err(), expected);
        let spoilt = Pipeline {
            retired: 1,
            ..given
        };
        let refused = [
            (0, 0, (0, 0), Refusal::Memory),
            (1, 0, (0, 0), Refusal::Budget),
            (1, 1, (1, 0), Refusal::Buffer),
            (1, 1, (1, 1), Refusal::Record),
        ];
        for (size, budget, logs, lowest) in refused {
            let answer = pipeline_refusal(spoilt, size, budget, logs);
            assert_eq!(answer, Some(lowest), "{rule}");
        }
    }
}

/// #105: a fresh start with a rule number over 2 is refusal 5, after 1 and
/// before 6; with one of the three, it keeps it. By the letter too.
#[test]
fn fresh_starts_are_refused_for_the_rule() {
    let (registers, codes) = (Registers::default(), codes(4));
    for settings in any_settings() {
        let rule = settings.rule;
        let of_rule = (rule > 2).then_some(Refusal::Record);
        let cases = [
            (0, 0, Some(Refusal::Memory)),
            (65_537, u64::MAX, Some(Refusal::Memory)),
            (1, 0, of_rule),
            (65_536, 65_535, of_rule),
            (1, 1, of_rule.or(Some(Refusal::Start))),
            (65_536, u64::MAX, of_rule.or(Some(Refusal::Start))),
        ];
        for (size, start, expected) in cases {
            let fast = Pipeline::fresh(size, registers, codes, start, settings);
            let by_letter = letter::Pipeline::fresh(size, registers, codes, start, settings);
            let answers = [
                fast.map(|machine| machine.settings),
                by_letter.map(|machine| machine.settings),
            ];
            let kept = expected.map_or(Ok(settings), Err);
            assert_eq!(answers, [kept; 2], "rule {rule}, {start} in {size} bytes");
        }
    }
}

/// Windows for nine bytes: first, end, and whether they are taken.
const WINDOWS: [(u64, u64, bool); 11] = [
    (0, 0, true),
    (0, 9, true),
    (9, 9, true),
    (4, 6, true),
    (0, 10, false),
    (10, 10, false),
    (5, 4, false),
    (1, 0, false),
    (0, u64::MAX, false),
    (u64::MAX, 0, false),
    (u64::MAX, u64::MAX, false),
];

/// Settings with a window, and refusal 5 where it is not taken.
fn windowed((first, end, fits): (u64, u64, bool)) -> (Settings, Option<Refusal>) {
    let settings = Settings {
        window: Some(Window { first, end }),
        ..Settings::default()
    };
    (settings, (!fits).then_some(Refusal::Record))
}

/// #113: a window that does not lie in memory is refusal 5, of both engines, at
/// starts after 1 and before 6.
#[test]
fn fresh_starts_are_refused_for_the_window() {
    let (registers, codes) = (Registers::default(), codes(4));
    for (settings, of_window) in WINDOWS.map(windowed) {
        let window = settings.window;
        let starts = [
            (0, 0, Some(Refusal::Memory)),
            (9, 0, of_window),
            (9, 9, of_window.or(Some(Refusal::Start))),
        ];
        for (size, start, expected) in starts {
            let answers = [
                Plain::fresh(size, registers, codes, start, window).err(),
                letter::Machine::fresh(size, registers, codes, start, window).err(),
                Pipeline::fresh(size, registers, codes, start, settings).err(),
                letter::Pipeline::fresh(size, registers, codes, start, settings).err(),
            ];
            assert_eq!(answers, [expected; 4], "{window:?}, {start} in {size}");
        }
    }
}

/// #113: and at runs, after all lower numbers.
#[test]
fn runs_are_refused_for_the_window() {
    for (settings, of_window) in WINDOWS.map(windowed) {
        let mut machine =
            Plain::fresh(9, Registers::default(), codes(4), 0, None).expect("a start");
        machine.window = settings.window;
        assert_eq!(machine.step(&mut [0x10; 9]).err(), of_window);
        assert_eq!(machine.step(&mut []).err(), Some(Refusal::Memory));
        let given = Pipeline {
            settings,
            ..pipeline()
        };
        assert_eq!(pipeline_refusal(given, 9, 1, (1, 1)), of_window);
        let short = pipeline_refusal(given, 9, 1, (1, 0));
        assert_eq!(short, Some(Refusal::Buffer), "lowest number wins");
    }
}

/// #109: a fresh start is refused for the size of memory, and last for an
/// address that is not below it. By the letter too.
#[test]
fn fresh_starts_are_refused_by_number() {
    let limit = 65_536;
    let cases = [
        (0, 0, Some(Refusal::Memory)),
        (0, u64::MAX, Some(Refusal::Memory)),
        (limit + 1, 0, Some(Refusal::Memory)),
        (u64::MAX, u64::MAX, Some(Refusal::Memory)),
        (1, 0, None),
        (1, 1, Some(Refusal::Start)),
        (4_097, 4_096, None),
        (limit, limit - 1, None),
        (limit, limit, Some(Refusal::Start)),
        (limit, u64::MAX, Some(Refusal::Start)),
    ];
    let (registers, codes) = (Registers::default(), codes(4));
    for (size, start, expected) in cases {
        let answers = [
            Plain::fresh(size, registers, codes, start, None).err(),
            Pipeline::fresh(size, registers, codes, start, Settings::default()).err(),
            letter::Machine::fresh(size, registers, codes, start, None).err(),
            letter::Pipeline::fresh(size, registers, codes, start, Settings::default()).err(),
        ];
        assert_eq!(answers, [expected; 4], "{start} in {size} bytes");
    }
}

/// A run that goes on from a record does not ask where it started: in less
/// memory than that, it stops with ADR.
#[test]
fn a_run_that_goes_on_is_not_refused_for_its_start() {
    let (registers, codes) = (Registers::default(), codes(4));
    let mut machine = Plain::fresh(9, registers, codes, 8, None).expect("a start");
    assert_eq!(machine.step(&mut [0x10; 8]), Ok(()));
    assert_eq!((machine.status, machine.last), (Status::Adr, 8));
    let mut machine =
        Pipeline::fresh(9, registers, codes, 8, Settings::default()).expect("a start");
    assert_eq!(machine.run(&mut [0x10; 8], 9, None), Ok(()));
    assert_eq!((machine.status, machine.last), (Status::Adr, 8));
}

/// All combinations of the six refusals at the host edge.
#[test]
fn the_host_edge_refuses_by_the_lowest_number() {
    for spoilt in 0..64_u64 {
        let way = |number: u64| spoilt >> (number - 1) & 1 == 1;
        let sizes = if way(1) { [0, 65_537] } else { [1, 65_536] };
        let block = if way(2) { 119 } else { 120 };
        let budgets = if way(3) {
            [0, CYCLE_LIMIT + 1]
        } else {
            [1, CYCLE_LIMIT]
        };
        let words = if way(4) { 41 } else { 40 };
        let codes = if way(5) { 8 } else { 7 };
        for (size, budget) in [(sizes[0], budgets[1]), (sizes[1], budgets[0])] {
            let (mut memory, mut registers) = (vec![0; size], vec![3; block]);
            let mut result = vec![5; words];
            let start = if way(6) { size as u64 } else { 0 };
            let answer = replay(
                &mut memory,
                &mut registers,
                &mut result,
                start,
                codes,
                budget,
            );
            let lowest = (1..=6).find(|number| way(*number)).unwrap_or(0);
            assert_eq!(answer, lowest);
            if lowest > 0 {
                assert_eq!((memory, registers), (vec![0; size], vec![3; block]));
                assert_eq!(result, vec![5; words]);
            }
        }
    }
}

#[test]
fn the_host_edge_leaves_the_final_state() {
    let mut memory = listing_001();
    let (mut registers, mut result) = (vec![0; 120], vec![9; 40]);
    let answer = replay(&mut memory, &mut registers, &mut result, 0, 4, 262_145);
    assert_eq!(answer, 0);
    let words: Vec<u64> = (0..5).map(|k| common::word(&result, 8 * k)).collect();
    assert_eq!(words, [2, 0x40, 0, 11, 20]);
    assert_eq!(common::word(&registers, 0), 9);
    assert_eq!(common::word(&registers, 32), 128);
    assert_eq!(common::word(&memory, 120), 64);
}
