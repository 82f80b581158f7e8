//! The second program's fast engines against the letter: answers, whole
//! records, memory and logs, on every record that the fast ones can hold.

mod common;

use common::tally::{Classes, Tally};
use common::{codes, pipeline, seams, settings, windows};
use desk::generate::{Call, Calls, Generator, Origin, Way};
use desk::second::fault::{Reason, Stop};
use desk::second::fetch::{fetch, Parts};
use desk::second::letter;
use desk::second::machine::{Refusal, Registers, Status};
use desk::second::memory::{Extent, Memory};
use desk::second::pipeline::{Logs, Pipeline, Settings};
use desk::second::plain::Plain;
use desk::second::replay::read_registers;
use desk::second::stages::{Accessing, Decoding, Executing, Instruction, Writing};
use desk::second::table::{row_of, CALL, IADDQ, IRMOVQ, JXX, POPQ, PUSHQ, RMMOVQ};

/// How many calls of each engine are compared; unoptimised code gets fewer.
const CALLS: u64 = if cfg!(debug_assertions) {
    20_000
} else {
    200_000
};

const RECORDS: [&str; 3] = ["fresh", "reached", "hand-made"];
const CLASSES: &Classes = &[
    ("plain record", &RECORDS),
    ("plain answer", &["0", "1", "3", "4", "5"]),
    ("pipeline record", &RECORDS),
    ("pipeline answer", &["0", "1", "3", "4", "5"]),
    ("start answer", &["0", "1", "5", "6"]),
    (
        "start with rule",
        &["0", "1", "2", "3", "4", "255", "another"],
    ),
    ("start with late store data", &["no", "yes"]),
];

#[test]
fn the_fast_engines_are_the_letters_equal() {
    let mut calls = Calls::splitting(0x1e77e4);
    let mut tally = Tally::default();
    for number in 0..CALLS {
        let (origin, call) = calls.call(Way::Logged);
        let answer = compare_plain(call, number, &mut tally);
        count(&mut tally, ["plain record", "plain answer"], origin, answer);
        let (origin, mut call) = calls.call(Way::Logged);
        fit(&mut call.record);
        settings::count(&mut tally, &call);
        let answer = compare_pipelined(call, number, &mut tally);
        count(
            &mut tally,
            ["pipeline record", "pipeline answer"],
            origin,
            answer,
        );
    }
    for _ in 0..CALLS {
        let (size, start) = calls.start();
        let given = calls.settings(size);
        let answer = compare_starts(size, start, given);
        tally.count("start answer", number_name(answer));
        tally.count("start with rule", settings::rule_name(given.rule));
        let late = if given.late { "yes" } else { "no" };
        tally.count("start with late store data", late);
    }
    println!("compared {CALLS} calls of each engine, and as many starts");
    let classes = [
        CLASSES,
        settings::CLASSES,
        seams::CALL_CLASSES,
        windows::CALL_CLASSES,
    ]
    .concat();
    println!("{}", tally.table(&classes));
    tally.check(&classes, 1);
}

fn count(
    tally: &mut Tally,
    [record, answers]: [&'static str; 2],
    origin: Origin,
    answer: Result<(), Refusal>,
) {
    tally.count(record, RECORDS[origin as usize]);
    tally.count(answers, number_name(answer));
}

fn number_name(answer: Result<(), Refusal>) -> &'static str {
    const NUMBERS: [&str; 7] = ["0", "1", "2", "3", "4", "5", "6"];
    NUMBERS[answer.map_or_else(Refusal::number, |()| 0) as usize]
}

/// A fresh start of each engine, fast and by the letter; gives the answer of
/// the pipelined one, which has the settings.
fn compare_starts(size: u64, start: u64, settings: Settings) -> Result<(), Refusal> {
    let (registers, codes) = (Registers::default(), codes(4));
    let window = settings.window;
    let fast = Plain::fresh(size, registers, codes, start, window);
    let expected = letter::Machine::fresh(size, registers, codes, start, window);
    assert_eq!(fast, expected.map(|record| plain(&record)));
    let fast = Pipeline::fresh(size, registers, codes, start, settings);
    let expected = letter::Pipeline::fresh(size, registers, codes, start, settings);
    assert_eq!(fast, expected.map(|record| packed(&record)));
    fast.map(|_| ())
}

fn compare_plain(
    mut call: Call<letter::Machine>,
    number: u64,
    tally: &mut Tally,
) -> Result<(), Refusal> {
    let (mut memory, mut log) = (call.memory.clone(), call.logs[0].clone());
    let mut fast = plain(&call.record);
    let lent = Memory::split(&mut memory, call.seam);
    let answer = fast.run(lent, call.budget, Some(&mut log));
    let (given, extent) = (call.record, call.extent());
    let lent = Memory::split(&mut call.memory, call.seam);
    let expected = call.record.run(lent, call.budget, &mut call.logs[0]);
    seams::count_plain(tally, &given, &call.record, extent);
    assert_eq!(answer, expected, "call {number}: {given:?}");
    assert_eq!(fast, plain(&call.record), "call {number}: {given:?}");
    assert!(
        memory == call.memory && log == call.logs[0],
        "call {number}"
    );
    answer
}

fn compare_pipelined(
    mut call: Call<letter::Pipeline>,
    number: u64,
    tally: &mut Tally,
) -> Result<(), Refusal> {
    let (mut memory, mut lent) = (call.memory.clone(), call.logs.clone());
    let mut fast = packed(&call.record);
    let parts = Memory::split(&mut memory, call.seam);
    let answer = fast.run(parts, call.budget, Some(logs(&mut lent)));
    let (given, extent) = (call.record, call.extent());
    let parts = Memory::split(&mut call.memory, call.seam);
    let expected = call.record.run(parts, call.budget, logs(&mut call.logs));
    seams::count_pipelined(tally, &given, &call.record, extent);
    if answer.is_ok() {
        windows::count_call(tally, &given, extent);
    }
    assert_eq!(answer, expected, "call {number}: {given:?}");
    assert_eq!(fast, packed(&call.record), "call {number}: {given:?}");
    assert!(memory == call.memory && lent == call.logs, "call {number}");
    answer
}

fn logs(lent: &mut [Vec<u64>]) -> Logs<'_> {
    let [addresses, cycles] = lent else {
        panic!("two logs are lent");
    };
    Logs { addresses, cycles }
}

/// The machine record of the fast engine.
fn plain(record: &letter::Machine) -> Plain {
    Plain {
        registers: record.registers,
        codes: record.codes,
        address: record.address,
        status: record.status,
        last: record.last,
        count: record.count,
        fault: record.fault,
        window: record.window,
    }
}

/// Changes a record so that the fast engine can hold it: an instruction's next
/// address is what its code gives, a register number that plays no part is not
/// over 15, the status in W is that of the fetch, or ADR, and only a store has
/// written into the window.
fn fit(record: &mut letter::Pipeline) {
    let held = [
        record.d.as_mut(),
        record.e.as_mut().map(|e| &mut e.instruction),
        record.m.as_mut().map(|m| &mut m.instruction),
        record.w.as_mut().map(|w| &mut w.instruction),
        record.kept.as_mut().map(|kept| &mut kept.instruction),
    ];
    for instruction in held.into_iter().flatten() {
        let length = u64::from(row_of(instruction.code).length);
        instruction.next = instruction.address.wrapping_add(length);
        instruction.ra &= 15;
        instruction.rb &= 15;
    }
    let stores = |held: &letter::Instruction| matches!(held.code, RMMOVQ | PUSHQ | CALL);
    if let Some(w) = &mut record.w {
        if w.status != w.instruction.status {
            w.status = Status::Adr;
        }
        w.patched &= stores(&w.instruction);
    }
    if let Some(kept) = &mut record.kept {
        kept.patched &= stores(&kept.instruction);
    }
}

/// The record of the fast engine.
fn packed(record: &letter::Pipeline) -> Pipeline {
    let undecided = |held: &letter::Instruction| undecided(held, record.settings.rule);
    Pipeline {
        predicted: record.predicted,
        d: record.d.map(|d| Decoding::new(undecided(&d), d.constant)),
        e: record.e.map(|e| Executing {
            instruction: undecided(&e.instruction),
            constant: e.instruction.constant,
            a: e.a,
            b: e.b,
        }),
        m: record.m.map(|m| Accessing {
            instruction: undecided(&m.instruction).decided(m.holds),
            result: result(&m.instruction, m.result),
            a: handed_on(&m),
        }),
        w: record.w.map(|w| Writing {
            instruction: written(&w, undecided(&w.instruction)),
            result: result(&w.instruction, w.result),
            loaded: w.word,
        }),
        registers: record.registers,
        codes: record.codes,
        status: record.status,
        last: record.last,
        retired: record.retired,
        cycles: record.cycles,
        kinds: record.kinds,
        kept: record.kept.map(|kept| {
            marked(
                undecided(&kept.instruction).decided(kept.holds),
                kept.patched,
            )
        }),
        settings: record.settings,
        fault: record.fault,
    }
}

fn undecided(held: &letter::Instruction, rule: u8) -> Instruction {
    let code = (held.code, held.function);
    Instruction::new(held.address, code, (held.ra, held.rb), held.status)
        .failed(held.reason)
        .guessed(rule, held.constant)
}

/// A call stores no source, and the fast engine has its C there.
fn handed_on(m: &letter::Executed) -> u64 {
    match m.instruction.code {
        CALL => m.instruction.constant,
        _ => m.a,
    }
}

/// The instruction, marked where it has written into the window.
fn marked(instruction: Instruction, patched: bool) -> Instruction {
    match patched {
        true => instruction.patched(),
        false => instruction,
    }
}

/// A jump has no result, and the fast engine has its C there.
fn result(held: &letter::Instruction, result: u64) -> u64 {
    match held.code {
        JXX => held.constant,
        _ => result,
    }
}

fn written(w: &letter::Accessed, undecided: Instruction) -> Instruction {
    let decided = marked(undecided.decided(w.holds), w.patched);
    match w.status == w.instruction.status {
        true => decided,
        false => decided.outside(),
    }
}

/// Whole programs from a fresh start, the same by every setting.
#[test]
fn programs_are_the_letters_equal_by_every_setting() {
    let mut generator = Generator::new(0x5e77);
    for number in 0..CALLS / 50 {
        let kind = generator.running_kind();
        let case = generator.case_of(kind);
        let budget = case.budget.min(400);
        let seam = [0, generator.seam(&case)][number as usize % 2];
        let window = Some(generator.window(&case)).filter(|_| number % 4 > 1);
        for settings in settings::ALL {
            let settings = Settings { window, ..settings };
            let record = letter::Pipeline::fresh(
                case.image.len() as u64,
                read_registers(&case.registers),
                codes(case.codes),
                case.start,
                settings,
            );
            let call = Call {
                record: record.expect("a start"),
                memory: case.image.clone(),
                seam,
                budget,
                logs: vec![vec![7; budget as usize]; 2],
            };
            let mut tally = Tally::default();
            assert_eq!(compare_pipelined(call, number, &mut tally), Ok(()));
        }
    }
}

/// How often each filler was fetched with AOK, the fast way and by the letter.
#[test]
fn fetches_are_the_letters_equal() {
    let mut calls = Calls::splitting(0xfe7c);
    let (mut fillers, mut reasons, mut at_seam) = ([0; 16], [0; 6], 0);
    for number in 0..CALLS {
        let (mut memory, seam, address) = calls.fetch();
        let extent = Memory::split(&mut memory, seam).extent();
        let lent = Memory::split(&mut memory, seam);
        let (Ok(()), expected, at_fault) = letter::fetch_open(lent, address) else {
            continue;
        };
        let fast = fetch(&Memory::split(&mut memory, seam), None, address);
        assert_eq!(fast, by_the_letter(&expected), "call {number}");
        let derived = expected
            .reason
            .address(address, extent.code_end(address, None));
        assert_eq!(derived, at_fault, "call {number}");
        reasons[expected.reason.number() as usize] += 1;
        at_seam += u64::from(crosses(extent, &expected, at_fault));
        if let Ok(Parts { code, .. }) = fast {
            let halves = memory.get(address as usize + 1);
            match (code, halves) {
                (IRMOVQ | IADDQ, Some(halves)) => fillers[usize::from(halves >> 4)] += 1,
                (PUSHQ | POPQ, Some(halves)) => fillers[usize::from(halves & 15)] += 1,
                _ => {}
            }
        }
    }
    println!("compared {CALLS} fetches; fillers from 0 to 15: {fillers:?}");
    println!("reasons from 0 to 5: {reasons:?}; across the seam: {at_seam}");
    assert!(at_seam > 20);
    assert!(fillers.iter().chain(&reasons).all(|count| *count > 0));
}

/// Whether an instruction crosses the seam, and so names it.
fn crosses(memory: Extent, fetched: &letter::Instruction, at_fault: u64) -> bool {
    let later = fetched.reason == Reason::LaterMissing;
    later && at_fault == memory.seam && memory.seam < memory.size
}

/// What the fast fetch answers where the letter has this.
fn by_the_letter(fetched: &letter::Instruction) -> Result<Parts, Stop> {
    match fetched.status {
        Status::Aok => Ok(Parts {
            code: fetched.code,
            function: fetched.function,
            ra: fetched.ra,
            rb: fetched.rb,
            constant: fetched.constant,
        }),
        status => Err(Stop {
            status,
            reason: fetched.reason,
        }),
    }
}

/// An irmovq with a false condition in W writes; a false cmov does not.
#[test]
fn only_a_false_cmov_loses_its_target() {
    for (code, written) in [(3, 9), (2, 0)] {
        let mut machine = pipeline(&[0x10], Registers::default(), codes(0), 0);
        let instruction = Instruction::new(5, (code, 1), (0, 1), Status::Aok).decided(false);
        machine.w = Some(Writing {
            instruction,
            result: 9,
            loaded: 0,
        });
        machine.cycles = 5;
        machine.clock(&mut [0x10]).expect("a clock");
        assert_eq!((machine.registers.0[1], machine.last), (written, 5));
    }
}

/// A kept unconditional jump with a false condition charges nothing.
#[test]
fn a_kept_unconditional_jump_charges_nothing() {
    for (function, charged) in [(0, 0), (1, 2)] {
        let mut machine = pipeline(&[0x10], Registers::default(), codes(0), 0);
        let jump = Instruction::new(5, (7, function), (15, 15), Status::Aok);
        machine.kept = Some(jump.decided(false));
        machine.w = Some(Writing {
            instruction: Instruction::new(6, (1, 0), (15, 15), Status::Aok),
            result: 0,
            loaded: 0,
        });
        machine.cycles = 5;
        machine.clock(&mut [0x10]).expect("a clock");
        assert_eq!(machine.kinds.mispredict, charged);
    }
}
