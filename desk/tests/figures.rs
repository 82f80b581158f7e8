//! Document 01's cases and figures, and the readings that have figures.

mod common;

use common::{
    codes, pipeline, plain, registers, rsp, run_pipeline, run_plain, run_with, settings, word,
};
use desk::programs::{figure_4_8, from_hex, listing_001, listing_004, stretched_004};
use desk::second::account::Account;
use desk::second::arithmetic::operate;
use desk::second::fault::Fault;
use desk::second::listing;
use desk::second::machine::Registers;
use desk::second::memory::Memory;
use desk::second::pipeline::{Logs, Pipeline, Settings};
use desk::second::plain::Plain;
use desk::second::window::Window;
use desk::second::word;
use desk::second::{y86run, Reason, Status, RSP};

const LEAST: u64 = 1 << 63;

/// P1 to P6, with #101's `c0`: image, status, last address, retired, cycles.
#[test]
fn p1_to_p6_stop_as_stated() {
    let cases = [
        ("00", Status::Hlt, 0, 1, 5),
        ("10", Status::Adr, 1, 2, 6),
        ("d0", Status::Ins, 0, 1, 5),
        ("c0", Status::Adr, 0, 1, 5),
        ("c1", Status::Ins, 0, 1, 5),
        ("64", Status::Ins, 0, 1, 5),
        ("60", Status::Adr, 0, 1, 5),
        ("60f0", Status::Ins, 0, 1, 5),
    ];
    for (image, status, last, retired, cycles) in cases {
        let image = from_hex(image);
        let ran = run_pipeline(&image, Registers::default());
        let machine = ran.machine;
        assert_eq!((machine.status, machine.last), (status, last), "{image:x?}");
        assert_eq!((machine.retired, machine.cycles), (retired, cycles));
        let (plain, _) = run_plain(&image, Registers::default());
        assert_eq!(
            (plain.status, plain.last, plain.count),
            (status, last, retired)
        );
        assert_eq!(plain.address, last, "the program address stays");
    }
}

/// #107: image, reason and byte at fault, by both engines.
#[test]
fn a_failed_fetch_says_why() {
    let cases = [
        ("10", Reason::FirstMissing, 1),
        ("70ffffffffffffffff", Reason::FirstMissing, u64::MAX),
        ("d0", Reason::Code, 0),
        ("10ff", Reason::Code, 1),
        ("64", Reason::Function, 0),
        ("1001", Reason::Function, 1),
        ("c1", Reason::Function, 0),
        ("60", Reason::LaterMissing, 1),
        ("1030f0", Reason::LaterMissing, 3),
        // The register is looked at last, and the function before what is missing.
        ("30ff", Reason::LaterMissing, 2),
        ("3f", Reason::Function, 0),
        ("1060f0", Reason::Register, 2),
        ("602f", Reason::Register, 1),
        ("a0ff", Reason::Register, 1),
        // Neither a halt nor an access is at fault, nor what stands on a wrong way.
        ("00", Reason::None, 0),
        ("5000ff00000000000000", Reason::None, 0),
        ("9010", Reason::None, 0),
        ("740a0000000000000000ff", Reason::None, 0),
        ("740900000000000000d0", Reason::Code, 9),
    ];
    for (image, reason, address) in cases {
        let image = from_hex(image);
        let fault = Fault { reason, address };
        let machine = run_pipeline(&image, Registers::default()).machine;
        assert_ne!(machine.status, Status::Aok);
        assert_eq!(machine.fault, fault, "{image:x?}");
        let (plain, _) = run_plain(&image, Registers::default());
        assert_eq!(plain.fault, fault, "{image:x?}");
    }
}

/// #107: nothing is said while a machine runs, though what will stop it stands
/// in its stages, and what was said stays when it is run on.
#[test]
fn a_fault_is_told_at_the_stop() {
    let mut memory = from_hex("d0");
    let mut machine = pipeline(&memory, Registers::default(), codes(4), 0);
    for _ in 0..4 {
        machine.clock(&mut memory).expect("a clock");
        assert_eq!(machine.fault, Fault::default());
    }
    machine.clock(&mut memory).expect("a clock");
    let told = Fault {
        reason: Reason::Code,
        address: 0,
    };
    assert_eq!((machine.status, machine.fault), (Status::Ins, told));
    machine.clock(&mut memory).expect("a clock");
    assert_eq!((machine.cycles, machine.fault), (5, told));
}

/// #110: one row a line: the program bytes, the writable bytes, and the stop by
/// both engines with the reason and the byte at fault. rdx is the address that
/// the row's access uses.
#[test]
fn two_memories_part_at_the_seam() {
    let nops = "10101010101010101010";
    let store = "40020000000000000000";
    let load = "50020000000000000000";
    let cases = [
        // A store at the seam is done, just before it and in the program it fails.
        (format!("{store}00"), "00".repeat(8), 11, Status::Hlt, 10),
        (format!("{store}00"), "00".repeat(8), 10, Status::Adr, 0),
        (format!("{store}00"), "00".repeat(8), 0, Status::Adr, 0),
        (format!("{store}00"), "00".repeat(7), 11, Status::Adr, 0),
        // A load from either part is done, across the seam it fails.
        (format!("{load}00"), "00".repeat(8), 11, Status::Hlt, 10),
        (format!("{load}00"), "00".repeat(8), 3, Status::Hlt, 10),
        (format!("{load}00"), "00".repeat(8), 4, Status::Adr, 0),
        // The way goes on over the seam, from instruction to instruction.
        (nops.into(), "1000".into(), 0, Status::Hlt, 11),
        (String::new(), "1000".into(), 0, Status::Hlt, 1),
        ("1000".into(), String::new(), 0, Status::Hlt, 1),
    ];
    for (program, writable, rdx, status, last) in cases {
        let (machine, plain) = run_split(&from_hex(&program), &from_hex(&writable), rdx);
        assert_eq!((machine.status, machine.last), (status, last), "{program}");
        assert_eq!((plain.status, plain.last), (status, last), "{program}");
        assert_eq!(machine.fault, Fault::default());
        assert_eq!(plain.fault, machine.fault);
    }
    let crossing = [
        ("1030f0", "000000000000000000", Reason::LaterMissing, 3),
        ("1030", "", Reason::LaterMissing, 2),
        ("10", "60", Reason::LaterMissing, 2),
        ("60", "00", Reason::LaterMissing, 1),
        ("64", "00", Reason::Function, 0),
        ("10", "10", Reason::FirstMissing, 2),
    ];
    for (program, writable, reason, address) in crossing {
        let (machine, plain) = run_split(&from_hex(program), &from_hex(writable), 0);
        let fault = Fault { reason, address };
        assert_eq!((machine.fault, plain.fault), (fault, fault), "{program}");
    }
}

/// Both engines over two memories from address 0, with a value in rdx.
fn run_split(program: &[u8], writable: &[u8], rdx: u64) -> (Pipeline, Plain) {
    let (given, size) = (registers(&[(2, rdx)]), program.len() + writable.len());
    let mut bytes = [program, writable].concat();
    let mut machine = pipeline(&bytes, given, codes(4), 0);
    let mut plain = plain(&bytes, given, codes(4), 0);
    let mut other = bytes.clone();
    let lent = Memory::split(&mut bytes, program.len());
    machine.run(lent, 400, None).expect("a run");
    let lent = Memory::split(&mut other, program.len());
    plain.run(lent, 400, None).expect("a run");
    assert_eq!(bytes, other);
    assert_eq!((&bytes[..program.len()], bytes.len()), (program, size));
    (machine, plain)
}

/// #113: settings with a window, and document 01's otherwise.
fn windowed(first: u64, end: u64) -> Settings {
    Settings {
        window: Some(Window { first, end }),
        ..Settings::default()
    }
}

/// A plain run from address 0 through a window.
fn run_plain_through(image: &[u8], given: Registers, settings: Settings) -> (Plain, Vec<u8>) {
    let mut memory = image.to_vec();
    let mut machine = plain(&memory, given, codes(4), 0);
    machine.window = settings.window;
    machine.run(&mut memory, 4_000, None).expect("a run");
    (machine, memory)
}

/// #113: the example that rewrites its own constant. With a window it is the
/// plain engine's sum; without one, one turn of the three sees the constant as
/// it was.
#[test]
fn the_example_patches_itself() {
    let text = include_str!("../../examples/patching.lst");
    let image = listing::image(text.as_bytes(), 256).expect("a listing");
    let (plain, memory) = run_plain(&image, Registers::default());
    assert_eq!((plain.registers.0[0], plain.status), (96, Status::Hlt));
    let ran = run_with(&image, Registers::default(), windowed(0, 0x3e));
    assert_eq!(
        (ran.machine.registers, &ran.memory),
        (plain.registers, &memory)
    );
    let kinds = ran.machine.kinds;
    assert_eq!((kinds.patch, kinds.mispredict), (9, 2));
    assert_eq!((ran.machine.retired, ran.machine.cycles), (20, 20 + 4 + 11));
    let without = run_pipeline(&image, Registers::default());
    assert_eq!(without.machine.registers.0[0], 16 + 16 + 32);
    assert_eq!(without.machine.kinds.patch, 0);
}

/// #113: a window's bytes are all that an instruction may have: image, window,
/// reason and byte at fault, by both engines.
#[test]
fn a_byte_outside_the_window_is_missing() {
    let cases = [
        ("101000", (0, 3), Reason::None, 0),
        ("101000", (0, 2), Reason::FirstMissing, 2),
        ("101000", (1, 3), Reason::FirstMissing, 0),
        ("101000", (0, 0), Reason::FirstMissing, 0),
        ("106000", (0, 2), Reason::LaterMissing, 2),
        ("106000", (0, 3), Reason::FirstMissing, 3),
        // Function, then what is missing, then the register, as ever.
        ("1064ff", (0, 2), Reason::Function, 1),
        ("1060ff", (0, 2), Reason::LaterMissing, 2),
        ("1060ff", (0, 3), Reason::Register, 2),
        // A load and a store are not held to the window.
        ("50020000000000000000a00f00", (0, 13), Reason::None, 0),
    ];
    for (image, (first, end), reason, address) in cases {
        let (image, settings) = (from_hex(image), windowed(first, end));
        let fault = Fault { reason, address };
        let ran = run_with(&image, registers(&[(2, 1)]), settings);
        assert_eq!(ran.machine.fault, fault, "{image:x?}, {settings:?}");
        let (plain, memory) = run_plain_through(&image, registers(&[(2, 1)]), settings);
        assert_eq!((plain.fault, memory), (fault, ran.memory));
        assert_eq!(plain.status, ran.machine.status);
    }
}

/// #113: the follower of a store is charged 3 exactly when the word has a byte
/// in the window: where the store goes, the window, and the charge.
#[test]
fn a_store_patches_by_any_byte_of_the_window() {
    // rmmovq %rax, (%rdx); nop; halt, in 64 bytes
    let mut image = from_hex("400200000000000000001000");
    image.resize(64, 0);
    let cases = [
        (12, (0, 12), 0),
        (11, (0, 12), 3),
        (12, (0, 13), 3),
        (12, (0, 64), 3),
        (40, (0, 41), 3),
        (40, (0, 40), 0),
        (40, (0, 48), 3),
    ];
    for (address, (first, end), charged) in cases {
        let given = registers(&[(0, 0x10), (2, address)]);
        let settings = windowed(first, end);
        let ran = run_with(&image, given, settings);
        let (plain, memory) = run_plain_through(&image, given, settings);
        assert_eq!(ran.machine.kinds.patch, charged, "{address}, {settings:?}");
        assert_eq!(ran.machine.cycles, ran.machine.retired + 4 + charged);
        assert_eq!((plain.last, memory), (ran.machine.last, ran.memory));
        assert_eq!(plain.registers, ran.machine.registers);
    }
}

/// #113: a failing store into the window cancels nothing, and what follows a
/// call is its target.
#[test]
fn a_call_that_patches_goes_on_at_its_target() {
    // irmovq $0x28, %rsp; call 0x20: the word 0x13 goes to 0x20, where a halt is.
    let mut image = from_hex("30f42800000000000000802000000000000000");
    image.resize(64, 0x10);
    image[0x20] = 0;
    let settings = windowed(0, 64);
    let ran = run_with(&image, Registers::default(), settings);
    assert_eq!(ran.machine.kinds.patch, 3);
    assert_eq!((ran.machine.status, ran.machine.last), (Status::Ins, 0x20));
    assert_eq!(ran.addresses, [0, 10, 0x20]);
    assert_eq!(ran.cycles, [5, 6, 10]);
    // pushq at an rsp of 4 fails, and the machine stops there.
    let stops = from_hex("30f40400000000000000a00f00");
    let ran = run_with(&stops, Registers::default(), windowed(0, 13));
    assert_eq!((ran.machine.status, ran.machine.last), (Status::Adr, 10));
    assert_eq!(ran.machine.kinds.patch, 0);
}

#[test]
fn p7_words_at_the_end() {
    for size in 8..40_u64 {
        let mut memory = vec![7; size as usize];
        assert!(word::load(&memory, size - 8).is_some());
        assert!(word::store(&mut memory, size - 8, 1).is_some());
        for outside in [size - 7, size, u64::MAX - 7, u64::MAX - 6, u64::MAX] {
            let before = memory.clone();
            assert!(word::load(&memory, outside).is_none());
            assert!(word::store(&mut memory, outside, 1).is_none());
            assert_eq!(memory, before);
        }
    }
}

#[test]
fn p8_and_p9_overflow_of_subtraction() {
    let (result, set) = operate(1, 1, LEAST);
    assert_eq!(
        (result, set.overflow(), set.sign()),
        (LEAST - 1, true, false)
    );
    assert!(set.condition(2), "P8: l is true");
    let (result, set) = operate(1, LEAST, 0);
    assert_eq!((result, set.overflow(), set.sign()), (LEAST, true, true));
    assert!(!set.condition(2), "P9: l is false");
}

/// Overflow against the true signed result, at the ends and around 0.
#[test]
fn overflow_is_the_true_results() {
    let ends = [0, 1, 2, u64::MAX, u64::MAX - 1, LEAST, LEAST + 1, LEAST - 1];
    for a in ends {
        for b in ends {
            let (wide_a, wide_b) = (i128::from(a as i64), i128::from(b as i64));
            let truths = [wide_b + wide_a, wide_b - wide_a];
            for (function, truth) in truths.into_iter().enumerate() {
                let (result, set) = operate(function as u8, a, b);
                let outside = truth < i128::from(i64::MIN) || truth > i128::from(i64::MAX);
                assert_eq!(set.overflow(), outside, "{function} {a:x} {b:x}");
                assert_eq!(result, truth as u64);
            }
        }
    }
}

#[test]
fn conditions_are_the_seven_decisions() {
    for number in 0..8 {
        let set = codes(number);
        let less = set.sign() != set.overflow();
        let truths = [
            true,
            less || set.zero(),
            less,
            set.zero(),
            !set.zero(),
            !less,
            !less && !set.zero(),
        ];
        for (function, truth) in truths.into_iter().enumerate() {
            assert_eq!(set.condition(function as u8), truth);
        }
        assert_eq!(set.number(), number);
    }
}

#[test]
fn p10_pushq_rsp_and_popq_rsp() {
    let mut image = from_hex("a04f 00");
    image.resize(32, 0);
    let given = registers(&[(RSP, 32)]);
    let ran = run_pipeline(&image, given);
    assert_eq!(
        (rsp(&ran.machine.registers), word(&ran.memory, 24)),
        (24, 32)
    );
    assert_eq!(run_plain(&image, given).1, ran.memory);

    let mut image = from_hex("b04f 00");
    image.resize(32, 0);
    image[16] = 77;
    let given = registers(&[(RSP, 16)]);
    let ran = run_pipeline(&image, given);
    assert_eq!(rsp(&ran.machine.registers), 77);
    assert_eq!(rsp(&run_plain(&image, given).0.registers), 77);
}

#[test]
fn p11_popq_rsp_before_ret() {
    let mut image = from_hex("b04f 90 00");
    image.resize(32, 0);
    image[8] = 16; // popq takes rsp = 16 from here,
    image[16] = 3; // and ret goes to the halt.
    let ran = run_pipeline(&image, registers(&[(RSP, 8)]));
    assert_eq!(ran.addresses, [0, 2, 3]);
    assert_eq!(ran.cycles, [5, 7, 11]);
    assert_eq!(ran.kinds(), (1, 0, 3));
    assert_eq!(rsp(&ran.machine.registers), 24);
}

#[test]
fn listing_of_001() {
    let ran = run_pipeline(&listing_001(), Registers::default());
    let machine = ran.machine;
    assert_eq!((machine.status, machine.last), (Status::Hlt, 0x40));
    assert_eq!((machine.retired, machine.cycles), (11, 20));
    let registers = machine.registers.0;
    assert_eq!((registers[0], registers[3], registers[4]), (9, 12, 128));
    assert_eq!(word(&ran.memory, 120), 64);
    assert_eq!(ran.kinds(), (0, 2, 3));
    assert_eq!(run_plain(&listing_001(), Registers::default()).0.count, 11);
}

#[test]
fn listing_of_004() {
    let ran = run_pipeline(&listing_004(), Registers::default());
    let machine = ran.machine;
    assert_eq!((machine.status, machine.last), (Status::Hlt, 0x13));
    assert_eq!((machine.retired, machine.cycles), (33, 52));
    assert_eq!(ran.kinds(), (5, 4, 6));
    // The changes that the source document shows.
    let expected = registers(&[(0, 4), (4, 0x100), (7, 0x38), (8, 1), (9, 8)]);
    assert_eq!(machine.registers, expected);
    assert_eq!(word(&ran.memory, 0xf0), 0x53);
    assert_eq!(word(&ran.memory, 0xf8), 0x13);
    assert_eq!(machine.codes.number(), 4);
    let ran = run_pipeline(&stretched_004(), Registers::default());
    assert_eq!(ran.machine.registers.0[0], 400);
}

/// The program of CS:APP's figure 4.8, with the figures its simulator prints.
#[test]
fn program_of_figure_4_8() {
    let ran = run_pipeline(&figure_4_8(), Registers::default());
    assert_eq!((ran.machine.status, ran.machine.last), (Status::Hlt, 0x13));
    assert_eq!((ran.machine.retired, ran.machine.codes.number()), (34, 4));
    let sum = 0xabcd_abcd_abcd;
    let expected = [
        (0, sum),
        (4, 0x200),
        (7, 0x38),
        (8, 8),
        (9, 1),
        (10, 0xa000_a000_a000),
    ];
    assert_eq!(ran.machine.registers, registers(&expected));
    assert_eq!(word(&ran.memory, 0x1f0), 0x55);
    assert_eq!(word(&ran.memory, 0x1f8), 0x13);
}

#[test]
fn the_program_writes_the_stated_text() {
    let text = "y86run\t1\nstat\tHLT\nlast\t0\ncodes\t4\nretired\t1\ncycles\t5\n\
        loaduse\t0\nmispredict\t0\nreturn\t0\n";
    assert_eq!(y86run(&[0]), text);
    let refused = "y86run\t1\nrefused\t1\n";
    assert_eq!(y86run(&[]), refused);
    assert_eq!(y86run(&vec![0; 4_097]), refused);
    assert_eq!(y86run(&vec![0; 4_096]), y86run(&[0]));
    let listing = "y86run\t1\nstat\tHLT\nlast\t64\ncodes\t0\nretired\t11\ncycles\t20\n\
        loaduse\t0\nmispredict\t2\nreturn\t3\nreg\trax\t9\nreg\trdx\t9\nreg\trbx\t12\n\
        reg\trsp\t128\n";
    assert_eq!(y86run(&listing_001()), listing);
    let endless = from_hex("700000000000000000");
    assert!(y86run(&endless).contains("stat\tAOK\n"));
    assert!(y86run(&endless).contains("cycles\t4000\n"));
}

/// #101: iaddq adds its constant to rB and sets the codes as addq does.
#[test]
fn iaddq_is_addq_of_a_constant() {
    let ends = [0, 1, 7, u64::MAX, LEAST, LEAST - 1, LEAST + 1];
    for constant in ends {
        for given in ends {
            let mut image = from_hex("c0f3");
            image.extend(constant.to_le_bytes());
            image.push(0);
            let given = registers(&[(3, given)]);
            let ran = run_pipeline(&image, given);
            let (plain, _) = run_plain(&image, given);
            let expected = operate(0, constant, given.get(3));
            let [machine, plain] = [
                (ran.machine.registers.get(3), ran.machine.codes),
                (plain.registers.get(3), plain.codes),
            ];
            assert_eq!([machine, plain], [expected; 2], "{constant:x} {given:?}");
            assert_eq!((ran.machine.status, ran.machine.last), (Status::Hlt, 10));
        }
    }
}

/// #101: its source is rB, so that it waits for a load of it, and only that.
#[test]
fn iaddq_is_charged_behind_a_load_of_its_register() {
    for (code, charged) in [("b03f c0f3", 1), ("b02f c0f3", 0), ("b03f c0f2", 0)] {
        let mut image = from_hex(code);
        image.extend([5, 0, 0, 0, 0, 0, 0, 0, 0x00, 0]);
        image.extend(40_u64.to_le_bytes());
        let ran = run_pipeline(&image, registers(&[(RSP, 14)]));
        assert_eq!(
            (ran.machine.status, ran.kinds()),
            (Status::Hlt, (charged, 0, 0))
        );
        assert_eq!(ran.machine.cycles, 7 + charged, "{code}");
        let sum = if charged == 1 { 45 } else { 5 };
        let target = usize::from(image[3] & 15);
        assert_eq!(ran.machine.registers.0[target], sum, "{code}");
    }
}

/// #101: nothing behind a bad status sets codes, iaddq included.
#[test]
fn iaddq_behind_a_failing_store_sets_no_codes() {
    // rmmovq %rax, (%rcx), outside; iaddq $1, %rbx
    let image = from_hex("4001ffffffffffffffff c0f30100000000000000 10");
    let ran = run_pipeline(&image, Registers::default());
    assert_eq!(
        (ran.machine.status, ran.machine.codes.number()),
        (Status::Adr, 4)
    );
    assert_eq!(ran.machine.registers, Registers::default());
}

/// #102: the half of a register byte that names nothing is not looked at.
#[test]
fn fillers_are_not_looked_at() {
    for filler in 0..16_u8 {
        // The irmovq of source document 004 has filler 8; then iaddq $1, %rdx,
        // pushq %rdx and popq %rbx.
        let mut image = from_hex("30f2cdab000000000000 c0f20100000000000000 a02f b03f 00");
        image[1] = filler << 4 | 2;
        image[11] = filler << 4 | 2;
        image[21] = 0x20 | filler;
        image[23] = 0x30 | filler;
        image.resize(48, 0);
        let given = registers(&[(RSP, 48)]);
        let ran = run_pipeline(&image, given);
        let expected = registers(&[(2, 0xabce), (3, 0xabce), (RSP, 48)]);
        assert_eq!(ran.machine.registers, expected, "filler {filler}");
        assert_eq!((ran.machine.status, ran.machine.last), (Status::Hlt, 24));
        assert_eq!(run_plain(&image, given).0.registers, expected);
        // A named register of 15 is INS, whatever the filler.
        for code in [0x30, 0xc0, 0xa0, 0xb0] {
            let named_none = if code == 0x30 || code == 0xc0 {
                filler << 4 | 15
            } else {
                0xf0 | filler
            };
            let mut image = vec![code, named_none];
            image.resize(16, 0x10);
            let ran = run_pipeline(&image, given);
            assert_eq!((ran.machine.status, ran.machine.last), (Status::Ins, 0));
        }
    }
}

/// #105: a je (ZF is 1, taken) and a jne (not taken), each over a nop, to the
/// next address, back, and where the top bit is set: charged by which rules.
#[test]
fn jumps_are_charged_by_the_rule() {
    // The function, C of the jump at 9, and the charge by rule 0, 1 and 2.
    let cases = [
        (3, 19, [0, 2, 2]),
        (4, 19, [2, 0, 0]),
        (3, 18, [0, 2, 2]),
        (4, 18, [2, 0, 0]),
        (3, 17, [0, 2, 0]),
        (4, 17, [2, 0, 2]),
        (3, 0, [0, 2, 0]),
        (4, 0, [2, 0, 2]),
        (3, 1 << 63, [0, 2, 2]),
        (4, 1 << 63, [2, 0, 0]),
        (4, u64::MAX, [2, 0, 0]),
    ];
    for (function, constant, charges) in cases {
        for settings in settings::ALL {
            let charge = charges[usize::from(settings.rule)];
            // At 0 jmp 9, where the jump is; from 18 on nop and halt.
            let mut image = from_hex("700900000000000000 00");
            image[9] = 0x70 | function;
            image.extend(constant.to_le_bytes());
            image.extend([0x10, 0x00]);
            let ran = run_with(&image, Registers::default(), settings);
            let second = (ran.addresses[2], ran.cycles[2]);
            let goes_to = if function == 3 { constant } else { 18 };
            assert_eq!(ran.addresses[..2], [0, 9]);
            assert_eq!(second, (goes_to, 7 + charge), "{constant:x} {settings:?}");
            if constant != 0 || function == 4 {
                assert_eq!(ran.kinds(), (0, charge, 0), "{constant:x} {settings:?}");
            }
        }
    }
}

/// #105, and #106, which has no part in them: the listings by every setting.
/// That of 001 has one conditional jump, on
/// and not taken; that of 004 a je on, not taken, and a jne back, taken three
/// times and not the fourth.
#[test]
fn the_listings_by_every_setting() {
    let first = run_pipeline(&listing_004(), Registers::default());
    for settings in settings::ALL {
        let charged = [2, 0, 0][usize::from(settings.rule)];
        let ran = run_with(&listing_001(), Registers::default(), settings);
        assert_eq!(
            (ran.kinds(), ran.machine.cycles),
            ((0, charged, 3), 18 + charged)
        );
        assert_eq!((ran.machine.retired, ran.machine.last), (11, 0x40));
        assert_eq!(word(&ran.memory, 120), 64);
        let charged = [4, 6, 2][usize::from(settings.rule)];
        let ran = run_with(&listing_004(), Registers::default(), settings);
        assert_eq!(
            (ran.kinds(), ran.machine.cycles),
            ((5, charged, 6), 48 + charged)
        );
        assert_eq!(ran.machine.registers, first.machine.registers);
        assert!(ran.addresses == first.addresses && ran.memory == first.memory);
    }
}

/// #105: the unconditional jump goes to C by every rule, also where C is not
/// below its next address.
#[test]
fn the_unconditional_jump_is_never_charged() {
    for settings in settings::ALL {
        for constant in [9_u64, 10, 11] {
            let mut image = vec![0x70];
            image.extend(constant.to_le_bytes());
            image.extend([0x10, 0x10, 0x00]);
            let ran = run_with(&image, Registers::default(), settings);
            assert_eq!((ran.addresses[1], ran.cycles[1]), (constant, 6));
            assert_eq!((ran.kinds(), ran.machine.status), ((0, 0, 0), Status::Hlt));
        }
    }
}

/// #106: what a store, a call or another follower is charged behind a load,
/// without late store data and with it. rsp is 64, where 80 lies, so that popq
/// of rsp has 72 as a result and 80 as the word loaded.
#[test]
fn stores_wait_for_their_address_alone() {
    let cases = [
        ("b00f 4001 6000000000000000", [1, 0]), // popq %rax; rmmovq %rax, 96(%rcx)
        ("b01f 4001 0000000000000000", [1, 1]), // popq %rcx; rmmovq %rax, (%rcx)
        ("b00f 4000 0000000000000000", [1, 1]), // popq %rax; rmmovq %rax, (%rax)
        ("b04f 4041 6000000000000000", [1, 0]), // popq %rsp; rmmovq %rsp, 96(%rcx)
        ("b04f 4004 0000000000000000", [1, 1]), // popq %rsp; rmmovq %rax, (%rsp)
        ("b00f a00f", [1, 0]),                  // popq %rax; pushq %rax
        ("b04f a00f", [1, 1]),                  // popq %rsp; pushq %rax
        ("b04f a04f", [1, 1]),                  // popq %rsp; pushq %rsp
        ("b04f 800b00000000000000", [1, 1]),    // popq %rsp; call of the next
        ("b00f 2002", [1, 1]),                  // popq %rax; rrmovq %rax, %rdx
        ("b00f 10 a00f", [0, 0]),               // popq %rax; nop; pushq %rax
        // mrmovq 64(%rcx), %rax; then a store of it, a push of it, a store at it
        ("5001 4000000000000000 4001 6000000000000000", [1, 0]),
        ("5001 4000000000000000 a00f", [1, 0]),
        ("5001 4000000000000000 4020 0000000000000000", [1, 1]),
    ];
    for (code, charges) in cases {
        let mut image = from_hex(code);
        let end = image.len() as u64;
        image.resize(128, 0);
        image[64] = 80;
        let given = registers(&[(0, 7), (2, 9), (RSP, 64)]);
        let (plain, memory) = run_plain(&image, given);
        for settings in settings::ALL {
            let ran = run_with(&image, given, settings);
            let charge = charges[usize::from(settings.late)];
            assert_eq!(ran.kinds(), (charge, 0, 0), "{code} {settings:?}");
            assert_eq!(ran.machine.cycles, ran.machine.retired + 4 + charge);
            assert_eq!((ran.machine.status, ran.machine.last), (Status::Hlt, end));
            assert_eq!(
                ran.machine.registers, plain.registers,
                "{code} {settings:?}"
            );
            assert_eq!(ran.memory, memory, "{code} {settings:?}");
        }
    }
}

/// #106: nothing is stored behind a load outside memory.
#[test]
fn a_failing_load_hands_nothing_to_a_store() {
    // popq %rax, outside; rmmovq %rax, 16(%rcx)
    let mut image = from_hex("b00f 4001 1000000000000000 00");
    image.resize(32, 3);
    for settings in settings::ALL {
        let ran = run_with(&image, registers(&[(RSP, 25)]), settings);
        assert_eq!((ran.machine.status, ran.machine.last), (Status::Adr, 0));
        assert_eq!((ran.memory, ran.machine.retired), (image.clone(), 1));
    }
}

/// The plain log takes one address for each instruction; the rest stays.
#[test]
fn the_plain_log_shows_the_way() {
    let mut memory = listing_001();
    let mut machine = plain(&memory, Registers::default(), codes(4), 0);
    let mut log = [7; 20];
    machine.run(&mut memory, 4, Some(&mut log)).expect("a run");
    assert_eq!(log[..5], [0, 0x0a, 0x14, 0x16, 7]);
    machine.run(&mut memory, 20, Some(&mut log)).expect("a run");
    assert_eq!(log[..8], [0x20, 0x2a, 0x2c, 0x2e, 0x37, 0x41, 0x40, 7]);
    assert_eq!((machine.count, machine.status), (11, Status::Hlt));
}

/// A step or clock on a stopped machine changes, counts and logs nothing.
#[test]
fn stopped_machines_stay_as_they_are() {
    let ran = run_pipeline(&listing_001(), Registers::default());
    let (mut machine, mut memory) = (ran.machine, ran.memory.clone());
    let (mut addresses, mut cycles) = ([7; 9], [8; 9]);
    machine.clock(&mut memory).expect("a clock");
    let logs = Logs {
        addresses: &mut addresses,
        cycles: &mut cycles,
    };
    machine.run(&mut memory, 9, Some(logs)).expect("a run");
    assert_eq!((machine, memory), (ran.machine, ran.memory));
    assert_eq!((addresses, cycles), ([7; 9], [8; 9]));

    let (plain, memory) = run_plain(&listing_001(), Registers::default());
    let (mut machine, mut after, mut log) = (plain, memory.clone(), [7; 9]);
    machine.step(&mut after).expect("a step");
    machine.run(&mut after, 9, Some(&mut log)).expect("a run");
    assert_eq!((machine, after, log), (plain, memory, [7; 9]));
}

/// Reading 5: kinds are counted when the follower retires, a stopping one
/// too; a bad fetch is charged 2 or 3, never 1.
#[test]
fn reading_5_stopping_followers_are_charged() {
    // jne not taken (ZF is 1), then INS at 9.
    let ran = run_pipeline(&from_hex("740000000000000000 d0"), Registers::default());
    assert_eq!((ran.kinds(), ran.machine.status), ((0, 2, 0), Status::Ins));
    assert_eq!(ran.cycles, [5, 8]);
    // ret to an address outside.
    let image = from_hex("90 00 ff00000000000000");
    let ran = run_pipeline(&image, registers(&[(RSP, 2)]));
    assert_eq!((ran.kinds(), ran.machine.last), ((0, 0, 3), 0xff));
    assert_eq!(ran.cycles, [5, 9]);
    // A load, and a bad fetch behind it.
    let mut image = from_hex("b00f d0");
    image.resize(16, 0);
    let ran = run_pipeline(&image, Registers::default());
    assert_eq!((ran.kinds(), ran.machine.status), ((0, 0, 0), Status::Ins));
    // A load, and a stopping load that uses it.
    let image = from_hex("b00f 5010 0000000000000080");
    let ran = run_pipeline(&image, Registers::default());
    assert_eq!((ran.kinds(), ran.machine.status), ((1, 0, 0), Status::Adr));
    assert_eq!(ran.cycles, [5, 7]);
}

/// Reading 7: on a spent budget memory and codes run ahead of the registers.
#[test]
fn reading_7_codes_run_ahead() {
    let mut memory = from_hex("6300");
    let mut machine = pipeline(&memory, registers(&[(0, 5)]), codes(0), 0);
    machine.run(&mut memory, 3, None).expect("a run");
    assert_eq!((machine.codes.number(), machine.retired), (4, 0));
    assert_eq!(machine.registers.0[0], 5);
    assert_eq!(machine.status, Status::Aok);
}

/// Reading 10: the premise's bytes, and that "three" is tight.
#[test]
fn reading_10_the_premise() {
    let mut image = from_hex("40010c00000000000000");
    image.resize(24, 0x10);
    let (plain, _) = run_plain(&image, Registers::default());
    let ran = run_pipeline(&image, Registers::default());
    assert_eq!((plain.last, ran.machine.last), (12, 13));
    let account = account_of(&image);
    assert_eq!(account.premise_reach(), 0);

    // One byte further on it is the fourth instruction: the premise holds.
    image[2] = 13;
    let (plain, _) = run_plain(&image, Registers::default());
    let ran = run_pipeline(&image, Registers::default());
    assert_eq!((plain.last, ran.machine.last), (13, 13));
    let account = account_of(&image);
    assert_eq!(account.premise_reach(), account.performed.len());

    // A 64 has two bytes, though fetch looks at one of them only; and the
    // byte written is the one that stood there.
    let image = from_hex("40010b00000000000000 64 00 00000000000000");
    let account = account_of(&image);
    assert_eq!(account.performed[1].own_bytes, 10..12);
    assert_eq!(account.premise_reach(), 0);
}

fn account_of(image: &[u8]) -> Account {
    let mut memory = image.to_vec();
    let mut machine = plain(&memory, Registers::default(), codes(4), 0);
    Account::of(&mut machine, &mut memory, 1_000, Settings::default())
}
