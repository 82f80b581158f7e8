//! The desk program as an inspector meets it.

use desk::programs::{from_hex, listing_001};
use std::path::PathBuf;
use std::process::{Command, Output, Stdio};

/// A file for one test, which no other test names.
fn file(name: &str, bytes: &[u8]) -> String {
    let folder = PathBuf::from(env!("CARGO_TARGET_TMPDIR")).join("command");
    std::fs::create_dir_all(&folder).expect("a folder");
    let path = folder.join(name);
    std::fs::write(&path, bytes).expect("a file");
    path.to_str().expect("a name in UTF-8").into()
}

fn desk(words: &[&str]) -> Output {
    Command::new(env!("CARGO_BIN_EXE_desk"))
        .args(words)
        .output()
        .expect("the desk program")
}

/// Exit status, standard output and standard error.
fn said(words: &[&str]) -> (i32, String, String) {
    let output = desk(words);
    let text = |bytes: Vec<u8>| String::from_utf8(bytes).expect("text");
    let status = output.status.code().expect("an exit status");
    (status, text(output.stdout), text(output.stderr))
}

/// A command that is at fault: nothing on standard output, and a message that
/// says these things.
fn fault(words: &[&str], status: i32, says: &[&str]) {
    let (code, output, message) = said(words);
    assert_eq!((code, output.as_str()), (status, ""), "{words:?}");
    assert!(message.starts_with("desk: "), "{message}");
    for part in says {
        assert!(message.contains(part), "{words:?}: {message}");
    }
}

const SHOWN: &str = "\
status   HLT (2): the image halted
last     0x40 (64): halt
codes    0 (ZF 0, SF 0, OF 0)
retired  11
cycles   20
registers that are not 0:
  rax  0x9 (9)
  rdx  0x9 (9)
  rbx  0xc (12)
  rsp  0x80 (128)
words changed in memory (address, before, after):
  0x70 (112)      0x0000000000000000  0x0000000000000080
  0x78 (120)      0x0000000000000000  0x0000000000000040
";

#[test]
fn a_replay_is_shown_in_words_and_numbers() {
    let image = file("listing.img", &listing_001());
    assert_eq!(said(&["replay", &image]), (0, SHOWN.into(), String::new()));
    let second = said(&["replay", "--second", &image]);
    assert_eq!(second, (0, SHOWN.into(), String::new()));
    assert_eq!(std::fs::read(&image).expect("the image"), listing_001());
}

#[test]
fn the_exit_status_tells_the_outcome() {
    let cases = [
        ("halt", "00", 0, "HLT (2)", "0x0 (0): halt"),
        (
            "spent",
            "700000000000000000",
            1,
            "AOK (1): the budget of 4000",
            "0x0 (0): jmp 0",
        ),
        ("address", "10", 2, "ADR (3)", "0x1 (1): outside memory"),
        (
            "instruction",
            "d0",
            3,
            "INS (4)",
            "0x0 (0): d0 starts no instruction",
        ),
        (
            "cut off",
            "1030",
            2,
            "ADR (3)",
            "0x1 (1): 30 starts no instruction",
        ),
    ];
    for (name, image, status, says, last) in cases {
        let path = file(name, &from_hex(image));
        let (code, output, message) = said(&["replay", &path]);
        assert_eq!((code, message.as_str()), (status, ""), "{name}");
        assert!(output.contains(says), "{output}");
        assert!(output.contains(&format!("last     {last}\n")), "{output}");
        let (second, opinion, _) = said(&["replay", &path, "--second"]);
        assert_eq!(second, status, "{name}, a second opinion");
        assert!(opinion.contains(&format!("last     {last}\n")), "{opinion}");
        assert!(output.contains("registers: all 0\nmemory: as it was\n"));
    }
}

/// Images whose run ends by a bad fetch or a failing access: a name, the bytes,
/// and how the reason ends.
const FAULTS: [(&str, &str, &str); 7] = [
    ("first", "10", "the byte at 0x1 is not in memory"),
    ("code", "10d0", "0xd0 at 0x1 is no instruction code"),
    ("function", "64", "0x64 at 0x0: code 6 has no function 4"),
    (
        "later",
        "1030f1",
        "goes on to the byte at 0x3, which is not in memory",
    ),
    (
        "register",
        "60f0",
        "the register byte at 0x1 names register 15",
    ),
    (
        "access",
        "10400001000000000000ff",
        "the instruction at 0x1 reads or writes a word that is not in memory",
    ),
    (
        // The store at 0 writes a nop over the code d0 behind it.
        "changed",
        "40010a00000000000000d0000000000000000000",
        "the byte at 0xa was no instruction code",
    ),
];

/// #107: which byte was at fault, in words, by every engine that tells it.
#[test]
fn a_failed_fetch_is_told_in_words() {
    let mut block = [0; 120];
    block[..8].fill(0x10);
    let registers = file("nops", &block);
    for (name, image, says) in FAULTS {
        let path = file(&format!("fault_{name}"), &from_hex(image));
        let words = ["replay", &path, "--registers", &registers];
        let second = said(&[&words[..], &["--second"]].concat());
        let line = second.1.lines().nth(1).unwrap_or("");
        assert!(
            line.starts_with("reason   ") && line.ends_with(says),
            "{line}"
        );
        if desk::engine::REPLAY_SET.is_some() {
            assert_eq!(said(&words), second);
        }
    }
    for (name, image) in [("halted", "00"), ("running", "700000000000000000")] {
        let path = file(&format!("fault_{name}"), &from_hex(image));
        let (_, output, _) = said(&["replay", &path, "--second"]);
        assert!(!output.contains("reason"), "{output}");
    }
}

/// #110: the first bytes as a program that is only read, by every engine that
/// takes it.
#[test]
fn a_program_part_is_only_read() {
    // rmmovq %rax, 11(%rbx); halt, and eight bytes behind them
    let code = "40030b00000000000000 00 1111111111111111";
    let image = file("program.img", &from_hex(code));
    let cases = [
        (&["--program", "11"][..], 0, "HLT (2)"),
        (&["--program=0"], 0, "HLT (2)"),
        (&["--program", "0xc"], 2, "among the program's bytes"),
        (&["--program", "9"], 2, "behind the program's bytes, at 0x9"),
        (&["--program", "19"], 2, "ADR (3)"),
    ];
    for (option, status, says) in cases {
        let words = [&["replay", &image][..], option].concat();
        let second = said(&[&words[..], &["--second"]].concat());
        assert_eq!((second.0, second.2.as_str()), (status, ""), "{option:?}");
        assert!(second.1.contains(says), "{}", second.1);
        match desk::engine::REPLAY_SPLIT {
            Some(_) => assert_eq!(said(&words), second),
            None => fault(&words, 64, &["y86_replay_split", "--second"]),
        }
    }
    let long = ["replay", &image, "--program", "20", "--second"];
    fault(&long, 64, &["--program 20", "has 19 bytes"]);
    let peaks = ["peaks", &image, "--program", "9"];
    fault(&peaks, 64, &["no option of peaks"]);
}

/// #113: the example that patches itself, through a window, by every engine that
/// takes one.
#[test]
fn a_window_lets_an_image_patch_itself() {
    let example = concat!(env!("CARGO_MANIFEST_DIR"), "/../examples/patching.lst");
    let given = ["replay", "--listing", example, "--size=256"];
    let cases = [
        ("0:0x3e", 0, "patches  9 of the cycles\n"),
        ("0:0x3e", 0, "rax  0x60 (96)"),
        ("0:256", 0, "rax  0x60 (96)"),
        (
            "0:0x3d",
            2,
            "0x3d is not in the code window from 0x0 to 0x3d",
        ),
        (
            "0:0x30",
            2,
            "the byte at 0x30, which is not in the code window",
        ),
        ("1:1", 2, "the byte at 0x0 is not in the code window"),
    ];
    for (window, status, says) in cases {
        let words = [&given[..], &["--window", window]].concat();
        let second = said(&[&words[..], &["--second"]].concat());
        assert_eq!((second.0, second.2.as_str()), (status, ""), "{window}");
        assert!(second.1.contains(says), "{}", second.1);
        match desk::engine::REPLAY_SET {
            Some(_) => assert_eq!(said(&words), second),
            None => fault(&words, 64, &["y86_replay_set", "--second"]),
        }
    }
    let bad = |window| [&given[..], &["--second", "--window", window]].concat();
    fault(&bad("0:257"), 10, &["refused (5)", "from 0 to 257", "256"]);
    fault(&bad("9:8"), 10, &["refused (5)", "not below the first"]);
    fault(&bad("9"), 64, &["--window '9'", "FIRST:END"]);
    fault(&bad("0:x"), 64, &["--window 'x'", "a number is wanted"]);
}

/// The options in any place, numbers in two ways, and a last word cut at N.
#[test]
fn options_are_taken() {
    // From 1: xorq %rax, %rax; rmmovq %rbx, 14(%rax); halt
    let code = "c0 6300 40300e00000000000000 00 000000000000000000";
    let image = file("options.img", &from_hex(code));
    let mut block = [0; 120];
    block[0] = 7;
    block[24..32].copy_from_slice(&0x1122_3344_5566_7788_u64.to_le_bytes());
    let registers = file("registers", &block);
    let given = ["--codes=0", "--registers", &registers, "--start", "0x1"];
    let (code, output, _) = said(&[&["replay"], &given[..], &[&image]].concat());
    assert_eq!(code, 0, "{output}");
    for says in [
        "last     0xd (13): halt\ncodes    4 (ZF 1, SF 0, OF 0)\nretired  3\ncycles   7\n",
        "not 0:\n  rbx  0x1122334455667788 (1234605616436508552)\n",
        "  0x8 (8)         0x0000000000000000  0x7788000000000000\n",
        "  0x10 (16)       0x00000000000000    0x00112233445566\n",
    ] {
        assert!(output.contains(says), "{output}");
    }
    let words = [&["replay", &image][..], &given[..], &["--budget", "2"]].concat();
    let (code, output, _) = said(&words);
    assert_eq!(code, 1);
    assert!(output.contains("codes    0"), "{output}");
    assert!(
        output.contains("last     0x1 (1): xorq %rax, %rax\n"),
        "{output}"
    );
}

#[test]
fn files_that_cannot_be_read_are_explained() {
    let image = file("fine.img", &[0]);
    let folder = env!("CARGO_MANIFEST_DIR");
    fault(
        &["replay", "no/such.img"],
        66,
        &["no/such.img", "no such file"],
    );
    fault(&["replay", folder], 66, &[folder, "directory"]);
    let words = ["replay", &image, "--registers", "no/such"];
    fault(&words, 66, &["no/such", "no such file"]);
    fault(
        &["replay", &image, "--registers", folder],
        66,
        &["directory"],
    );
}

#[test]
fn refusals_are_explained_with_their_numbers() {
    let empty = file("empty.img", &[]);
    let image = file("one.img", &[0]);
    let long = file("long.img", &vec![0; 65_537]);
    let longer = file("longer.img", &vec![0; 100_000]);
    fault(&["replay", &empty], 10, &["(1)", "is empty", "1 to 65,536"]);
    fault(&["replay", &long], 10, &["(1)", "65537", "1 to 65,536"]);
    fault(&["replay", &longer], 10, &["(1)", "100000 bytes"]);
    fault(
        &["replay", "/dev/zero"],
        10,
        &["(1)", "65537 bytes or more"],
    );
    fault(
        &["replay", &image, "--registers", &long],
        10,
        &["(2)", "120"],
    );
    fault(
        &["replay", &image, "--registers", &empty],
        10,
        &["(2)", "empty"],
    );
    fault(&["replay", &image, "--budget", "0"], 10, &["(3)", "262145"]);
    fault(&["replay", &image, "--budget", "262146"], 10, &["(3)"]);
    fault(&["replay", &image, "--codes", "8"], 10, &["(5)", "0 to 7"]);
    let start = ["replay", &image, "--start", "1"];
    fault(&start, 10, &["(6)", "start address is 1", "below 1"]);
    fault(&[&start[..], &["--second"]].concat(), 10, &["(6)"]);
    let several = ["replay", &empty, "--codes", "8", "--budget", "0"];
    fault(&several, 10, &["(1)"]);
    fault(&[&several[..], &["--second"]].concat(), 10, &["(1)"]);
}

/// #109: the largest image is replayed, from its last byte too, and so is a
/// listing in as much memory.
#[test]
fn a_large_image_is_replayed() {
    let mut image = vec![0x10; 65_536];
    image[65_535] = 0;
    let raw = file("large.img", &image);
    let listing = file("large.lst", b"0\t70ffff000000000000\n");
    for words in [
        &["replay", &raw, "--start", "65535"][..],
        &["replay", &listing, "--listing", "--size", "65536"],
    ] {
        for second in [&[][..], &["--second"]] {
            let (code, output, message) = said(&[words, second].concat());
            assert_eq!((code, message.as_str()), (0, ""), "{words:?}");
            assert!(
                output.contains("last     0xffff (65535): halt\n"),
                "{output}"
            );
        }
    }
}

#[test]
fn commands_at_fault_are_explained() {
    let image = file("any.img", &[0]);
    let bad = |word| ["replay", image.as_str(), "--start", word];
    for word in ["", "x", "0x", "-1", "+1", "12x", "0xg", "1.5", "0X1"] {
        fault(
            &bad(word),
            64,
            &["--start", word, "decimal, or hex after 0x"],
        );
    }
    fault(&bad("18446744073709551616"), 64, &["64 bits"]);
    fault(&bad("0x10000000000000000"), 64, &["64 bits"]);
    fault(&[], 64, &["replay, read, list, peaks, junk or bench"]);
    let commands = "replay, read, list, peaks, junk and bench";
    fault(&["play"], 64, &["'play'", commands]);
    fault(&["replay"], 64, &["image"]);
    fault(&["replay", &image, &image], 64, &["one image"]);
    fault(
        &["replay", &image, "--start"],
        64,
        &["--start wants a value"],
    );
    fault(&["replay", &image, "--steps", "1"], 64, &["--steps"]);
    let twice = ["replay", &image, "--codes", "1", "--codes", "1"];
    fault(&twice, 64, &["--codes is given twice"]);
    fault(&["bench", "fast"], 64, &["--instructions"]);
    fault(
        &["bench", "--once", "third", "stores", "9"],
        64,
        &["engine"],
    );
}

/// The listing of 001, as the examples have it.
const LISTING: &str = concat!(env!("CARGO_MANIFEST_DIR"), "/../examples/listing_001.lst");

#[test]
fn a_listing_is_read_and_replayed() {
    let image = file("read.img", &[]);
    let given = ["read", LISTING, "-o", &image, "--size", "256"];
    let (code, output, message) = said(&given);
    assert_eq!((code, message.as_str()), (0, ""));
    assert_eq!(output, format!("{image}: 256 bytes\n"));
    assert_eq!(std::fs::read(&image).expect("the image"), listing_001());
    let (code, _, _) = said(&["read", "-o", &image, LISTING]);
    let read = std::fs::read(&image).expect("the image");
    assert_eq!((code, read.len()), (0, 4_096));
    let given = ["replay", "--listing", LISTING, "--size=256"];
    assert_eq!(said(&given), (0, SHOWN.into(), String::new()));
    let second = said(&[&given[..], &["--second"]].concat());
    assert_eq!(second, (0, SHOWN.into(), String::new()));
}

/// The lines of a listing that is written, by the engine and the second program.
fn listed(words: &[&str]) -> String {
    let (code, output, message) = said(&[&["list"], words].concat());
    assert_eq!((code, message.as_str()), (0, ""), "{words:?}");
    let second = said(&[&["list", "--second"], words].concat());
    assert_eq!(second, (0, output.clone(), String::new()), "{words:?}");
    output
}

#[test]
fn an_image_is_listed_and_read_back() {
    let raw = file("listed.img", &listing_001());
    let whole = listed(&[&raw]);
    assert!(whole.starts_with("0\t30f20900000000000000\tirmovq $9, %rdx\na\t30f3"));
    assert!(whole.contains("\n14\t6123\tsubq %rdx, %rbx\n"));
    assert!(whole.ends_with("\nff\t00\thalt\n"));
    let text = file("listed.lst", whole.as_bytes());
    let image = file("back.img", &[]);
    let (code, _, _) = said(&["read", &text, "-o", &image, "--size", "256"]);
    let read = std::fs::read(&image).expect("the image");
    assert_eq!((code, read), (0, listing_001()));
    assert_eq!(listed(&[&text, "--listing", "--size=256"]), whole);
}

#[test]
fn a_range_is_listed() {
    let image = file("range.img", &listing_001());
    let one = listed(&[&image, "--from", "0x14", "--to", "0x16"]);
    assert_eq!(one, "14\t6123\tsubq %rdx, %rbx\n");
    let cut = listed(&["--to=21", &image, "--from=20"]);
    assert_eq!(cut, "14\t61\n");
    assert_eq!(listed(&[&image, "--from=256"]), "");
    let last = listed(&[&image, "--from=255"]);
    assert_eq!(last, "ff\t00\thalt\n");
}

#[test]
fn listings_that_cannot_be_written_are_explained() {
    let image = file("unlisted.img", &listing_001());
    let empty = file("unlisted_empty.img", &[]);
    let long = file("unlisted_long.img", &vec![0; 65_537]);
    for second in [&[][..], &["--second"]] {
        let asks = |words: &[&'static str]| [&["list", &image], words, second].concat();
        let above = asks(&["--from", "2", "--to", "1"]);
        fault(
            &above,
            10,
            &["refused (7)", "from 2 to 1", "below the start"],
        );
        fault(&asks(&["--to=257"]), 10, &["(7)", "up to 257", "256 bytes"]);
        fault(&asks(&["--from=257"]), 10, &["(7)", "from 257 to 256"]);
        for (name, says) in [(&empty, "is empty"), (&long, "65537 bytes")] {
            let words = [&["list", name, "--from=2", "--to=1"], second].concat();
            fault(&words, 10, &["refused (1)", says, "1 to 65,536"]);
        }
    }
    fault(&["list"], 64, &["list wants an image"]);
    fault(&["list", &image, "--to", "x"], 64, &["--to 'x'"]);
    fault(&["list", &image, "--start=1"], 64, &["no option of list"]);
    fault(
        &["replay", &image, "--from=1"],
        64,
        &["no option of replay"],
    );
    fault(
        &["list", &image, "--size=9"],
        64,
        &["--size is for a listing"],
    );
    fault(&["list", "no/such"], 66, &["no such file"]);
}

#[test]
fn faulty_listings_are_explained() {
    let image = file("kept.img", b"kept");
    let cases: [(&str, &[u8], &[&str]); 5] = [
        ("form", b"0\t00\n1\t0x\n", &["line 2", "not hex", "kind 1"]),
        (
            "unended",
            b"0\t00\n1\t00",
            &["line 2", "line feed", "kind 1"],
        ),
        ("count", b"0\t001\n", &["line 1", "odd", "kind 2"]),
        (
            "order",
            b"0\t0000\n1\t00\n",
            &["line 2", "not above", "kind 3"],
        ),
        ("beyond", b"fff\t0000\n", &["line 1", "beyond", "kind 4"]),
    ];
    for (name, text, says) in cases {
        let listing = file(name, text);
        let says = [&["refused (9)", name][..], says].concat();
        fault(&["read", &listing, "-o", &image], 10, &says);
        fault(&["replay", &listing, "--listing"], 10, &says);
        assert_eq!(std::fs::read(&image).expect("the image"), b"kept");
    }
    for size in ["0", "99999999999"] {
        let given = ["read", LISTING, "-o", &image, "--size", size];
        fault(&given, 10, &["refused (1)", size]);
    }
    assert_eq!(std::fs::read(&image).expect("the image"), b"kept");
    let listing = file("itself", b"0\t00\n");
    fault(
        &["read", &listing, "-o", &listing],
        74,
        &["the listing itself"],
    );
    fault(
        &["read", &listing, "-o", "no/such/folder"],
        74,
        &["no/such/folder"],
    );
    fault(&["read", "no/such", "-o", &image], 66, &["no such file"]);
    fault(&["read", "/dev/zero", "-o", &image], 66, &["at most"]);
    fault(&["read", &listing], 64, &["-o"]);
    fault(&["read", "-o", &image], 64, &["a listing"]);
    fault(&["read", &listing, &listing], 64, &["given twice"]);
    fault(&["read", &listing, "--start", "1"], 64, &["--start"]);
    fault(
        &["replay", &listing, "--size", "1"],
        64,
        &["--size is for a listing"],
    );
}

#[test]
fn help_is_at_hand() {
    for words in [&["--help"][..], &["replay", "--help"], &["bench", "-h"]] {
        let (code, output, message) = said(words);
        assert_eq!((code, message.as_str()), (0, ""));
        for says in [
            "--start",
            "--codes",
            "--budget",
            "--registers",
            "desk read LISTING",
            "desk list IMAGE [--from A] [--to B]",
            "--listing",
            "exit status",
        ] {
            assert!(output.contains(says));
        }
    }
}

#[test]
fn the_bench_replays_by_both() {
    for engine in ["product", "second"] {
        for program in ["listing", "stores"] {
            let (code, output, _) = said(&["bench", "--once", engine, program, "3000"]);
            assert_eq!((code, output.as_str()), (0, ""));
        }
    }
}

/// A reader that has gone is told of, and not by a panic.
#[test]
fn output_that_cannot_be_written_is_a_fault() {
    let image = file("full.img", &[0]);
    let full = std::fs::File::create("/dev/full").expect("/dev/full");
    let output = Command::new(env!("CARGO_BIN_EXE_desk"))
        .args(["replay", &image])
        .stdout(Stdio::from(full))
        .output()
        .expect("the desk program");
    assert_eq!(output.status.code(), Some(74));
    assert!(output
        .stderr
        .starts_with(b"desk: the output could not be written"));
}

/// An image that halts at once, a day of three words at 8 and a filed peak at
/// 32.
fn day(samples: [u64; 3], filed: u64) -> Vec<u8> {
    let words = [0, samples[0], samples[1], samples[2], filed];
    words.iter().flat_map(|word| word.to_le_bytes()).collect()
}

#[test]
fn a_filed_peak_gets_a_verdict() {
    let cases = [
        ("at", day([3, 9, 9], 9), 0, "is AT the raw peak"),
        (
            "below",
            day([3, 9, 9], 7),
            1,
            "is BELOW the raw peak 9, by 2",
        ),
        (
            "above",
            day([3, 9, 9], 10),
            2,
            "is ABOVE the raw peak 9, by 1",
        ),
        ("huge", day([3, 9, 9], 1 << 32), 3, "cannot be compared"),
        ("none", day([1 << 32; 3], 9), 4, "no sample is good"),
    ];
    for (name, image, status, says) in cases {
        let image = file(&format!("day_{name}.img"), &image);
        let words = [
            "peaks",
            &image,
            "--table",
            "8",
            "--length",
            "3",
            "--filed=0x20",
        ];
        let (code, output, message) = said(&words);
        assert_eq!((code, message.as_str()), (status, ""), "{name}");
        assert!(output.contains(says), "{output}");
        assert!(output.starts_with("status   HLT (2)"), "{output}");
        let second = said(&[&words[..], &["--second"]].concat());
        assert_eq!(second, (code, output, message), "{name}, a second opinion");
    }
}

#[test]
fn a_day_may_come_as_a_listing() {
    let raw = file("day_raw.img", &day([3, 9, 9], 7));
    let listing = file("day.lst", b"8\t03\n10\t09\tthe peak\n18\t09\n20\t07\n");
    let asks = ["--table=8", "--length=3", "--filed=32"];
    let given = ["peaks", &listing, "--listing", "--size=40"];
    let judged = said(&[&given[..], &asks].concat());
    assert_eq!(judged, said(&[&["peaks", &raw][..], &asks].concat()));
    assert_eq!(judged.0, 1);
    fault(
        &[&["peaks", &raw, "--size=40"][..], &asks].concat(),
        64,
        &["--size is for a listing"],
    );
}

#[test]
fn a_day_that_cannot_be_judged_is_refused() {
    let image = file("day.img", &day([3, 9, 9], 9));
    let asks = |table, length, filed| {
        [
            "peaks", &image, "--table", table, "--length", length, "--filed", filed,
        ]
    };
    fault(
        &asks("8", "0", "32"),
        10,
        &["refused (1)", "1 to 1440 words"],
    );
    fault(&asks("8", "5", "32"), 10, &["refused (2)", "40 bytes"]);
    fault(&asks("8", "3", "33"), 10, &["refused (3)", "at 33"]);
    fault(&asks("8", "three", "32"), 64, &["--length 'three'"]);
    fault(
        &["peaks", &image, "--table", "8", "--filed", "32"],
        64,
        &["wants --length"],
    );
    fault(
        &["peaks", &image, "--start", "8"],
        64,
        &["no option of peaks"],
    );
    fault(&["peaks", "--table", "8"], 64, &["wants an image"]);
    let empty = file("empty_day.img", &[]);
    fault(
        &["peaks", &empty, "--table=0", "--length=1", "--filed=0"],
        10,
        &["refused (5)", "0 bytes"],
    );
}

const NAMED: &str = "\
run      instruction 11 stops it, within demand 3's premise
claim    the bytes below may hold anything: both engines give the same
bytes    182 of 256 play no part (by the second program)
  0x42 (66) to 0x77 (119): 54 bytes
  0x80 (128) to 0xff (255): 128 bytes
tried    the engine's replay with each of them changed: the same
";

/// #112: which bytes a plant may call junk.
#[test]
fn bytes_without_a_part_are_named() {
    let image = file("junk.img", &listing_001());
    assert_eq!(said(&["junk", &image]), (0, NAMED.into(), String::new()));
    // A nop, and a halt that a start at 1 comes to; `64` looks at one byte.
    let halt = file("junk_halt.img", &from_hex("1000"));
    let (status, output, _) = said(&["junk", &halt, "--start", "1", "--codes=0"]);
    assert!(
        status == 0 && output.contains("\n  0x0 (0): 1 byte\n"),
        "{output}"
    );
    let function = file("junk_function.img", &from_hex("6400"));
    let (_, output, _) = said(&["junk", &function]);
    assert!(output.contains("\n  0x1 (1): 1 byte\n"), "{output}");
}

/// Where less or nothing is claimed, the first lines and the exit status say so.
#[test]
fn a_run_without_the_claim_is_told() {
    // rmmovq %rax, 10(%rcx): halts over the nops behind it.
    let touching = "40010a00000000000000 1010101010101010 10";
    let touched = file("junk_touched.img", &from_hex(touching));
    let (status, output, _) = said(&["junk", &touched]);
    assert_eq!(status, 1);
    assert!(
        output.contains("instruction 1 writes into one of the next three"),
        "{output}"
    );
    assert!(output.contains("for the plain engine alone") && !output.contains("tried"));
    if desk::engine::REPLAY_SET.is_some() {
        let windowed = said(&["junk", &touched, "--window", "0:19"]);
        assert_eq!(windowed.0, 0, "{windowed:?}");
    }
    let endless = file("junk_endless.img", &from_hex("700000000000000000 00"));
    let (status, output, _) = said(&["junk", &endless]);
    assert_eq!(status, 2);
    assert!(output.contains("does not stop within 65536"), "{output}");
    assert!(output.contains("claim    none") && output.contains("0x9 (9): 1 byte"));
}

#[test]
fn junk_is_refused_as_a_replay_is() {
    let image = file("junk_refused.img", &listing_001());
    let empty = file("junk_empty.img", &[]);
    fault(&["junk", &empty], 10, &["refused (1)", "0 bytes"]);
    fault(&["junk", &image, "--codes", "8"], 10, &["refused (5)"]);
    fault(&["junk", &image, "--start", "256"], 10, &["refused (6)"]);
    fault(
        &["junk", &image, "--registers", &empty],
        10,
        &["refused (2)"],
    );
    fault(
        &["junk", &image, "--budget", "8"],
        64,
        &["no option of junk"],
    );
    fault(&["junk", &image, "--second"], 64, &["no option of junk"]);
    fault(&["junk"], 64, &["wants an image"]);
}
