//! The program y86peaks against the text of the second program's days.

use desk::generate::{Generator, Kind, Random};
use desk::second::peaks::y86peaks;
use std::io::{ErrorKind, Write};
use std::path::Path;
use std::process::{Command, Stdio};

/// What y86peaks writes for an input.
fn written(input: &[u8]) -> String {
    let repository = Path::new(env!("CARGO_MANIFEST_DIR")).join("..");
    let mut child = Command::new(repository.join("target/bin/y86peaks"))
        .stdin(Stdio::piped())
        .stdout(Stdio::piped())
        .spawn()
        .expect("target/bin/y86peaks, which `rt check y86peaks` builds");
    let mut stdin = child.stdin.take().expect("its input");
    // It reads no further than it has to, so a long input may find it gone.
    if let Err(error) = stdin.write_all(input) {
        assert_eq!(error.kind(), ErrorKind::BrokenPipe);
    }
    drop(stdin);
    let output = child.wait_with_output().expect("its output");
    assert!(output.status.success());
    String::from_utf8(output.stdout).expect("text")
}

/// Both texts for an input, which have to be one.
fn compared(input: &[u8]) -> String {
    let text = y86peaks(input);
    assert_eq!(written(input), text, "{:?}", String::from_utf8_lossy(input));
    text
}

/// An image that halts at once, with words behind: good, failed, often equal.
fn day(random: &mut Random) -> Vec<u8> {
    let mut image = vec![0; 8];
    for _ in 0..1 + random.below(20) {
        let word = match random.below(4) {
            0 => (1 << 32) - 1 + random.below(3),
            1 => random.word(),
            _ => random.below(5),
        };
        image.extend(word.to_le_bytes());
    }
    image
}

fn asking(random: &mut Random, image: &[u8]) -> Vec<u8> {
    let size = image.len() as u64;
    let words = size / 8;
    let table = 8 * random.below(words / 2 + 1) + random.below(12) / 11;
    let length = random.below(words + 2);
    let filed = 8 * random.below(words + 1) + random.below(12) / 11;
    let line = format!("{table}\t{length}\t{filed}\n");
    [line.as_bytes(), image].concat()
}

/// Images of every kind, and days, with lines that mostly ask for what is
/// there.
#[test]
fn y86peaks_writes_the_second_programs_text() {
    let (mut random, mut generator) = (Random::new(114), Generator::new(114));
    let marks = [
        "filed\tbelow",
        "filed\tat",
        "filed\tabove",
        "filed\t-",
        "peak\t-",
        "refused\t1",
        "refused\t2",
        "refused\t3",
    ];
    let mut counts = [0_u32; 8];
    for round in 0..600 {
        let image = match round % 3 {
            0 => {
                generator
                    .case_of(Kind::ALL[round / 3 % Kind::ALL.len()])
                    .image
            }
            _ => day(&mut random),
        };
        let text = compared(&asking(&mut random, &image));
        for (mark, count) in marks.iter().zip(&mut counts) {
            *count += u32::from(text.contains(mark));
        }
    }
    println!("600 inputs of y86peaks compared, byte for byte: {marks:?} {counts:?}");
    assert!(counts.iter().all(|count| *count > 0));
}

#[test]
fn a_bad_first_line_is_refused_before_all_else() {
    let lines = [
        "",
        "\n",
        "\t\t\n",
        "0\t1\n",
        "0\t1\t0",
        "0\t1\t0\t\n",
        "0\t1\t0\t0\n",
        "0 1 0\n",
        "0\t1 \t0\n",
        " 0\t1\t0\n",
        "+0\t1\t0\n",
        "-1\t1\t0\n",
        "00\t1\t0\n",
        "0\t01\t0\n",
        "0\t1\t007\n",
        "0x0\t1\t0\n",
        "0\t1\t0\r\n",
        "0\t\t0\n",
        "a\t1\t0\n",
        "0\t1\t0,\n",
        "18446744073709551616\t1\t0\n",
        "0\t99999999999999999999\t0\n",
        "0\t1\t184467440737095516150\n",
        "0\t1\t0\u{e9}\n",
        "0\n1\t0\n",
    ];
    for line in lines {
        for image in [&[0; 16][..], &[], &[7; 5000]] {
            let input = [line.as_bytes(), image].concat();
            assert_eq!(compared(&input), "refused\t4\n", "{line:?}");
        }
    }
}

#[test]
fn an_image_that_is_empty_or_too_long_is_refused_next() {
    let longest = "18446744073709551615\t18446744073709551615\t18446744073709551615\n";
    for line in ["0\t0\t0\n", "8\t1\t0\n", longest] {
        for size in [0, 1, 8, 4_095, 4_096, 4_097, 4_098, 4_160, 9_000, 100_000] {
            let text = compared(&[line.as_bytes(), &vec![0; size]].concat());
            assert_eq!(text == "refused\t5\n", size == 0 || size > 4_096, "{size}");
        }
    }
}

#[test]
fn an_input_that_cannot_be_read_gets_no_verdict() {
    let repository = Path::new(env!("CARGO_MANIFEST_DIR")).join("..");
    let folder = std::fs::File::open(&repository).expect("a folder, which no one can read from");
    let output = Command::new(repository.join("target/bin/y86peaks"))
        .stdin(folder)
        .output()
        .expect("target/bin/y86peaks");
    assert_eq!(output.stdout, b"");
    assert_eq!(output.stderr, b"y86peaks: standard input cannot be read\n");
}
