//! The program y86run against the second program's text, and both against the
//! stored examples.

use desk::engine;
use desk::generate::{Generator, Kind};
use desk::programs;
use desk::second;
use desk::second::machine::REGISTER_NAMES;
use std::fs::File;
use std::io::{ErrorKind, Write};
use std::net::Shutdown;
use std::os::fd::OwnedFd;
use std::os::unix::net::{UnixDatagram, UnixStream};
use std::path::{Path, PathBuf};
use std::process::{Child, Command, Output, Stdio};
use std::time::Duration;

/// A file of the repository.
fn path(name: &str) -> PathBuf {
    Path::new(env!("CARGO_MANIFEST_DIR")).join("..").join(name)
}

fn read(name: &str) -> Vec<u8> {
    std::fs::read(path(name)).unwrap_or_else(|error| panic!("{name}: {error}"))
}

/// y86run, started on an input.
fn started(input: Stdio) -> Child {
    Command::new(path("target/bin/y86run"))
        .stdin(input)
        .stdout(Stdio::piped())
        .stderr(Stdio::piped())
        .spawn()
        .expect("target/bin/y86run, which `rt check y86run` builds")
}

/// What y86run writes for an image on its standard input.
fn y86run(image: &[u8]) -> String {
    let mut child = started(Stdio::piped());
    let mut input = child.stdin.take().expect("its input");
    // It reads no further than it has to, so a long image may find it gone.
    if let Err(error) = input.write_all(image) {
        assert_eq!(error.kind(), ErrorKind::BrokenPipe);
    }
    drop(input);
    let output = child.wait_with_output().expect("its output");
    assert!(output.status.success());
    assert_eq!(output.stderr, b"");
    String::from_utf8(output.stdout).expect("text")
}

/// No verdict: nothing on standard output, and a line on standard error.
fn cannot_be_read(output: &Output) {
    assert_eq!(output.stdout, b"");
    assert_eq!(output.stderr, b"y86run: standard input cannot be read\n");
}

/// A stream as a program's input.
fn as_input(stream: UnixStream) -> Stdio {
    Stdio::from(OwnedFd::from(stream))
}

/// Images of every kind, as they are: the program starts them at 0 with
/// registers 0.
#[test]
fn y86run_writes_the_second_programs_text() {
    let mut generator = Generator::new(0x86);
    for round in 0..70 {
        for kind in Kind::ALL {
            let image = generator.case_of(kind).image;
            let text = second::y86run(&image);
            assert_eq!(y86run(&image), text, "round {round}, {}", kind.name());
        }
    }
}

#[test]
fn y86run_takes_and_refuses_the_sizes_at_the_ends() {
    for size in [0, 1, 2, 4_095, 4_096, 4_097, 4_098, 8_192, 100_000] {
        for byte in [0x00, 0x10, 0x90, 0xff] {
            let image = vec![byte; size];
            let text = second::y86run(&image);
            let refused = text == "y86run\t1\nrefused\t1\n";
            assert_eq!(refused, size == 0 || size > 4_096);
            assert_eq!(y86run(&image), text, "{size} bytes {byte:#04x}");
        }
    }
}

#[test]
fn the_stored_examples_are_met() {
    for name in ["p1", "listing_001", "listing_004", "refused"] {
        let image = read(&format!("examples/{name}.img"));
        let stored = read(&format!("examples/{name}.txt"));
        let text = String::from_utf8(stored).expect("text");
        assert_eq!(y86run(&image), text, "{name} by y86run");
        assert_eq!(second::y86run(&image), text, "{name} by the second program");
        assert_eq!(through_the_edge(&image), known_to_the_edge(&text), "{name}");
    }
}

#[test]
fn the_stored_images_are_the_listings() {
    assert_eq!(read("examples/p1.img"), [0]);
    assert_eq!(read("examples/listing_001.img"), programs::listing_001());
    assert_eq!(read("examples/listing_004.img"), programs::listing_004());
    assert_eq!(read("examples/refused.img"), []);
}

/// The lines that the edge knows of: all but the cycles by kind.
fn known_to_the_edge(text: &str) -> String {
    let kinds = ["loaduse\t", "mispredict\t", "return\t"];
    text.lines()
        .filter(|line| !kinds.iter().any(|kind| line.starts_with(kind)))
        .map(|line| format!("{line}\n"))
        .collect()
}

/// What the edge says of an image, as y86run writes it.
fn through_the_edge(image: &[u8]) -> String {
    let (mut memory, mut block) = (image.to_vec(), [0; 120]);
    let answer = engine::outcome(engine::replay, &mut memory, &mut block, 0, 4, 4_000);
    let outcome = match answer {
        Err(number) => return format!("y86run\t1\nrefused\t{number}\n"),
        Ok(outcome) => outcome,
    };
    let stat = ["AOK", "HLT", "ADR", "INS"][outcome.status as usize - 1];
    let mut text = format!("y86run\t1\nstat\t{stat}\n");
    text += &format!("last\t{}\ncodes\t{}\n", outcome.last, outcome.codes);
    text += &format!("retired\t{}\n", outcome.retired);
    text += &format!("cycles\t{}\n", outcome.cycles);
    for (name, bytes) in REGISTER_NAMES.iter().zip(block.chunks(8)) {
        let value = u64::from_le_bytes(bytes.try_into().expect("a word"));
        if value != 0 {
            text += &format!("reg\t{name}\t{value}\n");
        }
    }
    text
}

#[test]
fn an_input_that_cannot_be_read_gets_no_verdict() {
    let folder = File::open(path("examples")).expect("a folder");
    let output = started(Stdio::from(folder)).wait_with_output();
    cannot_be_read(&output.expect("its output"));
}

/// A socket that is closed while it holds bytes that nobody read is reset: its
/// peer reads what was sent and then fails.
#[test]
fn an_input_that_fails_after_some_bytes_gets_no_verdict() {
    for sent in [1, 100, 4_096] {
        let (mut ours, mut theirs) = UnixStream::pair().expect("a pair");
        theirs.write_all(&[0]).expect("a byte that nobody reads");
        ours.write_all(&vec![0; sent]).expect("the bytes");
        drop(ours);
        let output = started(as_input(theirs)).wait_with_output();
        cannot_be_read(&output.expect("its output"));
    }
}

/// The state of a process, as the system names it: S sleeps, T is stopped.
fn state(child: &Child) -> char {
    let file = format!("/proc/{}/stat", child.id());
    let line = std::fs::read_to_string(file).expect("its state");
    let (_, fields) = line.rsplit_once(") ").expect("its fields");
    fields.chars().next().expect("its first field")
}

fn wait_for(child: &Child, wanted: char) {
    for _ in 0..2_000 {
        if state(child) == wanted {
            return;
        }
        std::thread::sleep(Duration::from_millis(5));
    }
    panic!("y86run never came to state {wanted}");
}

fn signal(child: &Child, name: &str) {
    let id = child.id().to_string();
    let sent = Command::new("kill").args([name, &id]).status();
    assert!(sent.expect("the program kill").success());
}

/// A read of a socket with a time limit is interrupted when its process is
/// stopped and goes on: it is tried again, and the image is whole.
#[test]
fn an_interrupted_read_is_tried_again() {
    let image = programs::listing_001();
    let (mut ours, theirs) = UnixStream::pair().expect("a pair");
    let limit = Duration::from_secs(600);
    theirs.set_read_timeout(Some(limit)).expect("a time limit");
    let child = started(as_input(theirs));
    for part in image.chunks(40) {
        wait_for(&child, 'S');
        signal(&child, "-STOP");
        wait_for(&child, 'T');
        signal(&child, "-CONT");
        wait_for(&child, 'S');
        ours.write_all(part).expect("a part of the image");
    }
    ours.shutdown(Shutdown::Write).expect("the end");
    let output = child.wait_with_output().expect("its output");
    assert_eq!(output.stderr, b"");
    let text = String::from_utf8(output.stdout).expect("text");
    assert_eq!(text, second::y86run(&image));
}

/// A report that cannot be handed over is said to be lost.
#[test]
fn an_output_that_cannot_be_written_is_told() {
    let full = File::options().write(true).open("/dev/full");
    let output = Command::new(path("target/bin/y86run"))
        .stdin(File::open(path("examples/p1.img")).expect("an image"))
        .stdout(full.expect("a device that is always full"))
        .stderr(Stdio::piped())
        .output()
        .expect("its output");
    let line = b"y86run: standard output cannot be written\n";
    assert_eq!(output.stderr, line);
}

/// A failure is told in one write, so that lines of other programs do not come
/// between its words: each write to such a socket is a message of its own.
#[test]
fn a_failure_is_told_in_one_write() {
    for program in ["y86run", "y86peaks"] {
        let (ours, theirs) = UnixDatagram::pair().expect("a pair of sockets");
        let folder = File::open(path("examples")).expect("a folder, which no one can read from");
        let status = Command::new(path("target/bin").join(program))
            .stdin(folder)
            .stderr(OwnedFd::from(theirs))
            .status()
            .expect("its status");
        assert!(status.success());
        let patience = Some(Duration::from_secs(10));
        ours.set_read_timeout(patience).expect("a socket");
        let mut message = [0; 200];
        let length = ours.recv(&mut message).expect("what it told");
        let line = format!("{program}: standard input cannot be read\n");
        assert_eq!(&message[..length], line.as_bytes());
        ours.set_nonblocking(true).expect("a socket");
        let more = ours.recv(&mut message).expect_err("nothing more");
        assert_eq!(more.kind(), ErrorKind::WouldBlock);
    }
}
