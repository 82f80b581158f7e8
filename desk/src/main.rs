//! The desk program's command line.

mod arguments;
mod bench;
mod inspect;
mod judge;
mod junk;
mod list;
mod listing;
mod replaying;
mod report;

use arguments::Command;
use std::io::Write;
use std::process::ExitCode;

const HELP: &str = "\
desk: replays of Y86-64 images by the proved engine, for inspectors

usage:
  desk replay IMAGE [options]   replay an image and show what it left
  desk read LISTING -o IMAGE [--size N]
                                read a listing and write its raw image
  desk list IMAGE [--from A] [--to B]
                                write a listing of an image
  desk peaks IMAGE --table A --length L --filed P
                                replay it, and hold the filed peak against the
                                largest good sample of the day
  desk junk IMAGE [options]     which bytes play no part in the image's run
  desk bench                    time the engine against the second program
  desk bench --instructions     count both engines' instructions (by valgrind)
  desk --help                   this text

IMAGE is a file of 1 to 65,536 raw bytes: the memory, as it stands at the
start. (The programs y86run and y86peaks hold at most 4,096.)

LISTING is an image as text, one record a line, each ended by a line feed. Tabs
part its fields: the address in hex (1 to 16 digits), the bytes in hex (two
digits each, 1 to 16 bytes), and, if there is more, a remark. Lines ascend
without overlap. Bytes that no line names are 0.

options for a listing:
  --size N           how many bytes of memory the image has, 1 to 65,536 (4096)
  --listing          of replay, list, peaks and junk: IMAGE is a listing (with
                     --size, if wanted)

options of replay, and of junk, but for --budget and --second:
  --start A          the address to start from, inside the image (0)
  --codes C          the condition codes, 4ZF + 2SF + OF, 0 to 7 (4: ZF alone)
  --budget B         the most cycles to run, 1 to 262,145 (4000)
  --registers FILE   120 bytes: the words of rax rcx rdx rbx rsp rbp rsi rdi
                     and r8 to r14, 8 bytes each, least byte first (all 0)
  --program N        the first N bytes are the program's: they are only read,
                     and no instruction or word lies across their end (none)
  --window FIRST:END only bytes from FIRST up to END, which is not among them,
                     are fetched as instructions; a store among them is seen by
                     every instruction behind it, which costs 3 cycles (none)
  --second           a second opinion: by the second program, not the engine

Numbers are decimal, or hex after 0x. An option that is not given has the value
in brackets, as in the program y86run. No file is changed but the one that read
writes, and that only where the whole listing is right.

What is shown: status and, where a fetch failed and the engine tells why, which
byte was at fault; last address with the instruction that stands there at the
end, codes, instructions retired, cycles, the registers that are not 0, and the
words that changed in memory (8 bytes each from address 0 on, least byte first;
the last has what is left). Where the budget was spent, instructions are on
their way: memory and codes can be ahead of the registers.

options of list:
  --from A           the first address of the listing (0)
  --to B             the address behind its last (the end of the image)
  --second           a second opinion: by the second program

One instruction a line, with its notation as the remark; a byte that starts none
is a line by itself, without remark, and so is each byte of an instruction that
goes on behind B. Exit status: 0. What list wrote, read reads back.

peaks replays the image as y86run does. A is the address of the day's table of
L words, 1 to 1,440, and P the address of the filed peak, in the final memory. A
word below 2^32 is a good sample, any other a failed one. --second gives a second
opinion. Exit status: 0 at the raw peak, 1 below it, 2 above it, 3 cannot be
compared, 4 no good sample.

junk names the bytes that the plain run neither fetches as instruction bytes nor
reads as data, by the second program. Where that run stops within 65,536
instructions, and no store writes into the next three (with a window they may),
these bytes may hold anything: each engine gives the same registers, codes,
status, addresses and cycles, and the final memories differ there at most. That
is proved of such bytes; and the engine's replay is tried with each of them
changed. Exit status: 0 so; 1 a store writes into the next three, and it holds of
the plain engine alone; 2 the run does not stop.

exit status of replay:
  0  HLT: the image halted
  1  AOK: the budget was spent before a stop
  2  ADR: an address outside memory
  3  INS: bytes that are no instruction
of all:
  10 refused: the message says why, with the number
  64 the command was at fault        66 a file could not be read
  69 bench: valgrind did not run     74 the output could not be written
  70 junk: a byte that was named changed the replay, which must not happen
";

/// A command that comes to nothing: what to say, and the exit status.
struct Fault {
    status: u8,
    message: String,
}

impl Fault {
    const REFUSED: u8 = 10;
    const USAGE: u8 = 64;
    const FILE: u8 = 66;
    const VALGRIND: u8 = 69;
    const WRONG: u8 = 70;
    const OUTPUT: u8 = 74;

    fn new(status: u8, message: impl Into<String>) -> Fault {
        Fault {
            status,
            message: message.into(),
        }
    }
}

fn main() -> ExitCode {
    let given: Vec<_> = std::env::args_os().skip(1).collect();
    match arguments::read(given).and_then(perform) {
        Ok(status) => ExitCode::from(status),
        Err(fault) => {
            eprintln!("desk: {}", fault.message);
            ExitCode::from(fault.status)
        }
    }
}

/// Performs a command; gives the exit status.
fn perform(command: Command) -> Result<u8, Fault> {
    match command {
        Command::Help => say(HELP).map(|()| 0),
        Command::Replay(asked) => {
            let (text, status) = inspect::replay(&asked)?;
            say(&text).map(|()| status)
        }
        Command::Read(asked) => say(&listing::read(&asked)?).map(|()| 0),
        Command::List(asked) => say(&list::list(&asked)?).map(|()| 0),
        Command::Peaks(asked) => {
            let (text, status) = judge::day(&asked)?;
            say(&text).map(|()| status)
        }
        Command::Junk(asked) => {
            let (text, status) = junk::report(&asked)?;
            say(&text).map(|()| status)
        }
        Command::Bench => bench::times().map(|()| 0),
        Command::Instructions => bench::instructions::count().map(|()| 0),
        Command::Once(once) => once.run().map(|()| 0),
    }
}

/// Writes to standard output, where a reader may have gone.
fn say(text: &str) -> Result<(), Fault> {
    let mut output = std::io::stdout().lock();
    let written = output.write_all(text.as_bytes());
    written.and_then(|()| output.flush()).map_err(|fault| {
        let message = format!("the output could not be written: {fault}");
        Fault::new(Fault::OUTPUT, message)
    })
}
