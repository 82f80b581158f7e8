//! `desk junk`: which bytes of an image play no part in its run (#112).

use crate::inspect::{self, Asked};
use crate::replaying::{self, Given, Told, Untold};
use crate::Fault;
use desk::second::account::Account;
use desk::second::arithmetic::Codes;
use desk::second::machine::PLAIN_LIMIT;
use desk::second::memory::Memory;
use desk::second::part::{no_part, played};
use desk::second::pipeline::Settings;
use desk::second::plain::Plain;
use desk::second::replay::read_registers;
use desk::second::window::Window;
use std::ops::Range;

/// How the plain run ends, and what demand 3's premise says of it.
enum Run {
    /// It goes on beyond the limit.
    Endless,
    /// This instruction, counted from 1, is the first that writes into one of
    /// the next three; so many are performed.
    Touched(usize, usize),
    /// It stops after so many, within the premise.
    Met(usize),
}

/// The text to show, and the exit status: 0 where the bytes may hold anything,
/// 1 where that is so of the plain engine alone, 2 where the run does not stop.
pub fn report(asked: &Asked) -> Result<(String, u8), Fault> {
    let (image, file) = inspect::files(asked)?;
    let given = &asked.given;
    let words = |number| inspect::refusal(number, given, &image, &file);
    let shown = Left::of(&image.bytes, &file.bytes, given).map_err(|untold| untold.fault(words))?;
    let (run, ranges) = plain_run(&image.bytes, &file.bytes, given);
    let mut text = heading(&run);
    text += &lines(&ranges, image.bytes.len());
    if let Run::Met(_) = run {
        tried(&image.bytes, &file.bytes, given, &ranges, &shown)?;
        text += "tried    the engine's replay with each of them changed: the same\n";
    }
    Ok((text, exit_status(&run)))
}

/// The plain run by the second program, from a start that is not refused, and
/// the bytes that play no part in it.
fn plain_run(image: &[u8], registers: &[u8], given: &Given) -> (Run, Vec<Range<usize>>) {
    let window = given.window.map(|(first, end)| Window { first, end });
    let codes = Codes::from_number(given.codes).expect("codes up to 7");
    let (size, registers) = (image.len() as u64, read_registers(registers));
    let fresh = Plain::fresh(size, registers, codes, given.start, window).expect("a start");
    let (mut bytes, seam) = (image.to_vec(), given.program.unwrap_or(0));
    let memory = Memory::split(&mut bytes, seam);
    let played = played(&mut fresh.clone(), memory, PLAIN_LIMIT);
    (judged(fresh, image.to_vec(), seam), no_part(&played))
}

/// How the run ends, by its account.
fn judged(mut fresh: Plain, mut image: Vec<u8>, seam: usize) -> Run {
    let settings = Settings {
        window: fresh.window,
        ..Settings::default()
    };
    let memory = Memory::split(&mut image, seam);
    let account = Account::of(&mut fresh, memory, PLAIN_LIMIT as usize, settings);
    let (reach, all) = (account.premise_reach(), account.performed.len());
    match (account.stopped, reach == all) {
        (false, _) => Run::Endless,
        (true, false) => Run::Touched(reach + 1, all),
        (true, true) => Run::Met(all),
    }
}

/// What a replay by the engine leaves, which is long enough for any plain run
/// that stops.
struct Left {
    told: Told,
    registers: Vec<u8>,
    memory: Vec<u8>,
}

impl Left {
    fn of(image: &[u8], registers: &[u8], given: &Given) -> Result<Left, Untold> {
        let (mut memory, mut registers) = (image.to_vec(), registers.to_vec());
        let told = replaying::replay(false, &mut memory, &mut registers, given)?;
        Ok(Left {
            told,
            registers,
            memory,
        })
    }
}

/// Replays the image with each byte of the ranges changed. What is left has to
/// be the same, but for bytes of the ranges.
fn tried(
    image: &[u8],
    registers: &[u8],
    given: &Given,
    ranges: &[Range<usize>],
    shown: &Left,
) -> Result<(), Fault> {
    let mut changed = image.to_vec();
    for byte in ranges.iter().cloned().flatten() {
        changed[byte] ^= 0xff;
    }
    let differs = || Fault::new(Fault::WRONG, DIFFERS);
    let mut other = Left::of(&changed, registers, given).map_err(|_| differs())?;
    for range in ranges {
        other.memory[range.clone()].copy_from_slice(&shown.memory[range.clone()]);
    }
    let same = other.told == shown.told && other.registers == shown.registers;
    match same && other.memory == shown.memory {
        true => Ok(()),
        false => Err(differs()),
    }
}

/// What must not happen.
const DIFFERS: &str = "the replay with these bytes changed differs: the second program named a \
                       byte that plays a part";

fn exit_status(run: &Run) -> u8 {
    match run {
        Run::Met(_) => 0,
        Run::Touched(..) => 1,
        Run::Endless => 2,
    }
}

/// How far the claim reaches.
fn heading(run: &Run) -> String {
    match run {
        Run::Met(all) => format!(
            "run      instruction {all} stops it, within demand 3's premise\n\
             claim    the bytes below may hold anything: both engines give the same\n"
        ),
        Run::Touched(first, all) => format!(
            "run      instruction {all} stops it; instruction {first} writes into one of the \
             next three\n\
             claim    the bytes below may hold anything for the plain engine alone\n"
        ),
        Run::Endless => format!(
            "run      does not stop within {PLAIN_LIMIT} instructions\n\
             claim    none: the bytes below play no part so far\n"
        ),
    }
}

/// The ranges, first and last address, with the bytes of each.
fn lines(ranges: &[Range<usize>], size: usize) -> String {
    let none: usize = ranges.iter().map(Range::len).sum();
    let mut text = format!("bytes    {none} of {size} play no part (by the second program)\n");
    for range in ranges {
        let (first, last) = (range.start, range.end - 1);
        text += &match range.len() {
            1 => format!("  {first:#x} ({first}): 1 byte\n"),
            count => format!("  {first:#x} ({first}) to {last:#x} ({last}): {count} bytes\n"),
        };
    }
    text
}
