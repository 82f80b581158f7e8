//! What the command line asks for.

use crate::bench::Once;
use crate::inspect::Asked;
use crate::judge;
use crate::list;
use crate::listing;
use crate::replaying::Given;
use crate::Fault;
use desk::second::machine::{CYCLE_LIMIT, PROGRAM_LIMIT};
use std::ffi::{OsStr, OsString};
use std::path::PathBuf;

/// The size of memory where none is given: the most that y86run holds.
const SIZE: u64 = PROGRAM_LIMIT as u64;
/// The cycle budget where none is given: y86run's.
const BUDGET: u64 = 4_000;

pub enum Command {
    Help,
    Replay(Asked),
    Read(listing::Asked),
    List(list::Asked),
    Peaks(judge::Asked),
    Junk(Asked),
    Bench,
    Instructions,
    /// One replay without a time, for `bench --instructions` to count.
    Once(Once),
}

/// The command that the words after `desk` make.
pub fn read(words: Vec<OsString>) -> Result<Command, Fault> {
    if words.iter().any(|word| word == "--help" || word == "-h") {
        return Ok(Command::Help);
    }
    let Some((first, rest)) = words.split_first() else {
        return Err(usage(
            "a command is missing: replay, read, list, peaks, junk or bench",
        ));
    };
    match first.to_str() {
        Some("replay") => replay(rest).map(Command::Replay),
        Some("read") => read_listing(rest).map(Command::Read),
        Some("list") => list(rest).map(Command::List),
        Some("peaks") => peaks(rest).map(Command::Peaks),
        Some("junk") => junk(rest).map(Command::Junk),
        Some("bench") => bench(rest),
        _ => Err(usage(format!(
            "{} is no command; there are replay, read, list, peaks, junk and bench",
            shown(first)
        ))),
    }
}

/// The words after `desk replay`.
fn replay(words: &[OsString]) -> Result<Asked, Fault> {
    let mut options = Options::default();
    options.take("replay", words)?;
    options.replay("replay", BUDGET)
}

/// The words after `desk list`.
fn list(words: &[OsString]) -> Result<list::Asked, Fault> {
    let mut options = Options::default();
    options.take("list", words)?;
    options.list()
}

/// The words after `desk peaks`.
fn peaks(words: &[OsString]) -> Result<judge::Asked, Fault> {
    let mut options = Options::default();
    options.take("peaks", words)?;
    options.peaks()
}

/// The words after `desk junk`.
fn junk(words: &[OsString]) -> Result<Asked, Fault> {
    let mut options = Options::default();
    options.take("junk", words)?;
    options.replay("junk", CYCLE_LIMIT)
}

/// The words after `desk read`, in any order.
fn read_listing(words: &[OsString]) -> Result<listing::Asked, Fault> {
    let (mut text, mut image, mut size) = (None, None, None);
    let mut words = words.iter();
    while let Some(word) = words.next() {
        let (name, joined) = split(word.to_str().unwrap_or(""));
        let (name, place) = match name {
            "-o" => ("-o", &mut image),
            "--size" => ("--size", &mut size),
            _ if name.starts_with('-') => {
                return Err(usage(format!("{name} is no option of read")));
            }
            _ => {
                once("LISTING", text.replace(word.clone()))?;
                continue;
            }
        };
        let value = joined.or_else(|| words.next().cloned());
        let value = value.ok_or_else(|| usage(format!("{name} wants a value")))?;
        once(name, place.replace(value))?;
    }
    let text = text.ok_or_else(|| usage("read wants a listing: a file of text"))?;
    let image = image.ok_or_else(|| usage("read wants -o and the file to write the image to"))?;
    Ok(listing::Asked {
        listing: text.into(),
        image: image.into(),
        size: number_or("--size", size, SIZE)?,
    })
}

/// An option and, where they are joined by `=`, its value.
fn split(word: &str) -> (&str, Option<OsString>) {
    match word.split_once('=') {
        Some((name, value)) => (name, Some(value.into())),
        None => (word, None),
    }
}

/// The words of one `desk replay`, `desk list`, `desk peaks` or `desk junk`, by their place.
#[derive(Default)]
struct Options {
    image: Option<OsString>,
    start: Option<OsString>,
    codes: Option<OsString>,
    budget: Option<OsString>,
    registers: Option<OsString>,
    program: Option<OsString>,
    window: Option<OsString>,
    size: Option<OsString>,
    listing: Option<()>,
    table: Option<OsString>,
    length: Option<OsString>,
    filed: Option<OsString>,
    from: Option<OsString>,
    to: Option<OsString>,
    second: Option<()>,
}

impl Options {
    /// The words after a command, in any order.
    fn take(&mut self, command: &str, words: &[OsString]) -> Result<(), Fault> {
        let mut words = words.iter();
        while let Some(word) = words.next() {
            match word.to_str() {
                Some("--second") if command != "junk" => {
                    once("--second", self.second.replace(()))?;
                }
                Some("--listing") => once("--listing", self.listing.replace(()))?,
                Some(name) if name.starts_with("--") => {
                    let (name, joined) = split(name);
                    let place = self.named(command, name)?;
                    let value = joined.or_else(|| words.next().cloned());
                    let value = value.ok_or_else(|| usage(format!("{name} wants a value")))?;
                    once(name, place.replace(value))?;
                }
                _ => {
                    let earlier = self.image.replace(word.clone());
                    if earlier.is_some() {
                        let second = shown(word);
                        return Err(usage(format!("one image at a time: {second} is another")));
                    }
                }
            }
        }
        Ok(())
    }

    /// The place of an option of a command that has a value.
    fn named(&mut self, command: &str, name: &str) -> Result<&mut Option<OsString>, Fault> {
        match (command, name) {
            (_, "--size") => Ok(&mut self.size),
            ("replay" | "junk", "--start") => Ok(&mut self.start),
            ("replay" | "junk", "--codes") => Ok(&mut self.codes),
            ("replay", "--budget") => Ok(&mut self.budget),
            ("replay" | "junk", "--registers") => Ok(&mut self.registers),
            ("list", "--from") => Ok(&mut self.from),
            ("list", "--to") => Ok(&mut self.to),
            ("replay" | "junk", "--program") => Ok(&mut self.program),
            ("replay" | "junk", "--window") => Ok(&mut self.window),
            ("peaks", "--table") => Ok(&mut self.table),
            ("peaks", "--length") => Ok(&mut self.length),
            ("peaks", "--filed") => Ok(&mut self.filed),
            _ => Err(usage(format!("{name} is no option of {command}"))),
        }
    }

    fn image(&mut self, command: &str) -> Result<PathBuf, Fault> {
        let wanted = || {
            usage(format!(
                "{command} wants an image: a file of 1 to 65,536 raw bytes"
            ))
        };
        self.image.take().map(Into::into).ok_or_else(wanted)
    }

    /// Where the image is a listing: the size of memory.
    fn listing(&mut self) -> Result<Option<u64>, Fault> {
        if self.size.is_some() && self.listing.is_none() {
            return Err(usage(
                "--size is for a listing: a raw image has its own size",
            ));
        }
        let size = number_or("--size", self.size.take(), SIZE)?;
        Ok(self.listing.map(|()| size))
    }

    /// The day that is asked for: none of its numbers can be left out.
    fn peaks(mut self) -> Result<judge::Asked, Fault> {
        Ok(judge::Asked {
            image: self.image("peaks")?,
            listing: self.listing()?,
            table: wanted("--table", self.table)?,
            length: wanted("--length", self.length)?,
            filed: wanted("--filed", self.filed)?,
            second: self.second.is_some(),
        })
    }

    /// The listing that is asked for.
    fn list(mut self) -> Result<list::Asked, Fault> {
        Ok(list::Asked {
            image: self.image("list")?,
            listing: self.listing()?,
            from: number_or("--from", self.from, 0)?,
            to: self.to.map(|word| number("--to", &word)).transpose()?,
            second: self.second.is_some(),
        })
    }

    /// The replay that is asked for; options not given have the values of
    /// y86run, and the budget this one.
    fn replay(mut self, command: &str, budget: u64) -> Result<Asked, Fault> {
        Ok(Asked {
            image: self.image(command)?,
            listing: self.listing()?,
            registers: self.registers.map(Into::into),
            given: Given {
                start: number_or("--start", self.start, 0)?,
                codes: number_or("--codes", self.codes, 4)?,
                budget: number_or("--budget", self.budget, budget)?,
                program: size_of("--program", self.program)?,
                window: window(self.window)?,
            },
            second: self.second.is_some(),
        })
    }
}

fn bench(words: &[OsString]) -> Result<Command, Fault> {
    let words: Vec<&str> = words
        .iter()
        .map(|word| word.to_str().unwrap_or(""))
        .collect();
    match words.as_slice() {
        [] => Ok(Command::Bench),
        ["--instructions"] => Ok(Command::Instructions),
        ["--once", engine, program, budget] => {
            let budget = number("--once", OsStr::new(budget))?;
            let once = Once::named(engine, program, budget);
            once.map(Command::Once)
                .ok_or_else(|| usage("bench --once wants an engine, a program and a budget"))
        }
        _ => Err(usage("bench takes --instructions, or nothing")),
    }
}

fn once<T>(name: &str, earlier: Option<T>) -> Result<(), Fault> {
    match earlier {
        None => Ok(()),
        Some(_) => Err(usage(format!("{name} is given twice"))),
    }
}

fn wanted(name: &str, word: Option<OsString>) -> Result<u64, Fault> {
    let word = word.ok_or_else(|| usage(format!("peaks wants {name} and a number")))?;
    number(name, &word)
}

fn number_or(name: &str, word: Option<OsString>, otherwise: u64) -> Result<u64, Fault> {
    word.map_or(Ok(otherwise), |word| number(name, &word))
}

/// A window's first address and its end, with a colon between them.
fn window(word: Option<OsString>) -> Result<Option<(u64, u64)>, Fault> {
    let Some(word) = word else {
        return Ok(None);
    };
    let text = word.to_str().unwrap_or("");
    let (first, end) = text.split_once(':').ok_or_else(|| {
        let given = shown(&word);
        usage(format!("--window {given}: FIRST:END is wanted, as 0:0x3e"))
    })?;
    let number = |text: &str| number("--window", OsStr::new(text));
    Ok(Some((number(first)?, number(end)?)))
}

/// A number of bytes, where one is given; larger than any image, where it is
/// larger than this machine can count.
fn size_of(name: &str, word: Option<OsString>) -> Result<Option<usize>, Fault> {
    let size = word.map(|word| number(name, &word)).transpose()?;
    Ok(size.map(|size| usize::try_from(size).unwrap_or(usize::MAX)))
}

/// A number of 64 bits, decimal or hex. Whether it is one that the edge takes
/// is the edge's to say.
fn number(name: &str, word: &OsStr) -> Result<u64, Fault> {
    let bad = |why| usage(format!("{name} {}: {why}", shown(word)));
    let text = word.to_str().unwrap_or("");
    let (digits, base) = match text.strip_prefix("0x") {
        Some(digits) => (digits, 16),
        None => (text, 10),
    };
    if digits.is_empty() || !digits.chars().all(|digit| digit.is_digit(base)) {
        return Err(bad("a number is wanted, decimal, or hex after 0x"));
    }
    u64::from_str_radix(digits, base).map_err(|_| bad("a number of at most 64 bits is wanted"))
}

fn usage(message: impl Into<String>) -> Fault {
    let message = message.into();
    Fault::new(Fault::USAGE, format!("{message}\n(desk --help says more)"))
}

/// A word of the command line as a message quotes it.
fn shown(word: &OsStr) -> String {
    format!("'{}'", word.to_string_lossy())
}
