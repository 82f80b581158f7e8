//! `desk replay`: reads the files, replays, and tells what came of it.

use crate::list;
use crate::listing;
use crate::replaying::{self, Given};
use crate::report::{self, Before};
use crate::Fault;
use desk::second::machine::{CYCLE_LIMIT, MEMORY_LIMIT};
use desk::second::replay::REGISTER_BYTES;
use std::fs::File;
use std::io::{ErrorKind, Read};
use std::path::{Path, PathBuf};

/// One replay as the command line asks for it.
pub struct Asked {
    pub image: PathBuf,
    /// Where the image is a listing: the size of memory.
    pub listing: Option<u64>,
    pub registers: Option<PathBuf>,
    pub given: Given,
    pub second: bool,
}

/// A file's first bytes, one more than may be used: what is too long is seen
/// to be so, and not read on, however long it is.
pub struct Source {
    pub name: String,
    pub bytes: Vec<u8>,
    /// The whole length, where the file has one.
    pub length: Option<u64>,
}

/// The text to show for a replay, and the exit status.
pub fn replay(asked: &Asked) -> Result<(String, u8), Fault> {
    let (image, file) = files(asked)?;
    let (mut memory, mut registers) = (image.bytes.clone(), file.bytes.clone());
    let answer = replaying::replay(asked.second, &mut memory, &mut registers, &asked.given);
    let words = |number| refusal(number, &asked.given, &image, &file);
    let told = answer.map_err(|untold| untold.fault(words))?;
    let before = Before {
        memory: &image.bytes,
        given: &asked.given,
    };
    let at_last = list::instruction(list::writer(asked.second), &memory, told.outcome.last);
    let text = report::text(&told, &at_last, &before, &memory, &registers);
    Ok((text, report::exit_status(&told.outcome)))
}

/// The image and the registers that are asked for, all 0 where no file is.
pub fn files(asked: &Asked) -> Result<(Source, Source), Fault> {
    let image = Source::image(&asked.image, asked.listing)?;
    let registers = match &asked.registers {
        Some(path) => Source::read(path, REGISTER_BYTES)?,
        None => Source::zeros(REGISTER_BYTES),
    };
    check_program(&asked.given, &image)?;
    Ok((image, registers))
}

/// The program's bytes have to be bytes of the image.
fn check_program(given: &Given, image: &Source) -> Result<(), Fault> {
    let size = image.bytes.len();
    match given.program {
        Some(seam) if seam > size => {
            let message = format!("--program {seam}: {}", image.says());
            Err(Fault::new(Fault::USAGE, message))
        }
        _ => Ok(()),
    }
}

/// What a refusal means, in words. Number 4 is not among them: the result
/// block is this program's own, and has the right length.
pub fn refusal(number: u64, given: &Given, image: &Source, registers: &Source) -> String {
    match number {
        1 => format!("{}; an image has 1 to 65,536", image.says()),
        2 => format!(
            "{}; a file of registers has 120, fifteen words of 8",
            registers.says()
        ),
        3 => format!(
            "the budget is {}; it has to be 1 to {CYCLE_LIMIT} cycles",
            given.budget
        ),
        5 if given.codes > 7 => format!(
            "the codes are {}; they have to be 0 to 7, as 4ZF + 2SF + OF",
            given.codes
        ),
        5 => {
            let (first, end) = given.window.unwrap_or((0, 0));
            let size = image.bytes.len();
            format!(
                "the window is from {first} to {end}; both have to be at most {size}, the \
                 bytes of the image, and the end not below the first"
            )
        }
        6 => format!(
            "the start address is {}; it has to be below {}, the bytes of the image",
            given.start,
            image.bytes.len()
        ),
        _ => "the engine does not take this".into(),
    }
}

impl Source {
    /// An image: raw, or a listing for a memory of this size.
    pub fn image(path: &Path, listing: Option<u64>) -> Result<Source, Fault> {
        match listing {
            Some(size) => listing::image(path, size),
            None => Source::read(path, MEMORY_LIMIT),
        }
    }

    pub fn read(path: &Path, most: usize) -> Result<Source, Fault> {
        let name = path.display().to_string();
        let fault = |why: String| Fault::new(Fault::FILE, format!("cannot read {name}: {why}"));
        let file = File::open(path).map_err(|error| fault(words(&error)))?;
        let about = file.metadata().map_err(|error| fault(words(&error)))?;
        if about.is_dir() {
            return Err(fault("it is a directory; name a file in it".into()));
        }
        let mut bytes = Vec::new();
        file.take(most as u64 + 1)
            .read_to_end(&mut bytes)
            .map_err(|error| fault(words(&error)))?;
        Ok(Source {
            name,
            bytes,
            length: about.is_file().then_some(about.len()),
        })
    }

    fn zeros(length: usize) -> Source {
        Source {
            name: "no file".into(),
            bytes: vec![0; length],
            length: None,
        }
    }

    /// How long it is, for a refusal.
    pub fn says(&self) -> String {
        let (name, seen) = (&self.name, self.bytes.len() as u64);
        match self.length {
            _ if seen == 0 => format!("{name} is empty, 0 bytes"),
            Some(1) => format!("{name} has 1 byte"),
            Some(length) if length >= seen => format!("{name} has {length} bytes"),
            _ => format!("{name} has {seen} bytes or more"),
        }
    }
}

/// Why a file cannot be read.
fn words(error: &std::io::Error) -> String {
    match error.kind() {
        ErrorKind::NotFound => "there is no such file".into(),
        ErrorKind::PermissionDenied => "permission is denied".into(),
        _ => error.to_string(),
    }
}
