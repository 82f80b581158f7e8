//! `desk read`, and listings in the place of raw images.

use crate::inspect::Source;
use crate::Fault;
use desk::engine;
use desk::second::listing::FAULT_BYTES;
use desk::second::machine::MEMORY_LIMIT;
use std::path::{Path, PathBuf};

/// The longest text that is read, in bytes.
const TEXT_LIMIT: usize = 1 << 24;

/// One listing to read, as the command line asks for it.
pub struct Asked {
    pub listing: PathBuf,
    pub image: PathBuf,
    pub size: u64,
}

/// Writes the image of a listing; gives the text to show.
pub fn read(asked: &Asked) -> Result<String, Fault> {
    let (from, to) = (&asked.listing, &asked.image);
    let image = image(from, asked.size)?.bytes;
    let fault = |why: String| Fault::new(Fault::OUTPUT, format!("{}: {why}", to.display()));
    if is_same(from, to) {
        return Err(fault(
            "this is the listing itself; name another file".into(),
        ));
    }
    std::fs::write(to, &image).map_err(|error| fault(format!("cannot be written: {error}")))?;
    Ok(format!("{}: {} bytes\n", to.display(), image.len()))
}

fn is_same(one: &Path, other: &Path) -> bool {
    match (one.canonicalize(), other.canonicalize()) {
        (Ok(one), Ok(other)) => one == other,
        _ => false,
    }
}

/// The image of a listing in a memory of this size.
pub fn image(path: &Path, size: u64) -> Result<Source, Fault> {
    let text = Source::read(path, TEXT_LIMIT)?;
    if text.bytes.len() > TEXT_LIMIT {
        let why = format!("{}; a listing has at most {TEXT_LIMIT}", text.says());
        return Err(Fault::new(Fault::FILE, why));
    }
    // One byte too many is enough to be refused.
    let lent = size.min(MEMORY_LIMIT as u64 + 1) as usize;
    let (mut memory, mut fault) = (vec![0; lent], [0; FAULT_BYTES]);
    match engine::read_listing(&text.bytes, &mut memory, &mut fault) {
        0 => Ok(Source {
            name: text.name,
            bytes: memory,
            length: Some(size),
        }),
        number => {
            let why = refusal(number, &text.name, size, &fault);
            Err(Fault::new(
                Fault::REFUSED,
                format!("refused ({number}): {why}"),
            ))
        }
    }
}

/// What a refusal means, in words. Number 4 is not among them: the block is
/// this program's own, and has the right length.
fn refusal(number: u64, name: &str, size: u64, fault: &[u8; FAULT_BYTES]) -> String {
    if number != 9 {
        return format!("--size {size}; memory has 1 to {MEMORY_LIMIT} bytes");
    }
    let word = |at: usize| {
        fault[at..at + 8]
            .iter()
            .rev()
            .fold(0, |w, b| w << 8 | u64::from(*b))
    };
    let (line, kind) = (word(0), word(8));
    let why = match kind {
        1 => "a field is missing or not hex, the address has over 16 digits, or the line feed is missing".into(),
        2 => "the bytes have an odd number of digits, or are more than 16".into(),
        3 => "the address is not above the last byte given".to_string(),
        _ => format!("the bytes go beyond the memory of {size}"),
    };
    format!("{name}, line {line}: {why} (kind {kind})")
}
