//! `desk list`: an image written as a listing; and, for reports, the instruction
//! at an address.

use crate::inspect::Source;
use crate::Fault;
use desk::engine::{self, WriteListing};
use desk::second;
use std::path::PathBuf;

/// The most bytes that an instruction has.
const LONGEST: u64 = 10;

/// One listing to write, as the command line asks for it.
pub struct Asked {
    pub image: PathBuf,
    /// Where the image is a listing: the size of memory.
    pub listing: Option<u64>,
    pub from: u64,
    /// Up to the end of the image, where nothing is given.
    pub to: Option<u64>,
    pub second: bool,
}

/// The listing to show.
pub fn list(asked: &Asked) -> Result<String, Fault> {
    let image = Source::image(&asked.image, asked.listing)?;
    let size = image.bytes.len() as u64;
    let (from, to) = (asked.from, asked.to.unwrap_or(size));
    let text = engine::listing(writer(asked.second), &image.bytes, from, to);
    text.map(ascii).map_err(|number| {
        let why = match number {
            1 => format!("{}; an image has 1 to 65,536", image.says()),
            _ => range(from, to, size),
        };
        Fault::new(Fault::REFUSED, format!("refused ({number}): {why}"))
    })
}

/// What is wrong with a range.
fn range(from: u64, to: u64, size: u64) -> String {
    match from > to {
        true => format!("from {from} to {to}: the end is below the start"),
        false => format!("up to {to}; the image has {size} bytes"),
    }
}

/// The exported writer, or the second program's.
pub fn writer(second: bool) -> WriteListing {
    match second {
        true => second::writing::write_listing,
        false => engine::write_listing,
    }
}

/// The instruction at an address, as a report shows it beside the address.
pub fn instruction(write: WriteListing, memory: &[u8], address: u64) -> String {
    let size = memory.len() as u64;
    if address >= size {
        return "outside memory".into();
    }
    // No instruction that memory holds whole crosses this end.
    let end = size.min(address + LONGEST);
    let text = engine::listing(write, memory, address, end).map_or_else(|_| String::new(), ascii);
    let first = text.lines().next().unwrap_or("");
    match *first.split('\t').collect::<Vec<_>>() {
        [_, _, remark] => remark.into(),
        [_, byte] => format!("{byte} starts no instruction"),
        _ => "not listed".into(),
    }
}

fn ascii(text: Vec<u8>) -> String {
    String::from_utf8(text).expect("a listing is ASCII")
}
