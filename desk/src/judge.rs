//! `desk peaks`: replays an image, and holds the filed peak against the raw one.

use crate::inspect::Source;
use crate::replaying::{self, Given};
use crate::report;
use crate::Fault;
use desk::engine;
use desk::second;
use desk::second::peaks::LONGEST;
use std::path::PathBuf;

/// One day as the command line asks for it.
pub struct Asked {
    pub image: PathBuf,
    /// Where the image is a listing: the size of memory.
    pub listing: Option<u64>,
    pub table: u64,
    pub length: u64,
    pub filed: u64,
    pub second: bool,
}

/// What the program y86run gives its replay.
const AS_Y86RUN: Given = Given {
    start: 0,
    codes: 4,
    budget: 4_000,
    program: None,
    window: None,
};

/// The result words: good samples, peak, place, failed, sum, the mean's bits
/// and the comparison.
type Words = [u64; 7];

/// The text to show for a day, and the exit status.
pub fn day(asked: &Asked) -> Result<(String, u8), Fault> {
    let image = Source::image(&asked.image, asked.listing)?;
    let (mut memory, mut registers) = (image.bytes.clone(), [0; 120]);
    let told = replaying::replay(asked.second, &mut memory, &mut registers, &AS_Y86RUN)
        .map_err(|_| refused(5, format!("{}; an image has 1 to 65,536", image.says())))?;
    let words =
        judged(asked, &memory).map_err(|number| refused(number, why(number, asked, &memory)))?;
    let ended = report::ending(&told, &AS_Y86RUN, &memory);
    Ok((text(&words, asked, &memory, &ended), exit_status(&words)))
}

/// The day by the exported function, or by the second program.
fn judged(asked: &Asked, memory: &[u8]) -> Result<Words, u64> {
    let (table, length, filed) = (asked.table, asked.length, asked.filed);
    if asked.second {
        let day = second::peaks::day(memory, table, length, filed)?;
        return Ok(day.words());
    }
    let mut block = [0; 56];
    match engine::peaks(memory, &mut block, table, length, filed) {
        0 => Ok(engine::words(&block)),
        number => Err(number),
    }
}

fn refused(number: u64, why: String) -> Fault {
    Fault::new(Fault::REFUSED, format!("refused ({number}): {why}"))
}

/// What a refusal of the day means, in words.
fn why(number: u64, asked: &Asked, memory: &[u8]) -> String {
    let size = memory.len();
    match number {
        1 => format!(
            "the length is {}; a day has 1 to {LONGEST} words",
            asked.length
        ),
        2 => format!(
            "a table of {} words at {} does not lie inside the {size} bytes of memory",
            asked.length, asked.table
        ),
        _ => format!(
            "a filed peak at {} does not lie inside the {size} bytes of memory",
            asked.filed
        ),
    }
}

/// 0 where the filed peak is at the raw one, 1 below, 2 above, 3 where it
/// cannot be compared, 4 where no sample is good.
fn exit_status(words: &Words) -> u8 {
    match words[6] {
        2 => 0,
        1 => 1,
        3 => 2,
        4 => 3,
        _ => 4,
    }
}

fn text(words: &Words, asked: &Asked, memory: &[u8], ended: &str) -> String {
    let [good, peak, place, failed, sum, bits, comparison] = *words;
    let filed = second::word::load(memory, asked.filed).expect("it was inside");
    let verdict = match comparison {
        1 => format!(
            "the filed peak {filed} is BELOW the raw peak {peak}, by {}",
            peak - filed
        ),
        2 => format!("the filed peak {filed} is AT the raw peak"),
        3 => format!(
            "the filed peak {filed} is ABOVE the raw peak {peak}, by {}",
            filed - peak
        ),
        4 => format!("the filed peak {filed} cannot be compared: it is not below 2^32"),
        _ => "no sample is good: there is no raw peak to compare with".into(),
    };
    let mut text = format!("{ended}verdict  {verdict}\n");
    if good > 0 {
        text += &format!("peak     {peak}, first at place {place} of the table\n");
        text += &format!("mean     {}\n", f64::from_bits(bits));
    }
    text += &format!("samples  {good} good, {failed} failed\nsum      {sum}\n");
    text
}
