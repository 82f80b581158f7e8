//! Which bytes play a part in a plain run (#112): those that it fetches as
//! instruction bytes, or reads as data.

use super::fetch::{fetch, looked_at, Parts};
use super::machine::{Status, RSP};
use super::memory::Memory;
use super::plain::Plain;
use super::table::{MRMOVQ, POPQ, RET};
use std::ops::Range;

/// For each byte of memory, whether one of the next instructions, at most so
/// many, fetches or reads it. Memory and record are left as the last of them
/// left them.
pub fn played<'a>(machine: &mut Plain, memory: impl Into<Memory<'a>>, most: u64) -> Vec<bool> {
    let mut memory = memory.into();
    let mut played = vec![false; memory.extent().size as usize];
    for _ in 0..most {
        if machine.status != Status::Aok {
            break;
        }
        let (window, address) = (machine.window, machine.address);
        mark(&mut played, looked_at(&memory, window, address));
        if let Ok(parts) = fetch(&memory, window, address) {
            mark(&mut played, read(machine, &memory, &parts));
        }
        machine.perform(&mut memory);
    }
    played
}

/// The bytes that play no part, as ranges that ascend and do not touch.
pub fn no_part(played: &[bool]) -> Vec<Range<usize>> {
    let mut ranges: Vec<Range<usize>> = Vec::new();
    for (at, _) in played.iter().enumerate().filter(|(_, played)| !**played) {
        match ranges.last_mut() {
            Some(range) if range.end == at => range.end = at + 1,
            _ => ranges.push(at..at + 1),
        }
    }
    ranges
}

fn mark(played: &mut [bool], bytes: Range<u64>) {
    played[bytes.start as usize..bytes.end as usize].fill(true);
}

/// The bytes that an instruction reads as data, by the record as it stands
/// before it; a load outside memory, or across the seam, reads none.
fn read(before: &Plain, memory: &Memory, parts: &Parts) -> Range<u64> {
    let at = match parts.code {
        MRMOVQ => before.registers.get(parts.rb).wrapping_add(parts.constant),
        POPQ | RET => before.registers.get(RSP),
        _ => return 0..0,
    };
    match memory.load(at) {
        Some(_) => at..at + 8,
        None => 0..0,
    }
}
