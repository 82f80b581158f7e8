//! Programs that patch themselves (#113): with a window over their code they
//! run as the plain engine does, whatever stands behind a store.

use super::programs::{
    background, jump_piece, load_and_use, patch, registers, set_codes, stop_piece, Code, Program,
};
use super::Random;
use crate::second::table::{HALT, MRMOVQ, NOP, RET, RMMOVQ};
use crate::second::RSP;

/// The register that is 0, so that a constant is an address.
const ZERO: u8 = 5;
/// The register that holds what is stored.
const STORED: u8 = 0;

/// Short pieces, each with a store into the code, and at last one of the ways to
/// stop.
pub fn patching(random: &mut Random, size: usize) -> Program {
    if random.chance(1, 8) {
        return in_a_few_bytes(random, size);
    }
    let mut image = background(random, size);
    let stack = size as u64 / 8 * 8;
    let before = 8 + random.below(30);
    let origin = random.pick(&[0, 0, before]).min(size as u64 - 1);
    let mut code = Code::at(random, origin);
    code.irmovq(stack, RSP);
    for _ in 0..1 + random.below(5) {
        match random.below(12) {
            0 | 1 => counting_loop(random, &mut code),
            2 => pushed_ahead(random, &mut code, stack),
            3 => called_target(random, &mut code, stack),
            4 => patched_return(random, &mut code),
            5 => stored_before(random, &mut code, origin),
            _ => stored_ahead(random, &mut code, size),
        }
    }
    stop_piece(random, &mut code, size);
    code.lay(&mut image);
    let mut registers = registers(random, size);
    registers[usize::from(ZERO)] = 0;
    Program {
        image,
        registers,
        start: origin,
        code_end: code.end(size),
    }
}

/// A program of a few bytes, so that a word covers it and more.
fn in_a_few_bytes(random: &mut Random, size: usize) -> Program {
    let mut image = background(random, size);
    let origin = random.below(size as u64);
    let mut code = Code::at(random, origin);
    for _ in 0..random.below(3) {
        code.pushq(random.pick(&[0, 1, 2, RSP]));
    }
    code.plain(random.pick(&[NOP, NOP, HALT, RET]));
    code.lay(&mut image);
    let mut registers = registers(random, size);
    registers[0] = patch(random);
    registers[1] = 0x1010_1010_1010_1010;
    registers[usize::from(RSP)] = origin + random.below(16);
    Program {
        image,
        registers,
        start: origin,
        code_end: code.end(size),
    }
}

/// A store to where the code begins, or just before it.
fn stored_before(random: &mut Random, code: &mut Code, origin: u64) {
    let word = patch(random);
    code.irmovq(word, STORED);
    let target = (origin + random.below(10)).saturating_sub(8);
    code.write((RMMOVQ, 0), (STORED, ZERO), target);
    set_codes(random, code);
}

/// A loop that rewrites its own constant, once in each turn.
fn counting_loop(random: &mut Random, code: &mut Code) {
    code.irmovq(1 + random.below(3), 1);
    let again = code.here();
    code.irmovq(random.below(9), STORED);
    code.iaddq(1, STORED);
    code.write((RMMOVQ, 0), (STORED, ZERO), again + 2);
    for _ in 0..random.below(3) {
        code.plain(NOP);
    }
    code.iaddq(u64::MAX, 1);
    code.jump(4, again);
}

/// A store of a word to a place near what follows it, and behind it one of the
/// things that the same clock has to give way for.
fn stored_ahead(random: &mut Random, code: &mut Code, size: usize) {
    if random.chance(1, 2) {
        set_codes(random, code);
    }
    let word = patch(random);
    code.irmovq(word, STORED);
    let following = code.here() + 10;
    let place = random.pick(&[0, 0, 1, 2, 9, 10, 11, 18]) + random.below(3);
    let behind = random.below(12);
    let target = random.pick(&[following + place, following + place, following - behind]);
    code.write((RMMOVQ, 0), (STORED, ZERO), target);
    match random.below(6) {
        0 => set_codes(random, code),
        1 => jump_piece(random, code),
        2 => {
            code.write((MRMOVQ, 0), (2, ZERO), random.below(size as u64));
            code.opq(random.below(4) as u8, 2, 3);
        }
        3 => load_and_use(random, code, size),
        4 => code.bytes.extend([random.pick(&[0, 0xd0, 0x64, 0x70])]),
        _ => code.plain(NOP),
    }
    for _ in 0..random.below(10) {
        code.plain(NOP);
    }
}

/// A push into what follows it, near ahead.
fn pushed_ahead(random: &mut Random, code: &mut Code, stack: u64) {
    let word = patch(random);
    code.irmovq(word, STORED);
    let ahead = random.below(6);
    code.irmovq(code.here() + 12 + 8 + ahead, RSP);
    code.pushq(random.pick(&[STORED, STORED, RSP]));
    for _ in 0..8 + ahead {
        code.plain(NOP);
    }
    code.irmovq(stack, RSP);
}

/// A call that writes the address behind it over its target.
fn called_target(random: &mut Random, code: &mut Code, stack: u64) {
    let ahead = random.pick(&[0, 0, 0, 1, 2]);
    // Addresses that begin with a whole instruction, where one is near.
    let begins = |low: u64| [0x10, 0x20, 0x60, 0x90].contains(&low);
    for _ in 0..24 {
        if begins((code.here() + 10 + 9) & 0xff) {
            break;
        }
        code.plain(NOP);
    }
    let target = code.here() + 10 + 9 + random.below(4);
    code.irmovq(target + ahead + 8, RSP);
    code.call(target);
    for _ in 0..12 {
        code.plain(NOP);
    }
    code.irmovq(stack, RSP);
}

/// A store with a ret behind it, at once or after one instruction.
fn patched_return(random: &mut Random, code: &mut Code) {
    let between = random.below(3);
    let place = random.below(4);
    let word = random.pick(&[0x1010_1010_1010_1010, 0x9010_1010_1010_1010]);
    code.irmovq(word, STORED);
    code.irmovq(code.here() + 10 + 2 + 10 + between + 1 + 8, 2);
    code.pushq(2);
    code.write((RMMOVQ, 0), (STORED, ZERO), code.here() + 10 + place);
    for _ in 0..between {
        code.plain(NOP);
    }
    code.plain(RET);
    for _ in 0..8 {
        code.plain(random.pick(&[NOP, NOP, NOP, HALT]));
    }
}
