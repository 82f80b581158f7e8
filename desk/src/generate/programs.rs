//! The programs of the generated cases, kind by kind.

use super::Random;
use crate::second::machine::{MEMORY_LIMIT, PROGRAM_LIMIT};
use crate::second::table::{
    row_of, RegisterByte, CALL, CMOV, HALT, IADDQ, IRMOVQ, JXX, MRMOVQ, NOP, OPQ, POPQ, PUSHQ, RET,
    RMMOVQ,
};
use crate::second::{REGISTER_COUNT, RSP};

/// A program: its image, its registers, and where it starts.
pub struct Program {
    pub image: Vec<u8>,
    pub registers: [u64; REGISTER_COUNT],
    pub start: u64,
    /// Where the code ends that was laid over the image, cut at its end.
    pub code_end: usize,
}

/// Codes in the frequency in which a soup holds them.
const SOUP: [u8; 26] = [
    NOP, CMOV, CMOV, IRMOVQ, IRMOVQ, IRMOVQ, RMMOVQ, RMMOVQ, MRMOVQ, MRMOVQ, MRMOVQ, OPQ, OPQ, OPQ,
    OPQ, JXX, JXX, CALL, RET, PUSHQ, PUSHQ, POPQ, POPQ, POPQ, IADDQ, IADDQ,
];

/// Bytes that make short instructions in almost any order.
const LEANING: [u8; 16] = [
    0x10, 0x20, 0x21, 0x24, 0x60, 0x61, 0x62, 0x63, 0x90, 0xa0, 0xb0, 0x0f, 0x0f, 0x1f, 0x4f, 0x03,
];

/// Codes of a straight line, which leaves rsp and the program address alone.
const LINE: [u8; 9] = [NOP, CMOV, IRMOVQ, IADDQ, OPQ, OPQ, OPQ, RMMOVQ, MRMOVQ];

/// Code being written, instruction after instruction.
pub(super) struct Code {
    /// The address of the first byte.
    origin: u64,
    pub(super) bytes: Vec<u8>,
    /// What the fillers are taken from.
    fillers: Random,
}

impl Code {
    pub(super) fn at(random: &mut Random, origin: u64) -> Code {
        Code {
            origin,
            bytes: Vec::new(),
            fillers: Random::new(random.word()),
        }
    }

    /// The half of a register byte that names nothing: F, or anything else.
    pub(super) fn filler(&mut self) -> u8 {
        let any = self.fillers.below(16) as u8;
        self.fillers.pick(&[15, 15, 15, 0, 8, 14, any])
    }

    /// The address of the next instruction written.
    pub(super) fn here(&self) -> u64 {
        self.origin.wrapping_add(self.bytes.len() as u64)
    }

    /// The address after the code, cut at the size of the image.
    pub(super) fn end(&self, size: usize) -> usize {
        size.min(self.here() as usize)
    }

    /// Writes an instruction with the parts its code has.
    pub(super) fn write(&mut self, (code, function): (u8, u8), (ra, rb): (u8, u8), constant: u64) {
        let row = row_of(code);
        self.bytes.push(code << 4 | function);
        match row.register_byte {
            RegisterByte::Absent => {}
            RegisterByte::Both => self.bytes.push(ra << 4 | rb),
            RegisterByte::OnlyB => {
                let filler = self.filler();
                self.bytes.push(filler << 4 | rb);
            }
            RegisterByte::OnlyA => {
                let filler = self.filler();
                self.bytes.push(ra << 4 | filler);
            }
        }
        if row.length > 8 {
            self.bytes.extend(constant.to_le_bytes());
        }
    }

    pub(super) fn irmovq(&mut self, constant: u64, rb: u8) {
        self.write((IRMOVQ, 0), (0, rb), constant);
    }

    pub(super) fn iaddq(&mut self, constant: u64, rb: u8) {
        self.write((IADDQ, 0), (0, rb), constant);
    }

    pub(super) fn opq(&mut self, function: u8, ra: u8, rb: u8) {
        self.write((OPQ, function), (ra, rb), 0);
    }

    pub(super) fn pushq(&mut self, ra: u8) {
        self.write((PUSHQ, 0), (ra, 0), 0);
    }

    pub(super) fn popq(&mut self, ra: u8) {
        self.write((POPQ, 0), (ra, 0), 0);
    }

    pub(super) fn jump(&mut self, function: u8, target: u64) {
        self.write((JXX, function), (0, 0), target);
    }

    pub(super) fn call(&mut self, target: u64) {
        self.write((CALL, 0), (0, 0), target);
    }

    pub(super) fn plain(&mut self, code: u8) {
        self.write((code, 0), (0, 0), 0);
    }

    /// Lays the code over an image, cut where the image ends.
    pub(super) fn lay(&self, image: &mut [u8]) {
        let places = image.iter_mut().skip(self.origin as usize);
        for (place, byte) in places.zip(&self.bytes) {
            *place = *byte;
        }
    }
}

/// Bytes without any plan, and a start near them.
pub fn random_bytes(random: &mut Random, size: usize) -> Program {
    let mut image = random.bytes(size);
    let leaning = random.below(3);
    for byte in &mut image {
        // Bytes that are in the table let it run a little further.
        match leaning {
            1 if random.chance(1, 2) => {
                let code = random.pick(&SOUP);
                *byte = code << 4 | random.below(u64::from(row_of(code).functions)) as u8;
            }
            2 if random.chance(7, 8) => *byte = random.pick(&LEANING),
            _ => {}
        }
    }
    let last = size as u64 - 1;
    let anywhere = random.below(size as u64);
    let start = random.pick(&[anywhere, anywhere, anywhere, last]);
    Program {
        image,
        registers: registers(random, size),
        start,
        code_end: size,
    }
}

/// Valid instructions in any order; jumps and calls go to some of them.
pub fn soup(random: &mut Random, size: usize) -> Program {
    let mut image = background(random, size);
    let anywhere = random.below(size as u64);
    let start = random.pick(&[0, 0, 0, anywhere]);
    let (code, addresses) = soup_code(random, size, start);
    let mut registers = registers(random, size);
    if random.chance(3, 4) {
        registers[usize::from(RSP)] = ways_back(random, &mut image, &addresses);
    }
    code.lay(&mut image);
    if random.chance(1, 4) {
        damage(random, &mut image);
    }
    Program {
        image,
        registers,
        start,
        code_end: code.end(size),
    }
}

/// Fills the last half with addresses of instructions, so that a ret goes on
/// in the program, and gives a top of the stack among them.
fn ways_back(random: &mut Random, image: &mut [u8], addresses: &[u64]) -> u64 {
    let half = image.len() / 16 * 8;
    for word in image[half..].chunks_exact_mut(8) {
        word.copy_from_slice(&random.pick(addresses).to_le_bytes());
    }
    let words = (image.len() - half) as u64 / 8;
    half as u64 + 8 * random.below(words / 2 + 1)
}

/// The code of a soup, and the addresses of its instructions.
fn soup_code(random: &mut Random, size: usize, start: u64) -> (Code, Vec<u64>) {
    let count = 1 + random.below(60) as usize;
    let codes: Vec<u8> = (0..count).map(|_| random.pick(&SOUP)).collect();
    let mut addresses = Vec::with_capacity(count);
    let mut next = start;
    for code in &codes {
        addresses.push(next);
        next += u64::from(row_of(*code).length);
    }
    let mut code = Code::at(random, start);
    for (place, number) in codes.iter().enumerate() {
        let function = random.below(u64::from(row_of(*number).functions)) as u8;
        let constant = match *number {
            JXX | CALL => target(random, size, &addresses[place..], &addresses),
            RMMOVQ | MRMOVQ if random.chance(3, 4) => random.below(64),
            IADDQ => addend(random),
            _ => value(random, size),
        };
        let named = (register(random), register(random));
        code.write((*number, function), named, constant);
    }
    (code, addresses)
}

/// Where a jump of a soup goes: mostly on, sometimes back, seldom elsewhere.
fn target(random: &mut Random, size: usize, on: &[u64], all: &[u64]) -> u64 {
    match random.below(16) {
        0 => value(random, size),
        1 | 2 => random.pick(all),
        _ => random.pick(on),
    }
}

/// A loop around a body with pushes, pops, loads, stores and two functions.
pub fn loops(random: &mut Random, size: usize) -> Program {
    let mut image = background(random, size);
    let stack = size as u64 / 8 * 8;
    let mut code = Code::at(random, 0);
    let first = code.here();
    saving_function(random, &mut code);
    let second = code.here();
    repeating_function(&mut code);
    let start = code.here();
    code.irmovq(stack, RSP);
    code.irmovq(1 + random.below(12), 1);
    code.irmovq(1, 8);
    code.irmovq(random.below(stack / 2 + 1), 3);
    let again = code.here();
    for _ in 0..1 + random.below(8) {
        loop_item(random, &mut code, first, second);
    }
    code.opq(1, 8, 1);
    code.jump(random.pick(&[4, 6]), again);
    code.plain(HALT);
    code.lay(&mut image);
    Program {
        image,
        registers: registers(random, size),
        start: start.min(size as u64 - 1),
        code_end: code.end(size),
    }
}

fn loop_item(random: &mut Random, code: &mut Code, first: u64, second: u64) {
    match random.below(8) {
        0 | 1 => line_item(random, code, 3),
        2 => code.opq(
            random.below(4) as u8,
            random.pick(&[0, 2, 6]),
            random.pick(&[0, 2, 6]),
        ),
        3 => {
            code.pushq(random.pick(&[0, 2, 4, 8]));
            code.popq(random.pick(&[0, 2, 6, 7]));
        }
        4 => code.call(first),
        5 => {
            code.irmovq(random.below(4), 7);
            code.call(second);
        }
        6 => {
            // A jump over one instruction, taken or not.
            let function = random.below(7) as u8;
            let over = code.here() + 9 + 2;
            code.jump(function, over);
            code.opq(3, 2, 0);
        }
        _ => code.write((CMOV, random.below(7) as u8), (0, 2), 0),
    }
}

/// A function that keeps a register on the stack.
fn saving_function(random: &mut Random, code: &mut Code) {
    let kept = random.pick(&[0, 2, 5]);
    code.pushq(kept);
    line_item(random, code, 3);
    code.popq(kept);
    code.plain(RET);
}

/// A function that calls itself while rdi, less 1 each time, is above 0.
fn repeating_function(code: &mut Code) {
    let at = code.here();
    code.opq(1, 8, 7);
    code.jump(1, at + 2 + 9 + 9);
    code.call(at);
    code.plain(RET);
}

/// One instruction that leaves the way of the program alone.
fn line_item(random: &mut Random, code: &mut Code, base: u8) {
    let number = random.pick(&LINE);
    let function = random.below(u64::from(row_of(number).functions)) as u8;
    let (ra, rb) = (random.pick(&[0, 2, 6]), random.pick(&[0, 2, 6]));
    match number {
        RMMOVQ | MRMOVQ => code.write((number, 0), (ra, base), 8 * random.below(4)),
        _ => code.write((number, function), (ra, rb), random.below(300)),
    }
}

/// Code, stack and data at the ends of memory and of the number line.
pub fn ends(random: &mut Random, size: usize) -> Program {
    let mut image = background(random, size);
    let end = size as u64;
    let back = 1 + random.below(40).min(end - 1);
    let origin = random.pick(&[0, end - back, end - back]);
    let mut code = Code::at(random, origin);
    let mut earlier = RSP;
    for _ in 0..1 + random.below(6) {
        let number = random.pick(&[
            IRMOVQ, RMMOVQ, MRMOVQ, PUSHQ, POPQ, CALL, RET, JXX, OPQ, IADDQ,
        ]);
        let function = random.below(u64::from(row_of(number).functions)) as u8;
        // What the one before it may have loaded is often used.
        let rb = register(random);
        let rb = random.pick(&[rb, earlier]);
        let ra = register(random);
        code.write((number, function), (ra, rb), near_end(random, size));
        earlier = ra;
    }
    code.lay(&mut image);
    let near = near_end(random, size).min(end - 1);
    let start = random.pick(&[origin, origin, origin, near]);
    let mut registers = [0; REGISTER_COUNT];
    for register in &mut registers {
        *register = near_end(random, size);
    }
    if random.chance(1, 2) {
        lay_way_to_an_end(random, &mut image);
    }
    Program {
        image,
        registers,
        start,
        code_end: code.end(size),
    }
}

/// Puts a word at the end of memory that leads to an end when a ret takes it.
fn lay_way_to_an_end(random: &mut Random, image: &mut [u8]) {
    let word = near_end(random, image.len());
    let at = image.len().saturating_sub(8);
    for (place, byte) in image[at..].iter_mut().zip(word.to_le_bytes()) {
        *place = byte;
    }
}

/// A number near one of the ends that matter.
fn near_end(random: &mut Random, size: usize) -> u64 {
    let limits = random.pick(&[PROGRAM_LIMIT, MEMORY_LIMIT]) as u64;
    let middle = random.pick(&[0, 0, size as u64, size as u64, 1 << 63, limits]);
    middle.wrapping_add(random.below(34)).wrapping_sub(17)
}

/// Code, stack and data around 4,096 and at the end of an image of 4,096 bytes
/// or more.
pub fn large(random: &mut Random, size: usize) -> Program {
    let mut image = background(random, size);
    let around = |random: &mut Random, before: u64, behind: u64| {
        let middle = random.pick(&[PROGRAM_LIMIT, size]) as u64;
        middle + random.below(behind) - before
    };
    let origin = around(random, 60, 58).min(size as u64 - 1);
    let mut code = Code::at(random, origin);
    code.irmovq(around(random, 12, 30), RSP);
    for _ in 0..1 + random.below(8) {
        let (named, data) = (register(random), around(random, 12, 16));
        match random.below(8) {
            0..=2 => code.write((RMMOVQ, 0), (named, 5), data),
            3 => {
                code.write((MRMOVQ, 0), (named, 5), data);
                code.opq(random.below(4) as u8, named, register(random));
            }
            4 => code.pushq(named),
            5 => code.popq(named),
            6 => code.opq(random.below(4) as u8, named, register(random)),
            _ => called_piece(random, &mut code),
        }
    }
    code.jump(random.below(7) as u8, around(random, 20, 24));
    code.lay(&mut image);
    let mut registers = registers(random, size);
    registers[5] = 0;
    Program {
        image,
        registers,
        start: origin,
        code_end: code.end(size),
    }
}

/// A call of the next instruction, or a ret.
fn called_piece(random: &mut Random, code: &mut Code) {
    match random.chance(1, 2) {
        true => code.call(code.here() + 9),
        false => code.plain(RET),
    }
}

/// Short pieces, each with a charge, and at last one of the ways to stop.
pub fn charges(random: &mut Random, size: usize) -> Program {
    let mut image = background(random, size);
    let mut code = Code::at(random, 0);
    let stack = size as u64 / 8 * 8;
    code.irmovq(stack, RSP);
    for _ in 0..1 + random.below(10) {
        match random.below(4) {
            0 | 1 => load_and_use(random, &mut code, size),
            2 => jump_piece(random, &mut code),
            _ => return_piece(random, &mut code),
        }
    }
    stop_piece(random, &mut code, size);
    code.lay(&mut image);
    Program {
        image,
        registers: registers(random, size),
        start: 0,
        code_end: code.end(size),
    }
}

/// A load of a register and one of the instructions that use it, or do not.
pub(super) fn load_and_use(random: &mut Random, code: &mut Code, size: usize) {
    let loaded = register(random);
    let other = register(random);
    let at = random.below(size.saturating_sub(7).max(1) as u64);
    if random.chance(1, 2) {
        code.irmovq(at, other);
        code.write((MRMOVQ, 0), (loaded, other), 0);
    } else {
        code.pushq(other);
        code.popq(loaded);
    }
    if random.chance(1, 8) {
        code.plain(NOP);
    }
    let function = random.below(4) as u8;
    match random.below(12) {
        0 => code.opq(function, loaded, other),
        1 => code.opq(function, other, loaded),
        6 => code.iaddq(addend(random), random.pick(&[loaded, loaded, other])),
        2 => code.write((CMOV, random.below(7) as u8), (loaded, other), 0),
        3 => code.write((MRMOVQ, 0), (other, loaded), at),
        4 => code.pushq(loaded),
        7 => code.pushq(random.pick(&[other, RSP])),
        8 => code.call(code.here() + 9),
        9 => code.write((RMMOVQ, 0), (loaded, loaded), at),
        10 => code.write((RMMOVQ, 0), (other, loaded), at),
        _ => code.write((RMMOVQ, 0), (loaded, other), at),
    }
}

/// One of the instructions that set the codes.
pub(super) fn set_codes(random: &mut Random, code: &mut Code) {
    match random.below(3) {
        0 => code.iaddq(addend(random), register(random)),
        _ => code.opq(random.below(4) as u8, register(random), register(random)),
    }
}

/// A constant for iaddq: often an end of the signed numbers, or a small step.
fn addend(random: &mut Random) -> u64 {
    let (any, few) = (random.word(), random.below(17).wrapping_sub(8));
    random.pick(&[1 << 63, (1 << 63) - 1, few, few, any])
}

/// A jump behind an instruction that sets the codes or not: over one
/// instruction, to the next one, back to one that leads on, or, seldom, far
/// away.
pub(super) fn jump_piece(random: &mut Random, code: &mut Code) {
    if random.chance(2, 3) {
        set_codes(random, code);
    }
    let function = random.below(7) as u8;
    let here = code.here();
    match random.below(16) {
        0 => code.jump(function, 1 << 63 | random.pick(&[here, here + 10])),
        1..=3 => code.jump(function, here + 9),
        4..=8 => {
            code.jump(0, here + 18);
            code.jump(0, here + 27);
            code.jump(function, here + 9);
        }
        _ => {
            code.jump(function, here + 10);
            code.plain(random.pick(&[HALT, NOP, RET, 0xd]));
        }
    }
}

/// A ret to the instruction after it; with a load of rsp just before, often.
fn return_piece(random: &mut Random, code: &mut Code) {
    let holder = random.pick(&[0, 1, 2, 3]);
    let through_rsp = random.chance(1, 2);
    let nops = random.below(3);
    let length = 10 + 2 + if through_rsp { 4 } else { 0 } + nops + 1;
    code.irmovq(code.here() + length, holder);
    code.pushq(holder);
    for _ in 0..nops {
        code.plain(NOP);
    }
    if through_rsp {
        code.pushq(RSP);
        code.popq(RSP);
    }
    code.plain(RET);
}

/// One of the ways to stop.
pub(super) fn stop_piece(random: &mut Random, code: &mut Code, size: usize) {
    let outside = random.pick(&[size as u64, u64::MAX, u64::MAX - 7, 1 << 63]);
    let far = random.pick(&[outside, (size as u64).wrapping_sub(7)]);
    match random.below(15) {
        0 => code.plain(HALT),
        1 => code.jump(0, outside),
        2 => code.bytes.push(0xd0 + random.below(48) as u8),
        10 => code.bytes.push(0xc1 + random.below(15) as u8),
        3 => code.bytes.push(0x60 | (4 + random.below(12) as u8)),
        4 => code.bytes.extend([0x60, 0xf0]),
        5 => named_none(random, code),
        6 => code.jump(0, size as u64 - 1),
        7 | 8 => {
            code.irmovq(far, 2);
            code.write((random.pick(&[RMMOVQ, MRMOVQ]), 0), (0, 2), 0);
            set_codes(random, code);
        }
        9 => code.bytes.extend([0x70]),
        _ => {
            let top = random.pick(&[far, far.wrapping_add(8), 0, 7]);
            code.irmovq(top, RSP);
            let last = random.pick(&[PUSHQ, POPQ, CALL, RET]);
            code.write((last, 0), (0, 0), 0);
            set_codes(random, code);
        }
    }
}

/// An instruction whose named register is 15, with any filler.
fn named_none(random: &mut Random, code: &mut Code) {
    let number = random.pick(&[IRMOVQ, IADDQ, PUSHQ, POPQ]);
    code.write((number, 0), (15, 15), random.word());
}

/// A program that stores into its own bytes, often just ahead of the store.
pub fn self_modifying(random: &mut Random, size: usize) -> Program {
    let mut image = background(random, size);
    let mut code = Code::at(random, 0);
    code.irmovq(size as u64 / 8 * 8, RSP);
    for _ in 0..1 + random.below(6) {
        let behind = code.here() + 30 + random.below(36);
        let word = patch(random);
        code.irmovq(word, 0);
        code.irmovq(random.below(40), 3);
        let base = random.pick(&[3, 3, 5]);
        code.write((RMMOVQ, 0), (0, base), behind.wrapping_sub(12));
        for _ in 0..random.below(6) {
            patched_item(random, &mut code, size);
        }
    }
    code.jump(random.below(7) as u8, 10);
    code.plain(HALT);
    code.lay(&mut image);
    let mut registers = registers(random, size);
    registers[5] = random.below(24);
    Program {
        image,
        registers,
        start: 0,
        code_end: code.end(size),
    }
}

/// What stands behind a store into the program.
fn patched_item(random: &mut Random, code: &mut Code, size: usize) {
    match random.below(8) {
        0..=2 => code.plain(NOP),
        3 | 4 => code.opq(random.below(4) as u8, 1, 2),
        5 => code.write((CMOV, random.below(7) as u8), (1, 2), 0),
        6 => load_and_use(random, code, size),
        _ => return_piece(random, code),
    }
}

/// Eight bytes that make instructions, mostly.
pub(super) fn patch(random: &mut Random) -> u64 {
    match random.below(4) {
        0 => random.word(),
        1 => 0x1010_1010_1010_1010,
        2 => 0x0010_1210_2212_6010 << random.below(16),
        _ => 0x1060_1210_6021_1000 >> random.below(16),
    }
}

/// What lies where the program does not.
pub(super) fn background(random: &mut Random, size: usize) -> Vec<u8> {
    match random.below(4) {
        0 => random.bytes(size),
        1 => vec![0x10; size],
        _ => vec![0; size],
    }
}

/// Changes a few bytes.
fn damage(random: &mut Random, image: &mut [u8]) {
    for _ in 0..1 + random.below(3) {
        let place = random.below(image.len() as u64) as usize;
        image[place] = random.word() as u8;
    }
}

/// A register number; few of them, so that instructions meet.
fn register(random: &mut Random) -> u8 {
    match random.below(8) {
        0 => random.below(15) as u8,
        1 => RSP,
        _ => random.pick(&[0, 1, 2, 3]),
    }
}

/// Values for all registers; rsp is an address inside, mostly.
pub(super) fn registers(random: &mut Random, size: usize) -> [u64; REGISTER_COUNT] {
    let mut registers = [0; REGISTER_COUNT];
    if random.chance(7, 8) {
        for register in &mut registers {
            *register = value(random, size);
        }
    }
    if random.chance(3, 4) {
        registers[usize::from(RSP)] = random.below(size as u64 + 1) & !7;
    }
    registers
}

/// A value that is an address inside, near an end, or anything.
fn value(random: &mut Random, size: usize) -> u64 {
    match random.below(8) {
        0..=3 => random.below(size as u64),
        4 => random.below(16),
        5 => near_end(random, size),
        6 => random.pick(&[0, 1, 1 << 63, (1 << 63) - 1, u64::MAX, u64::MAX - 7]),
        _ => random.word(),
    }
}
