//! Programs with known figures, and the two that times are measured on.

use crate::second::table::{CALL, IRMOVQ, JXX, OPQ, RMMOVQ};

/// The listing of source document 001, in 256 bytes.
pub fn listing_001() -> Vec<u8> {
    let mut image = vec![0; 256];
    let code = concat!(
        "30f20900000000000000", // 0x000 irmovq $9, %rdx
        "30f31500000000000000", // 0x00a irmovq $21, %rbx
        "6123",                 // 0x014 subq %rdx, %rbx
        "30f48000000000000000", // 0x016 irmovq $128, %rsp
        "40436400000000000000", // 0x020 rmmovq %rsp, 100(%rbx)
        "a02f",                 // 0x02a pushq %rdx
        "b00f",                 // 0x02c popq %rax
        "734000000000000000",   // 0x02e je done
        "804100000000000000",   // 0x037 call proc
        "00",                   // 0x040 done: halt
        "90",                   // 0x041 proc: ret
    );
    lay(&mut image, 0, &from_hex(code));
    image
}

/// The program of CS:APP's figure 4.8, in 512 bytes.
pub fn figure_4_8() -> Vec<u8> {
    let mut image = vec![0; 512];
    let code = concat!(
        "30f40002000000000000", // 0x000 irmovq stack, %rsp
        "803800000000000000",   // 0x00a call main
        "00",                   // 0x013 halt
        "00000000",
        "0d000d000d000000", // 0x018 array:
        "c000c000c0000000",
        "000b000b000b0000",
        "00a000a000a00000",
        "30f71800000000000000", // 0x038 main: irmovq array, %rdi
        "30f60400000000000000", // 0x042 irmovq $4, %rsi
        "805600000000000000",   // 0x04c call sum
        "90",                   // 0x055 ret
        "30f80800000000000000", // 0x056 sum: irmovq $8, %r8
        "30f90100000000000000", // 0x060 irmovq $1, %r9
        "6300",                 // 0x06a xorq %rax, %rax
        "6266",                 // 0x06c andq %rsi, %rsi
        "708700000000000000",   // 0x06e jmp test
        "50a70000000000000000", // 0x077 loop: mrmovq (%rdi), %r10
        "60a0",                 // 0x081 addq %r10, %rax
        "6087",                 // 0x083 addq %r8, %rdi
        "6196",                 // 0x085 subq %r9, %rsi
        "747700000000000000",   // 0x087 test: jne loop
        "90",                   // 0x090 ret
    );
    lay(&mut image, 0, &from_hex(code));
    image
}

/// The listing of source document 004, its array of four words and all, in 256
/// bytes.
pub fn listing_004() -> Vec<u8> {
    length_counting(4, 256)
}

/// The listing of 004 stretched to 400 elements, in 4,096 bytes.
pub fn stretched_004() -> Vec<u8> {
    length_counting(400, 4_096)
}

/// The length-counting program over an array of so many words and a zero, the
/// stack at the end of memory.
fn length_counting(elements: usize, size: usize) -> Vec<u8> {
    const WORDS: [u64; 4] = [
        0x000d_000d_000d_000d,
        0x00c0_00c0_00c0_00c0,
        0x0b00_0b00_0b00_0b00,
        0xa000_a000_a000_a000,
    ];
    let array = 0x18;
    let main = array + 8 * (elements + 1);
    let length = main + 20;
    let mut image = vec![0; size];
    let init = [irmovq(4, size as u64), jump(CALL, 0, main), vec![0x00]];
    lay(&mut image, 0, &init.concat());
    for place in 0..elements {
        lay(
            &mut image,
            array + 8 * place,
            &WORDS[place % 4].to_le_bytes(),
        );
    }
    let call_length = [irmovq(7, array as u64), jump(CALL, 0, length), vec![0x90]];
    lay(&mut image, main, &call_length.concat());
    lay(&mut image, length, &length_function(length));
    image
}

/// The listing's length function, at its address.
fn length_function(at: usize) -> Vec<u8> {
    let repeat = at + 0x33;
    let done = at + 0x4c;
    let load = from_hex("50270000000000000000"); // mrmovq (%rdi), %rdx
    let test = from_hex("6222"); // andq %rdx, %rdx
    [
        irmovq(8, 1),
        irmovq(9, 8),
        irmovq(0, 0),
        load.clone(),
        test.clone(),
        jump(JXX, 3, done),
        from_hex("6080"), // addq %r8, %rax
        from_hex("6097"), // addq %r9, %rdi
        load,
        test,
        jump(JXX, 4, repeat),
        vec![0x90],
    ]
    .concat()
}

/// A loop that walks over half of 4,096 bytes and stores a word at each turn.
pub fn loop_of_stores(turns: u64) -> Vec<u8> {
    let mut image = vec![0; 4_096];
    let setup = [
        irmovq(8, 8),
        irmovq(9, 0x7f8),
        irmovq(10, 1),
        irmovq(1, turns),
        irmovq(3, 0),
    ]
    .concat();
    let repeat = setup.len();
    let body = [
        vec![RMMOVQ << 4, 0x13],
        0x800_u64.to_le_bytes().to_vec(),
        vec![OPQ << 4, 0x83],     // addq %r8, %rbx
        vec![OPQ << 4 | 2, 0x93], // andq %r9, %rbx
        vec![OPQ << 4 | 1, 0xa1], // subq %r10, %rcx
        jump(JXX, 4, repeat),
        vec![0x00],
    ]
    .concat();
    lay(&mut image, 0, &setup);
    lay(&mut image, repeat, &body);
    image
}

fn irmovq(register: u8, constant: u64) -> Vec<u8> {
    let mut bytes = vec![IRMOVQ << 4, 0xf0 | register];
    bytes.extend(constant.to_le_bytes());
    bytes
}

fn jump(code: u8, function: u8, target: usize) -> Vec<u8> {
    let mut bytes = vec![code << 4 | function];
    bytes.extend((target as u64).to_le_bytes());
    bytes
}

fn lay(image: &mut [u8], at: usize, bytes: &[u8]) {
    image[at..at + bytes.len()].copy_from_slice(bytes);
}

/// Bytes from hex digits; blanks are passed over.
///
/// # Panics
/// On anything that is not a hex digit: texts here are part of the source.
pub fn from_hex(text: &str) -> Vec<u8> {
    let digits: Vec<u8> = text
        .chars()
        .filter(|c| !c.is_whitespace())
        .map(|c| c.to_digit(16).expect("a hex digit") as u8)
        .collect();
    digits
        .chunks(2)
        .map(|pair| pair[0] << 4 | pair[1])
        .collect()
}
