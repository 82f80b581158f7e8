//! Writing a listing of memory: document 02's #104.

use super::memory::Memory;
use super::fetch::{fetch, Parts};
use super::machine::{check_memory, Refusal, Status, REGISTER_NAMES};
use super::table;

/// The bytes of the block that takes the listing's length.
pub const LENGTH_BYTES: usize = 8;

/// The name of an instruction that was fetched.
fn name(code: u8, function: u8) -> &'static str {
    const MOVES: [&str; 7] = [
        "rrmovq", "cmovle", "cmovl", "cmove", "cmovne", "cmovge", "cmovg",
    ];
    const OPERATIONS: [&str; 4] = ["addq", "subq", "andq", "xorq"];
    const JUMPS: [&str; 7] = ["jmp", "jle", "jl", "je", "jne", "jge", "jg"];
    let function = usize::from(function);
    match code {
        table::NOP => "nop",
        table::CMOV => MOVES[function],
        table::IRMOVQ => "irmovq",
        table::RMMOVQ => "rmmovq",
        table::MRMOVQ => "mrmovq",
        table::OPQ => OPERATIONS[function],
        table::JXX => JUMPS[function],
        table::CALL => "call",
        table::RET => "ret",
        table::PUSHQ => "pushq",
        table::POPQ => "popq",
        table::IADDQ => "iaddq",
        _ => "halt",
    }
}

/// An instruction in CS:APP's notation, its constant in unsigned decimal and
/// never left out.
fn notation(parts: Parts) -> String {
    let name = name(parts.code, parts.function);
    let register = |number: u8| format!("%{}", REGISTER_NAMES[usize::from(number)]);
    let constant = parts.constant;
    let operands = match parts.code {
        table::CMOV | table::OPQ => format!("{}, {}", register(parts.ra), register(parts.rb)),
        table::IRMOVQ | table::IADDQ => format!("${constant}, {}", register(parts.rb)),
        table::RMMOVQ => format!("{}, {constant}({})", register(parts.ra), register(parts.rb)),
        table::MRMOVQ => format!("{constant}({}), {}", register(parts.rb), register(parts.ra)),
        table::JXX | table::CALL => constant.to_string(),
        table::PUSHQ | table::POPQ => register(parts.ra),
        _ => return name.into(),
    };
    format!("{name} {operands}")
}

/// The remark of the instruction that starts at an address; nothing where the
/// byte starts none.
fn remark(memory: &[u8], address: usize) -> Option<String> {
    let only_read = Memory {
        program: memory,
        writable: &mut [],
    };
    match fetch(&only_read, None, address as u64) {
        Ok(parts) => Some(notation(parts)),
        Err(stop) if stop.status == Status::Hlt => Some("halt".into()),
        Err(_) => None,
    }
}

fn line(address: usize, bytes: &[u8], remark: Option<&str>) -> String {
    let digits: String = bytes.iter().map(|byte| format!("{byte:02x}")).collect();
    match remark {
        Some(remark) => format!("{address:x}\t{digits}\t{remark}\n"),
        None => format!("{address:x}\t{digits}\n"),
    }
}

/// The listing of a range inside memory: one instruction a line; a byte that
/// starts none, and each byte of an instruction that crosses the end, by itself.
pub fn listing(memory: &[u8], start: usize, end: usize) -> String {
    let mut text = String::new();
    let mut at = start;
    while at < end {
        let length = usize::from(table::row_of(memory[at] >> 4).length);
        match remark(memory, at) {
            Some(remark) if at + length <= end => {
                text += &line(at, &memory[at..at + length], Some(&remark));
                at += length;
            }
            Some(_) => {
                for (single, byte) in (at..end).zip(&memory[at..]) {
                    text += &line(single, &[*byte], None);
                }
                at = end;
            }
            None => {
                text += &line(at, &memory[at..at + 1], None);
                at += 1;
            }
        }
    }
    text
}

/// The exported function: the listing at the front of the lent text and its
/// length as a word, and the answer 0; or a refusal by number. 8 is a text that
/// is too short: it stays, and the word is the length needed.
pub fn write_listing(
    memory: &[u8],
    text: &mut [u8],
    length: &mut [u8],
    start: u64,
    end: u64,
) -> u64 {
    if let Err(refusal) = check_memory(memory.len() as u64) {
        return refusal.number();
    }
    if length.len() != LENGTH_BYTES {
        return Refusal::Buffer.number();
    }
    if start > end || end > memory.len() as u64 {
        return 7;
    }
    let listing = listing(memory, start as usize, end as usize);
    length.copy_from_slice(&(listing.len() as u64).to_le_bytes());
    match text.get_mut(..listing.len()) {
        Some(front) => front.copy_from_slice(listing.as_bytes()),
        None => return 8,
    }
    0
}

#[cfg(test)]
mod tests {
    use super::*;
    use crate::programs::{from_hex, listing_001};

    /// The examples, and each form.
    #[test]
    fn each_form_has_its_notation() {
        let forms = [
            ("00", "halt"),
            ("10", "nop"),
            ("2023", "rrmovq %rdx, %rbx"),
            ("2123", "cmovle %rdx, %rbx"),
            ("26e0", "cmovg %r14, %rax"),
            ("30f00900000000000000", "irmovq $9, %rax"),
            ("30810000000000000080", "irmovq $9223372036854775808, %rcx"),
            ("40040000000000000000", "rmmovq %rax, 0(%rsp)"),
            ("50a70800000000000000", "mrmovq 8(%rdi), %r10"),
            (
                "5021ffffffffffffffff",
                "mrmovq 18446744073709551615(%rcx), %rdx",
            ),
            ("6123", "subq %rdx, %rbx"),
            ("6356", "xorq %rbp, %rsi"),
            ("704000000000000000", "jmp 64"),
            ("714000000000000000", "jle 64"),
            ("764000000000000000", "jg 64"),
            ("805400000000000000", "call 84"),
            ("90", "ret"),
            ("a04f", "pushq %rsp"),
            ("b040", "popq %rsp"),
            ("c0f70800000000000000", "iaddq $8, %rdi"),
        ];
        for (bytes, says) in forms {
            let memory = from_hex(bytes);
            let whole = format!("0\t{bytes}\t{says}\n");
            assert_eq!(listing(&memory, 0, memory.len()), whole);
        }
    }

    #[test]
    fn addresses_have_no_leading_zeros() {
        let text = listing(&listing_001(), 0, 0x16);
        let lines = [
            "0\t30f20900000000000000\tirmovq $9, %rdx\n",
            "a\t30f31500000000000000\tirmovq $21, %rbx\n",
            "14\t6123\tsubq %rdx, %rbx\n",
        ];
        assert_eq!(text, lines.concat());
        let far = listing(&[0x10; 0x1_0000], 0xffff, 0x1_0000);
        assert_eq!(far, "ffff\t10\tnop\n");
    }

    #[test]
    fn bytes_that_start_none_are_lines_by_themselves() {
        // No such code; a named register of 15; cut off by memory.
        assert_eq!(listing(&[0xd0, 0x00], 0, 2), "0\td0\n1\t00\thalt\n");
        assert_eq!(listing(&[0x60, 0xf0], 0, 2), "0\t60\n1\tf0\n");
        assert_eq!(listing(&[0x30, 0x10], 0, 2), "0\t30\n1\t10\tnop\n");
        // An instruction that crosses the end: all of the rest, though 10 by
        // itself would be a nop.
        let image = from_hex("30f01010101010101010");
        assert_eq!(listing(&image, 0, 4), "0\t30\n1\tf0\n2\t10\n3\t10\n");
        assert_eq!(listing(&image, 2, 4), "2\t10\tnop\n3\t10\tnop\n");
        assert_eq!(listing(&image, 4, 4), "");
    }
}
