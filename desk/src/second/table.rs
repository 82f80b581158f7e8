//! The table of sixteen rows, and what follows from an instruction's code.

use super::machine::{NONE, RSP};

pub const HALT: u8 = 0x0;
pub const NOP: u8 = 0x1;
pub const CMOV: u8 = 0x2;
pub const IRMOVQ: u8 = 0x3;
pub const RMMOVQ: u8 = 0x4;
pub const MRMOVQ: u8 = 0x5;
pub const OPQ: u8 = 0x6;
pub const JXX: u8 = 0x7;
pub const CALL: u8 = 0x8;
pub const RET: u8 = 0x9;
pub const PUSHQ: u8 = 0xa;
pub const POPQ: u8 = 0xb;
pub const IADDQ: u8 = 0xc;

/// What the register byte of an instruction has to say.
#[derive(Clone, Copy, Debug, PartialEq, Eq)]
pub enum RegisterByte {
    /// There is no register byte.
    Absent,
    /// rA and rB are both named.
    Both,
    /// rB is named; the other half is a filler, which is not looked at.
    OnlyB,
    /// rA is named; the other half is a filler.
    OnlyA,
}

/// One row of the table.
#[derive(Clone, Copy, Debug, PartialEq, Eq)]
pub struct Row {
    /// Length in bytes.
    pub length: u8,
    /// Functions 0 to this number less one are in the table.
    pub functions: u8,
    pub register_byte: RegisterByte,
}

const fn row(length: u8, functions: u8, register_byte: RegisterByte) -> Row {
    Row {
        length,
        functions,
        register_byte,
    }
}

/// The rows by code.
pub static TABLE: [Row; 16] = [
    row(1, 1, RegisterByte::Absent), // halt
    row(1, 1, RegisterByte::Absent), // nop
    row(2, 7, RegisterByte::Both),   // cmovXX
    row(10, 1, RegisterByte::OnlyB), // irmovq
    row(10, 1, RegisterByte::Both),  // rmmovq
    row(10, 1, RegisterByte::Both),  // mrmovq
    row(2, 4, RegisterByte::Both),   // OPq
    row(9, 7, RegisterByte::Absent), // jXX
    row(9, 1, RegisterByte::Absent), // call
    row(1, 1, RegisterByte::Absent), // ret
    row(2, 1, RegisterByte::OnlyA),  // pushq
    row(2, 1, RegisterByte::OnlyA),  // popq
    row(10, 1, RegisterByte::OnlyB), // iaddq (#101)
    row(1, 0, RegisterByte::Absent),
    row(1, 0, RegisterByte::Absent),
    row(1, 0, RegisterByte::Absent),
];

/// The row of a code, which is read from four bits.
#[inline(always)]
pub fn row_of(code: u8) -> Row {
    TABLE[usize::from(code & 15)]
}

/// For each code, which of rA, rB, rsp and none is source A, source B, the
/// result's target (a false cmov aside) and the loaded word's target.
static ROLES: [RoleRow; 16] = {
    use Pick::{No, Rsp, A, B};
    [
        role_row([No, No, No, No]),    // halt
        role_row([No, No, No, No]),    // nop
        role_row([A, No, B, No]),      // cmovXX
        role_row([No, No, B, No]),     // irmovq
        role_row([A, B, No, No]),      // rmmovq
        role_row([No, B, No, A]),      // mrmovq
        role_row([A, B, B, No]),       // OPq
        role_row([No, No, No, No]),    // jXX
        role_row([No, Rsp, Rsp, No]),  // call
        role_row([Rsp, Rsp, Rsp, No]), // ret
        role_row([A, Rsp, Rsp, No]),   // pushq
        role_row([Rsp, Rsp, Rsp, A]),  // popq
        role_row([No, B, B, No]),      // iaddq
        role_row([No, No, No, No]),
        role_row([No, No, No, No]),
        role_row([No, No, No, No]),
    ]
};

/// Where the register of a role comes from.
#[derive(Clone, Copy)]
enum Pick {
    A,
    B,
    Rsp,
    No,
}

/// A row of picks as masks over the four roles, so that all four are worked
/// out at once.
#[derive(Clone, Copy)]
struct RoleRow {
    from_a: u32,
    from_b: u32,
    fixed: u32,
}

const fn role_row(picks: [Pick; 4]) -> RoleRow {
    let mut row = RoleRow {
        from_a: 0,
        from_b: 0,
        fixed: 0,
    };
    let mut role = 0;
    while role < 4 {
        let shift = 8 * role;
        match picks[role] {
            Pick::A => row.from_a |= 0xff << shift,
            Pick::B => row.from_b |= 0xff << shift,
            Pick::Rsp => row.fixed |= (RSP as u32) << shift,
            Pick::No => row.fixed |= (NONE as u32) << shift,
        }
        role += 1;
    }
    row
}

/// The roles of rA and rB under a code, the first role in the lowest byte.
#[inline(always)]
pub fn roles(code: u8, ra: u8, rb: u8) -> u32 {
    const EVERY: u32 = 0x0101_0101;
    let row = ROLES[usize::from(code & 15)];
    ((u32::from(ra) * EVERY) & row.from_a) | ((u32::from(rb) * EVERY) & row.from_b) | row.fixed
}
