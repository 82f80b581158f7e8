//! Codes, conditions, and the four operations.

/// The three codes, as 4ZF + 2SF + OF.
#[derive(Clone, Copy, Debug, Default, PartialEq, Eq)]
pub struct Codes(u8);

impl Codes {
    #[inline(always)]
    pub fn new(zero: bool, sign: bool, overflow: bool) -> Codes {
        Codes(u8::from(zero) << 2 | u8::from(sign) << 1 | u8::from(overflow))
    }

    /// The codes given as 4ZF + 2SF + OF; none when the number is over 7.
    pub fn from_number(number: u64) -> Option<Codes> {
        (number <= 7).then_some(Codes(number as u8))
    }

    /// The codes as 4ZF + 2SF + OF.
    pub fn number(self) -> u64 {
        u64::from(self.0)
    }

    #[inline(always)]
    pub const fn zero(self) -> bool {
        self.0 & 4 != 0
    }

    #[inline(always)]
    pub const fn sign(self) -> bool {
        self.0 & 2 != 0
    }

    #[inline(always)]
    pub const fn overflow(self) -> bool {
        self.0 & 1 != 0
    }

    /// The condition with this function number. Numbers above 6 name no
    /// condition; they are kept out by fetch and by refusal 5.
    #[inline(always)]
    pub fn condition(self, function: u8) -> bool {
        HOLDS[usize::from(function & 15)] >> self.0 & 1 != 0
    }
}

/// For each function number, the condition under each number of the codes,
/// worked out once.
static HOLDS: [u8; 16] = {
    let mut holds = [0; 16];
    let mut place = 0;
    while place < 16 * 8 {
        let (function, codes) = (place / 8, place % 8);
        if decide(function as u8, Codes(codes as u8)) {
            holds[function] |= 1 << codes;
        }
        place += 1;
    }
    holds
};

/// The condition as a decision over the seven function numbers.
const fn decide(function: u8, codes: Codes) -> bool {
    let less = codes.sign() != codes.overflow();
    match function {
        0 => true,
        1 => less || codes.zero(),
        2 => less,
        3 => codes.zero(),
        4 => !codes.zero(),
        5 => !less,
        6 => !less && !codes.zero(),
        _ => false,
    }
}

/// The function of addq, which iaddq computes whatever its own is (#101).
pub const ADD: u8 = 0;

/// B add, subtract, and, xor A by function 0 to 3, with the codes it sets.
#[inline(always)]
pub fn operate(function: u8, a: u64, b: u64) -> (u64, Codes) {
    let (signed_a, signed_b) = (a as i64, b as i64);
    let (result, overflow) = match function {
        0 => (b.wrapping_add(a), signed_b.checked_add(signed_a).is_none()),
        1 => (b.wrapping_sub(a), signed_b.checked_sub(signed_a).is_none()),
        2 => (b & a, false),
        _ => (b ^ a, false),
    };
    let codes = Codes::new(result == 0, (result as i64) < 0, overflow);
    (result, codes)
}
