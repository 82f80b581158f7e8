//! The reasons of failed fetches (#107), as the counts name them.

use desk::second::fault::Reason;

/// By their numbers.
pub const REASONS: [&str; 6] = [
    "nothing",
    "first byte missing",
    "code",
    "function",
    "later byte missing",
    "register",
];

pub fn reason_name(reason: Reason) -> &'static str {
    REASONS[reason.number() as usize]
}
