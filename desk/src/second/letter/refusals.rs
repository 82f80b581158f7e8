//! The refusals that both engines share, each by itself.

use crate::second::machine::{Refusal, MEMORY_LIMIT};
use crate::second::window::Window;

/// Refusal 1, of a memory's size, which is the sum of its parts (#110).
pub fn of_size(size: u64) -> Option<Refusal> {
    (size == 0 || size > MEMORY_LIMIT as u64).then_some(Refusal::Memory)
}

/// Refusal 6, of a fresh start's address that is not below N.
pub fn of_start(size: u64, start: u64) -> Option<Refusal> {
    (start >= size).then_some(Refusal::Start)
}

/// Refusal 5, of a window whose first address and end are not both at most N,
/// or whose end is below the first (#113).
pub fn of_window(window: Option<Window>, size: u64) -> Option<Refusal> {
    let Window { first, end } = window?;
    let fits = first <= end && end <= size;
    (!fits).then_some(Refusal::Record)
}

/// Refusal 3, of the budget with what was spent before.
pub fn of_budget(spent: u64, budget: u64, limit: u64) -> Option<Refusal> {
    let end = u128::from(spent) + u128::from(budget);
    (budget == 0 || end > u128::from(limit)).then_some(Refusal::Budget)
}

/// Refusal 4, of the lent logs.
pub fn of_logs(logs: &[&[u64]], budget: u64) -> Option<Refusal> {
    let short = |log: &&[u64]| (log.len() as u128) < u128::from(budget);
    logs.iter().any(short).then_some(Refusal::Buffer)
}

/// Lowest number wins.
pub fn lowest(reasons: &[Refusal]) -> Result<(), Refusal> {
    match reasons.iter().min() {
        Some(refusal) => Err(*refusal),
        None => Ok(()),
    }
}
